"""The tables of a comparison: what was measured as CSV, and ratios by family for the documents."""
import csv
import math
import re

BEGIN, END = '<!-- bench: begin -->', '<!-- bench: end -->'
# Times that differ by less than this are told as level.
LEVEL = 1.05
FIXED = ('collection', 'family', 'size', 'order', 'nodes', 'arcs', 'MiB of flow', 'least MiB of others', 'directed')
TITLES = {'foreign': 'families hard for one method', 'own': 'families it was first measured with',
          'real': 'photographs and packages', 'connect': 'connectivity'}


def table(head, rows, numbers):
    """A table of Markdown, whose last columns, so many, are of numbers."""
    bars = ['---'] * (len(head) - numbers) + ['---:'] * numbers
    return '\n'.join(f'| {" | ".join(map(str, row))} |' for row in [head, bars, *rows])


def told(factor):
    """A factor as it stands in a table."""
    return f'{factor:.0f}' if factor >= 10 else f'{factor:.1f}' if factor >= 1 else f'{factor:.2f}'


class Ratio:
    """The time of flow over that of the fastest other solver on a problem, with its name: at most that ('<') where all
    others were stopped, at least that ('>') where flow was, and nothing where neither can be said."""

    def __init__(self, row):
        times = {name: float(cell) for name, cell in row.items() if name not in FIXED and re.match(r'\d', str(cell))}
        stops = {name: float(cell[1:]) for name, cell in row.items() if str(cell)[:1] == '>' and name not in FIXED}
        own = times.pop('flow', None)
        took, self.name = min(((took, name) for name, took in times.items()), default=(None, ''))
        self.row, self.sign, self.factor = row, '', None
        if own is not None and took is not None:
            self.factor = own / took
        elif own is not None and stops:
            self.factor, self.sign = own / min(stops.values()), '<'
        elif took is not None and 'flow' in stops:
            self.factor, self.sign = stops['flow'] / took, '>'

    def is_behind(self):
        return self.factor is not None and self.sign != '<' and self.factor > LEVEL

    def cell(self):
        text = f'{self.sign}{told(self.factor)} {self.name}'.strip() if self.factor is not None else '-'
        return f'**{text}**' if self.is_behind() else text


def mean(ratios):
    """The geometric mean of the factors, bounds as they are."""
    return math.exp(sum(math.log(max(ratio.factor, 1e-9)) for ratio in ratios) / len(ratios))


def kind_of(family):
    """The row of a family in its table: photographs of one kind, such as photograph-coffee-4, share photographs-4."""
    return re.sub(r'^photograph-\w+-', 'photographs-', family)


def shared_cell(ratios):
    """The cell of all ratios that share it: of several their mean, with the other solvers that were fastest."""
    if len(ratios) == 1:
        return ratios[0].cell()
    known = [ratio for ratio in ratios if ratio.factor is not None]
    if not known:
        return '-'
    text = ' '.join([told(mean(known)), *dict.fromkeys(ratio.name for ratio in known)])
    return f'**{text}**' if mean(known) > LEVEL else text


class Report:
    """What was measured, as rows of flows and of connect, and what they come to."""

    def __init__(self, about, flows, links):
        self.about, self.flows, self.links = about, flows, links
        self.ratios = [Ratio(row) for row in [*flows, *links]]

    def of(self, collection, size=None, order=None):
        """The ratios of a collection, of a size, in an order."""
        return [ratio for ratio in self.ratios if ratio.row['collection'] == collection
                and size in (None, ratio.row['size']) and order in (None, ratio.row['order'])]

    def columns(self, collection):
        """The sizes and orders of a collection."""
        return list(dict.fromkeys((ratio.row['size'], ratio.row['order']) for ratio in self.of(collection)))

    def summary(self, in_all=False):
        """The table of means: a row for each collection, in all or for each size and order."""
        rows = []
        for collection, title in TITLES.items():
            for size, order in [(None, None)] if in_all else self.columns(collection):
                ratios = [ratio for ratio in self.of(collection, size, order) if ratio.factor is not None]
                if ratios:
                    worst = max(ratios, key=lambda ratio: ratio.factor)
                    label = [title, *([] if in_all else [f'{size:,}' if size > 1 else '', order])]
                    behind = sum(ratio.is_behind() for ratio in ratios)
                    rows.append([*label, told(mean(ratios)), f'{behind} of {len(ratios)}',
                                 f'{worst.row["family"]} {worst.cell().strip("*")}'])
        return table(['Problems', *([] if in_all else ['Arcs or nodes', 'Order']), 'flow over the fastest other',
                      'Behind on', 'Worst'], rows, 0)

    def families(self, collection):
        """A row for each family of a collection: the ratio at each size in each order, with the fastest other."""
        columns, cells = self.columns(collection), {}
        for ratio in self.of(collection):
            place = ratio.row['size'], ratio.row['order']
            cells.setdefault(kind_of(ratio.row['family']), {}).setdefault(place, []).append(ratio)
        rows = [[kind, *(shared_cell(known[column]) if column in known else '-' for column in columns)]
                for kind, known in cells.items()]
        return table(['Family', *(f'{size:,}, {order}' if size > 1 else order for size, order in columns)], rows,
                     len(columns))

    def networks(self):
        """The CPU seconds of connect on the largest networks, in each order."""
        largest = max((row['size'] for row in self.links), default=0)
        orders, rows = list(dict.fromkeys(row['order'] for row in self.links)), {}
        for row in self.links:
            if row['size'] == largest:
                known = rows.setdefault(row['family'], [row['family'], f'{row["nodes"]:,}', f'{row["arcs"]:,}'])
                known += [row.get('flow', '-'), row.get('directed', '-')]
        head = [f'{words}, {order}' for order in orders for words in ('`--undirected`', '`connect`')]
        return table(['Network', 'Nodes', 'Arcs', *head], rows.values(), 2 + len(head))

    def page(self):
        """What docs/BENCHMARKS.md says of a run."""
        parts = [self.summary(), f'Run of {self.about}.']
        for collection in ('foreign', 'own', 'real'):
            if self.of(collection):
                parts += [f'### Ratios: {TITLES[collection]}', self.families(collection)]
        return '\n\n'.join([*parts, '### CPU seconds of connect', self.networks()])

    def write(self, top):
        """Writes what was measured, and puts the tables into the documents."""
        folder = top / 'bench' / 'results'
        folder.mkdir(exist_ok=True)
        for name, rows in (('flows', self.flows), ('connect', self.links)):
            with (folder / f'{name}.csv').open('w', newline='', encoding='utf-8') as out:
                writer = csv.DictWriter(out, list(dict.fromkeys(key for row in rows for key in row)), restval='',
                                        lineterminator='\n')
                writer.writeheader()
                writer.writerows(rows)
        put(top / 'docs' / 'BENCHMARKS.md', self.page())
        put(top / 'README.md', f'{self.summary(True)}\n\nRun of {self.about}; CPU seconds.')


def put(path, text):
    """Puts a text between the two markers of a document."""
    page = path.read_text(encoding='utf-8')
    if page.count(BEGIN) != 1 or page.count(END) != 1:
        raise SystemExit(f'{path.name} has no place between one {BEGIN} and one {END}')
    before, after = page.split(BEGIN)[0], page.split(END)[1]
    path.write_text(f'{before}{BEGIN}\n{text}\n{END}{after}', encoding='utf-8')
