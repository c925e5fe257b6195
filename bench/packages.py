"""Problems on the packages that apt lists on this machine and on what they depend: networks that nobody drew, with
hubs. A third of all packages depends on the C library.

A package depends on the first of the alternatives that a dependency names; where that is a virtual package, on the
first one that provides it; and on nothing where neither is listed. With other lists the problems are others, so their
sizes stand beside their times.
"""
import functools
import re
import shutil
import subprocess

import networks

FIELDS = ('Package', 'Section', 'Installed-Size', 'Depends', 'Pre-Depends', 'Provides')


def names(field):
    """The packages that a field names, of alternatives the first: 'a (>= 2), b:any | c' names a and b."""
    return [name for name in (re.match(r'[^ (:|]*', part.strip())[0] for part in field.split(',')) if name]


@functools.lru_cache
def listed():
    """The section and the size of each package, and the links (package, what it depends on), in order."""
    text = subprocess.run(['apt-cache', 'dumpavail'], stdout=subprocess.PIPE, encoding='utf-8', check=True).stdout
    found = {}
    for paragraph in text.split('\n\n'):
        lines = (line for line in paragraph.splitlines() if line.startswith(FIELDS) and ': ' in line)
        fields = dict(line.split(': ', 1) for line in lines)
        if 'Package' in fields:
            found.setdefault(fields['Package'], fields)
    number = {name: place for place, name in enumerate(found)}
    for fields in found.values():
        for name in names(fields.get('Provides', '')):
            number.setdefault(name, number[fields['Package']])
    links = sorted({(package, number[name]) for package, fields in enumerate(found.values())
                    for name in names(fields.get('Depends', '') + ',' + fields.get('Pre-Depends', ''))
                    if number.get(name, package) != package})
    return [(fields.get('Section', '').split('/')[-1], int(fields.get('Installed-Size', 0)))
            for fields in found.values()], links


def sections(_rand, _arcs):
    """The fewest links whose loss parts Debian's sections gnome and kde (after Flake, Lawrence and Giles 2000)."""
    known, links = listed()
    source, sink = len(known), len(known) + 1
    found = [(source, package, len(links)) for package, (section, _) in enumerate(known) if section == 'gnome']
    found += [(package, sink, len(links)) for package, (section, _) in enumerate(known) if section == 'kde']
    return len(known) + 2, source, sink, found + [
        arc for package, needed in links for arc in ((package, needed, 1), (needed, package, 1))]


def mirror(_rand, _arcs):
    """Picard 1976: which packages to keep on a mirror, with all on which they depend, where those on which nothing
    depends are worth 12,800 KiB each and each package costs its size."""
    known, links = listed()
    source, sink, needed = len(known), len(known) + 1, {needed for _, needed in links}
    gains = [(0 if package in needed else 12800) - size for package, (_, size) in enumerate(known)]
    found = [(source, package, gain) if gain > 0 else (package, sink, -gain) for package, gain in enumerate(gains)]
    return len(known) + 2, source, sink, found + [(package, other, 12800 * len(known)) for package, other in links]


def densest(_rand, _arcs):
    """Goldberg 1984: is there a part of all packages with more than 11 links a package?"""
    known, links = listed()
    return networks.denser_part(len(known), sorted({(min(link), max(link)) for link in links}), 110)


FAMILIES = {f'packages-{call.__name__}': call for call in (sections, mirror, densest)
            if shutil.which('apt-cache')}
