"""Problems on grids: pictures, volumes and photographs to be cut into object and background, and roads.

A problem is its number of nodes, its source, its sink, and its arcs as triples of tail, head and capacity. Nodes are
numbers from 0. Each family takes a random generator and the number of arcs wanted.
"""
import importlib.util
import math
from pathlib import Path

from networks import collected, variant

# Where Debian's packages python3-skimage and opencv-doc have their photographs, and the strokes on each, as a user
# would draw them: from and to a point, the pixels within two of the line between.
PHOTOGRAPHS = [Path('/usr/lib/python3/dist-packages/skimage/data'), Path('/usr/share/doc/opencv-doc/examples/data')]
STROKES = {
    'coffee': ([(190, 60, 185, 110), (290, 28, 345, 50), (230, 150, 340, 160), (200, 190, 260, 215),
                (300, 215, 390, 160), (110, 180, 130, 260), (150, 310, 260, 360), (300, 360, 420, 300),
                (450, 200, 440, 150), (345, 280, 375, 300)],
               [(20, 120, 120, 50), (15, 30, 70, 15), (15, 200, 40, 330), (60, 350, 160, 395), (480, 40, 580, 120),
                (500, 250, 580, 200), (430, 385, 560, 320), (420, 30, 540, 20)]),
    'astronaut': ([(200, 90, 240, 130), (180, 30, 260, 30), (130, 330, 300, 330), (60, 420, 380, 480),
                   (220, 200, 230, 250)],
                  [(20, 20, 60, 300), (350, 30, 500, 30), (480, 60, 480, 480), (300, 30, 330, 60)]),
    'squirrel_cls': ([(200, 230, 220, 320), (280, 165, 335, 190), (220, 140, 165, 280), (250, 270, 265, 305),
                      (280, 235, 340, 240)],
                     [(360, 270, 520, 190), (230, 390, 320, 370), (40, 90, 200, 60), (330, 60, 500, 30),
                      (30, 280, 100, 380), (60, 180, 110, 220), (430, 350, 510, 390), (400, 130, 500, 110)]),
    'messi5': ([(225, 80, 245, 75), (232, 105, 245, 118), (200, 120, 245, 220), (270, 125, 250, 200),
                (250, 265, 310, 235), (100, 105, 150, 125), (310, 145, 350, 165), (340, 250, 360, 255),
                (390, 255, 420, 265), (430, 268, 445, 275), (240, 275, 260, 305), (265, 322, 300, 325)],
               [(20, 40, 180, 60), (300, 50, 520, 80), (20, 180, 180, 190), (440, 200, 530, 220), (20, 290, 180, 310),
                (350, 310, 370, 315), (320, 290, 330, 320), (460, 250, 530, 240)]),
    'building': ([(220, 170, 820, 60), (200, 330, 800, 230), (300, 380, 500, 370), (550, 420, 850, 380),
                  (300, 490, 850, 500)],
                 [(30, 150, 130, 300), (200, 60, 250, 40), (40, 420, 200, 400), (10, 330, 20, 440), (60, 480, 350, 510),
                  (20, 560, 850, 580), (20, 50, 150, 60)]),
}


def grown(count, share):
    """The sides of a picture of so many pixels, its height that share of its width."""
    height = max(2, math.isqrt(int(count * share)))
    return height, max(2, int(count) // height)


def blurred(rand):
    """A number near 0 that is more likely the nearer: the sum of three of equal likelihood."""
    return rand.random() + rand.random() + rand.random() - 1.5


def discs(rand, height, width):
    """A picture of light discs on a dark ground, in grey from 0 to 1, with noise."""
    image = [[.35] * width for _ in range(height)]
    for _ in range(6 + height * width // 8000):
        y, x, radius, grey = rand.randrange(height), rand.randrange(width), rand.randint(3, 60), rand.uniform(.5, .8)
        for i in range(max(0, y - radius), min(height, y + radius + 1)):
            reach = math.isqrt(radius * radius - (i - y) * (i - y))
            left, right = max(0, x - reach), min(width, x + reach + 1)
            image[i][left:right] = [grey] * max(0, right - left)
    return [[grey + .28 * blurred(rand) for grey in row] for row in image]


def segmentation(rand, arcs, neighbours=4):
    """Boykov and Jolly 2001: a pixel is a node; the terminals take its likelihoods, 4 or 8 neighbours its contrasts."""
    height, width = grown(arcs / (1 + neighbours), 3 / 4)
    image = discs(rand, height, width)
    steps = [(0, 1, 400), (1, 0, 400)] + ([(1, 1, 283), (1, -1, 283)] if neighbours == 8 else [])
    source, sink = height * width, height * width + 1
    found = []
    for i, row in enumerate(image):
        for j, grey in enumerate(row):
            here = i * width + j
            likelihood = int(1000 * (grey - .5))
            found.append((source, here, likelihood + 1) if likelihood >= 0 else (here, sink, 1 - likelihood))
            for down, right, most in steps:
                if i + down < height and 0 <= j + right < width:
                    there = here + down * width + right
                    contrast = grey - image[i + down][j + right]
                    weight = 1 + int(most * math.exp(-contrast * contrast / .045))
                    found += [(here, there, weight), (there, here, weight)]
    return height * width + 2, source, sink, found


def stereo(rand, arcs):
    """Boykov, Veksler and Zabih 2001: one expansion move; weak costs of either sign, smoothing that is strong and not
    the same both ways."""
    height, width = grown(arcs / 5, 3 / 4)
    source, sink = height * width, height * width + 1
    found = []
    above, along = [0.] * width, 0.
    for i in range(height):
        for j in range(width):
            here = i * width + j
            along = .9 * along + rand.random() - .5
            above[j] = along + .6 * above[j]
            cost = int(above[j] * 12 + 41 * rand.random() - 20)
            if cost:
                found.append((source, here, cost) if cost > 0 else (here, sink, -cost))
            for there, inside in ((here + 1, j + 1 < width), (here + width, i + 1 < height)):
                if inside:
                    most = 60 if rand.random() < .2 else 20
                    found += [(here, there, most), (there, here, int(rand.random() * (most + 1)))]
    return height * width + 2, source, sink, found


def volume(rand, arcs):
    """Boykov and Funka-Lea 2006: a scan in three dimensions, 6 neighbours, bodies of every size in noise."""
    side = max(2, round((arcs / 6.5) ** (1 / 3)))
    count = side ** 3
    grey = [.35 + .3 * blurred(rand) for _ in range(count)]
    for _ in range(4 + side // 6):
        centre = [side * rand.random() for _ in range(3)]
        radius, light = 2 + side / 5 * rand.random(), rand.uniform(.1, .3)
        ends = [range(max(0, int(at - radius)), min(side, int(at + radius) + 1)) for at in centre]
        for z in ends[0]:
            for y in ends[1]:
                reach = radius ** 2 - (z - centre[0]) ** 2 - (y - centre[1]) ** 2
                for x in (x for x in ends[2] if (x - centre[2]) ** 2 <= reach):
                    grey[(z * side + y) * side + x] += light
    source, sink = count, count + 1
    found = []
    for here in range(count):
        likelihood = int(1000 * (grey[here] - .5))
        found.append((source, here, likelihood + 1) if likelihood >= 0 else (here, sink, 1 - likelihood))
        for step in (1, side, side * side):
            if here // step % side + 1 < side:
                contrast = grey[here] - grey[here + step]
                weight = 1 + int(300 * math.exp(-contrast * contrast / .05))
                found += [(here, here + step, weight), (here + step, here, weight)]
    return count + 2, source, sink, found


def surface(rand, arcs):
    """Boykov and Kolmogorov 2003: a least surface between seeds, a ball within and the faces of the cube without; no
    other costs but those of the surface, low along a bumpy shell."""
    side = max(4, round((arcs / 6) ** (1 / 3)))
    count = side ** 3
    middle = (side - 1) / 2
    source, sink = count, count + 1
    bumps = [(rand.uniform(.1, .5), rand.uniform(.1, .5), 6 * rand.random()) for _ in range(4)]
    cost, found = [], []
    for here in range(count):
        z, y, x = here // (side * side), here // side % side, here % side
        far = math.dist((z, y, x), (middle, middle, middle))
        bump = sum(math.sin(a * z + b * y + c + a * x) for a, b, c in bumps)
        off = abs(far - .3 * side) - .6 * bump
        cost.append(10 + int(200 * (1 - math.exp(-off * off / 8)) + 90 * rand.random()))
        if far <= max(1, .08 * side):
            found.append((source, here, 1000000))
        elif 0 in (z, y, x) or side - 1 in (z, y, x):
            found.append((here, sink, 1000000))
    for here in range(count):
        for step in (1, side, side * side):
            if here // step % side + 1 < side:
                weight = cost[here] + cost[here + step]
                found += [(here, here + step, weight), (here + step, here, weight)]
    return count + 2, source, sink, found


def found_photograph(name):
    """The path of a photograph, if it is on the machine and Pillow can read it."""
    paths = [path for folder in PHOTOGRAPHS for path in sorted(folder.glob(f'{name}.*'))]
    return paths[0] if paths and importlib.util.find_spec('PIL') else None


def photograph(_rand, _arcs, name, neighbours=4, as_terminals=False):
    """Boykov and Jolly 2001 on a whole photograph: strokes are ample arcs or themselves sources and sinks, colours cost
    by the strokes' histograms, and an outline costs least where colours differ."""
    import PIL.Image
    image = PIL.Image.open(found_photograph(name)).convert('RGB')
    (width, height), pixels = image.size, list(image.getdata())
    marked = [stroked(strokes, height, width) for strokes in STROKES[name]]
    bins = [red // 24 * 121 + green // 24 * 11 + blue // 24 for red, green, blue in pixels]
    likely = [histogram([bins[here] for here in strokes]) for strokes in marked]
    costs = [int(100 * math.log(one / other)) for one, other in zip(*likely)]
    steps = [(0, 1, 1.), (1, 0, 1.)] + ([(1, 1, math.sqrt(.5)), (1, -1, math.sqrt(.5))] if neighbours == 8 else [])
    source, sink = height * width, height * width + 1
    found = []
    for here, colour in enumerate(pixels):
        is_marked = here in marked[0] or here in marked[1]
        cost = (1000000 if here in marked[0] else -1000000) if is_marked else costs[bins[here]]
        if cost and not (is_marked and as_terminals):
            found.append((source, here, cost) if cost > 0 else (here, sink, -cost))
        i, j = divmod(here, width)
        for down, right, share in steps:
            if i + down < height and 0 <= j + right < width:
                there = here + down * width + right
                unlike = sum((one - other) ** 2 for one, other in zip(colour, pixels[there]))
                weight = 1 + int(1000 * share * math.exp(-unlike / 1200))
                found += [(here, there, weight), (there, here, weight)]
    sources, sinks = (sorted(marked[0]), sorted(marked[1] - marked[0])) if as_terminals else ([], [])
    return height * width + 2, [source, *sources], [sink, *sinks], found


def stroked(strokes, height, width):
    """The pixels of some strokes, as a set of nodes."""
    around = range(-2, 3)
    points = set()
    for x, y, to_x, to_y in strokes:
        steps = max(abs(to_x - x), abs(to_y - y), 1)
        points |= {(y + (to_y - y) * k // steps + a, x + (to_x - x) * k // steps + b)
                   for k in range(steps + 1) for a in around for b in around}
    return {y * width + x for y, x in points if 0 <= y < height and 0 <= x < width}


def histogram(bins):
    """How likely each bin of colours is among those of some strokes; none is impossible."""
    counts = [.02] * 11 ** 3
    for place in bins:
        counts[place] += 1
    whole = sum(counts)
    return [count / whole for count in counts]


def streets(rand, height, width, capacity):
    """Two-way streets on a planar grid, some missing, some diagonal, each sixteenth of them wide: triples, by a
    function that gives the capacity of a street by whether it is wide."""
    found = []
    for i in range(height):
        for j in range(width):
            here = i * width + j
            near = []
            if j + 1 < width and (i % 16 == 0 or rand.random() >= .15):
                near.append((here + 1, i % 16 == 0))
            if i + 1 < height and (j % 16 == 0 or rand.random() >= .15):
                near.append((here + width, j % 16 == 0))
            if i + 1 < height and j + 1 < width and rand.random() < .08:
                near.append((here + width + 1, False))
            for there, wide in near:
                most = capacity(wide)
                found += [(here, there, most),
                          (there, here, most if rand.random() >= .1 else 1 + int(most * rand.random()))]
    return found


def streets_across(rand, arcs, height, capacity, ample):
    """A map of streets, from its west side to its east side; the height is that of a square map where none is given."""
    height = height or max(2, round((arcs / 3.6) ** .5))
    width = max(2, round(arcs / 3.6 / height))
    source, sink = height * width, height * width + 1
    found = [(source, i * width, ample) for i in range(height)]
    found += streets(rand, height, width, capacity)
    found += [(i * width + width - 1, sink, ample) for i in range(height)]
    return height * width + 2, source, sink, found


def roads(rand, arcs, height=0):
    """Two-way streets of 1 to 2,000 and wide ones of up to 20,000, from the west side of a map to its east side."""
    return streets_across(rand, arcs, height, lambda wide: (
        int(2000 + 18000 * rand.random()) if wide else 1 + int(2000 * rand.random())), 1000000)


def long_road(rand, arcs):
    """The same, 24 streets high and as long as it takes."""
    return roads(rand, arcs, 24 if arcs > 5000 else 4)


def unit_roads(rand, arcs):
    """Routes that share no street (Menger 1927): every street has capacity 1."""
    return streets_across(rand, arcs, 0, lambda wide: 1, 4)


def magnitudes(rand, arcs):
    """Streets with capacities over twelve orders of magnitude, each order as likely."""
    return streets_across(rand, arcs, 0, lambda wide: int(10 ** (12 * rand.random())), 10 ** 12)


def photographs():
    """The families of the photographs that are on the machine."""
    return {f'photograph-{name}-{kind}': variant(photograph, name=name, **named)
            for name in STROKES if found_photograph(name)
            for kind, named in (('4', {'neighbours': 4}), ('8', {'neighbours': 8}), ('strokes', {'as_terminals': True}))
            if (name, kind) != ('building', '8')}  # which has too many arcs


FAMILIES = {'segmentation-4': segmentation, 'segmentation-8': variant(segmentation, neighbours=8), 'roads': roads,
            **collected(globals(), 'arcs')}
