#!/usr/bin/env python3
"""Cuts an object out of a picture, where strokes say what is object and what is background; see README.md."""

import argparse
import sys
from pathlib import Path

HERE = Path(__file__).resolve().parent
sys.path.insert(0, str(HERE.parent / "common"))

import numpy as np
import script
from PIL import Image, ImageFilter, ImageOps
from provedflow.pixels import Grid
from scipy import ndimage

Image.MAX_IMAGE_PIXELS = None
PAINTS = {"object": (255, 0, 0), "background": (0, 0, 255)}  # Each channel of a stroke may differ from these by 60.
STEP, LINK = 900, 35_000
"""The squared difference of colours at which an outline costs half of what it costs in flat ground, and what it costs
there, between two pixels side by side, where --outline is 10. Between slanting ones it costs 7 tenths of that."""
FIXED = 2 ** 40  # What it costs to take a marked pixel for the other kind: more than all else about a pixel.
SAMPLES, SHOWN = 12, 1600  # How many colours stand for the strokes of a kind, and how wide the sheet is at the most.


def colours_of(path):
    """A picture in colours. Greys of more than 8 bits are scaled to 8 by the number of bits that the brightest has."""
    picture = ImageOps.exif_transpose(Image.open(path))
    if picture.mode[0] in "IF":
        grey = np.nan_to_num(np.asarray(picture)).clip(0)
        most = 2 ** max(int(grey.max()).bit_length(), 1) - 1
        picture = Image.fromarray(np.rint(grey * (255 / most)).astype(np.uint8))
    return picture.convert("RGB")


def marks_of(path, picture):
    """For object and background the mask of the pixels that are painted, and aren't so in the picture itself."""
    painted = ImageOps.exif_transpose(Image.open(path)).convert("RGBA")
    if painted.size != picture.size:
        raise script.Refused(f"{path} is {painted.width} by {painted.height} pixels, and the picture is "
                             f"{picture.width} by {picture.height}")
    painted, marks = np.asarray(painted).astype(np.int16), {}
    seen = (painted[..., 3] > 127) & (painted[..., :3] != np.asarray(picture)).any(axis=2)
    for what, paint in PAINTS.items():
        marks[what] = seen & (abs(painted[..., :3] - paint) <= 60).all(axis=2)
        if not marks[what].any():
            raise script.Refused(f"{path}: no stroke marks the {what}; such strokes have the colour {paint}")
    return marks


def shrunk(mask, size):
    """The mask of a smaller picture, in which a pixel is marked where any was."""
    small, (rows, columns) = np.zeros(size[::-1], bool), np.nonzero(mask)
    small[rows * size[1] // mask.shape[0], columns * size[0] // mask.shape[1]] = True
    return small


def colour_costs(pixels, marks):
    """For each pixel, by how much its colour is less like the strokes of the background than like those of the object.
    The means of the largest groups of like colours stand for strokes. Four shades of a channel count as one."""
    shades, unlike = np.stack(np.meshgrid(*[np.arange(2, 256, 4)] * 3, indexing="ij"), axis=-1), {}
    for what, mask in marks.items():
        _, place, sizes = np.unique(pixels[mask] >> 5, axis=0, return_inverse=True, return_counts=True)
        sums = np.stack([np.bincount(place.ravel(), channel) for channel in pixels[mask].T], axis=1)
        samples = (sums // sizes[:, None])[np.argsort(-sizes, kind="stable")[:SAMPLES]]
        unlike[what] = np.min([((shades - sample) ** 2).sum(axis=-1) for sample in samples], axis=0)
    more = (unlike["background"] - unlike["object"]).astype(np.int64)
    return more[tuple(np.moveaxis(pixels >> 2, 2, 0))]


def cut(pixels, marks, words):
    """The value of a minimum cut, and the mask of the object: the fewest pixels of all that cost as little."""
    def outline(here, there, step):
        flat = int(LINK * words.outline / 10 * (8 / words.neighbours) * (0.7 if all(step) else 1))
        unlike = sum((here[..., channel] - there[..., channel]) ** 2 for channel in range(3))
        return flat * STEP // (STEP + unlike)

    grid, costs = Grid(pixels.shape[:2], words.neighbours), colour_costs(pixels, marks)
    grid.join(outline, of=pixels)
    grid.add_terminals(costs.clip(0) + FIXED * marks["object"], (-costs).clip(0) + FIXED * marks["background"])
    value, background = grid.cut()
    return value, ~background


def sheet_of(picture, marks, mask):
    """The picture with its strokes, which have a white rim, and the object alone, side by side."""
    left = picture.copy()
    left.thumbnail((SHOWN // 2, picture.height))
    sheet = Image.new("RGB", (2 * left.width, left.height), "white")
    sheet.paste(left, (left.width, 0), mask.resize(left.size))
    for what, paint in PAINTS.items():
        small = Image.fromarray(shrunk(marks[what], left.size)).convert("L")
        left.paste("white", mask=small.filter(ImageFilter.MaxFilter(5)))
        left.paste(paint, mask=small.filter(ImageFilter.MaxFilter(3)))
    sheet.paste(left, (0, 0))
    return sheet


def main():
    words = argparse.ArgumentParser(description=__doc__)
    words.add_argument("picture", nargs="?", default=HERE / "picture.png", help="else the example's own")
    words.add_argument("strokes", nargs="?", default=HERE / "strokes.png",
                       help="a picture of the same size, red on the object and blue on the background")
    words.add_argument("--outline", metavar="NUMBER", type=float, default=10, help="what an outline costs; else 10")
    words.add_argument("--neighbours", type=int, choices=(4, 8), default=8, help="of a pixel; else 8")
    words.add_argument("--most", metavar="PIXELS", type=int, help="make a picture with a longer side smaller first")
    words.add_argument("--marked-only", action="store_true", help="drop the pieces of the object without a stroke")
    words.add_argument("--out", metavar="FOLDER", help="where the results go; else out/segmentation")
    given = words.parse_args()
    if not 0 < given.outline <= 10 ** 6 or given.most is not None and given.most < 1:
        words.error("give an outline above 0 and up to a million, and pixels from 1")
    picture = colours_of(given.picture)
    marks = marks_of(given.strokes, picture)
    if given.most:
        picture.thumbnail((given.most, given.most))
        marks = {what: shrunk(mask, picture.size) for what, mask in marks.items()}
    value, mask = cut(np.asarray(picture), marks, given)
    if given.marked_only:
        pieces, _ = ndimage.label(mask, np.ones((3, 3)))
        mask &= np.isin(pieces, pieces[marks["object"]])
    print(f"{picture.width} by {picture.height} pixels with {given.neighbours} neighbours: minimum cut {value}")
    print(f"{mask.sum()} of {mask.size} pixels are object")
    results = [script.output(given, "segmentation", f"{name}.png") for name in ("mask", "object", "sheet")]
    shape = Image.fromarray(mask).convert("L")
    shape.save(results[0])
    sheet_of(picture, marks, shape).save(results[2])
    picture.putalpha(shape)
    picture.save(results[1], compress_level=1)
    print(f"drawn: {', '.join(results)}")


if __name__ == "__main__":
    script.run(main)
