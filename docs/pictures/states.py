"""A segment's states, with the call that moves it. The moves are those that were seen in the recorded runs, no more and no fewer; so is what they do with
a segment's two counts."""
import re
from collections import Counter

import layout
from svg import INK, SOFT, STATE, Picture

# for each state its centre, its width, and what it has
NODES = {
    "free": (110, 120, 150, "no block in use"),
    "held": (450, 120, 190, "class, place, mutator"),
    "full": (800, 120, 190, "class; no block free"),
    "part": (450, 340, 190, "class, place"),
    "condemned": (800, 340, 190, "class, place; to be swept"),
}
# from, to, call: the path, where the call stands and where its words do, and what it does
EDGES = {
    ("free", "held", "make"): ("M185 120H353", (270, 110), (270, 138), "middle", "takes it, from place 0 on"),
    ("held", "full", "make"): ("M545 120H703", (625, 110), (625, 138), "middle", "its last free block"),
    ("part", "held", "make"): ("M485 304V158", (494, 206), (494, 222), "start", "takes it, from its place on"),
    ("held", "part", "detach"): ("M415 156V302", (406, 236), (406, 252), "end", "place kept"),
    ("part", "full", "make"): ("M545 318C640 290 690 220 728 158", (668, 262), (668, 278), "start", "takes it and fills it"),
    ("full", "condemned", "start"): ("M785 156V302", (776, 200), None, "end", ""),
    ("part", "condemned", "start"): ("M545 362H703", (625, 379), None, "middle", ""),
    ("free", "full", "make"): ("M110 84V66H800V82", (810, 60), (810, 76), "start", "class 14 at 16 KiB"),
    ("condemned", "full", "step"): ("M825 304V158", (834, 236), (834, 252), "start", "all blocks marked"),
    ("condemned", "part", "step"): ("M705 336H547", (626, 328), (626, 352), "middle", "some blocks marked"),
    ("condemned", "free", "step"): ("M800 376C800 455 110 455 110 158", (222, 398), (222, 414), "end", "no block marked"),
}
# three moves that the longer runs have not: a part segment's last free block is handed out, a segment is swept whose blocks are all marked, and one of
# class 14, which has one block at 16 KiB, is taken
RARE = """
(rack 2) (attach 0) (make (0 0) (0 600)) (make (0 1) (0 600)) (make (0 2) (0 600)) (detach 0) (attach 1) (make (1 0) (0 600)) (clear (1 0))
(start) (leave 1) (step) (step) (step) (step) (step) (enter 1)
(make (1 0) (0 600)) (make (1 1) (0 600)) (make (1 2) (0 600)) (make (1 3) (0 600))
(start) (leave 1) (step) (step) (step) (step) (step) (step) (step) (step) (step)
(enter 1) (make (1 4) (0 4000))
"""


def rare():
    return re.findall(r"\(\w+(?: \d+| \([\d ]+\))*\)", RARE)


def moves(recordings):
    """How often which call moved a segment from which state to which."""
    seen = Counter()
    for frames in recordings:
        for (_, _, before), (line, _, after) in zip(frames, frames[1:]):
            for s in range(after.n):
                a, b = (layout.TAGS[image.segment(s)[0]] for image in (before, after))
                if a != b:
                    seen[a, b, re.match(r"\((\w+)", line)[1]] += 1
    return seen


def counted(recordings):
    """How often which call changed a segment's counts, and whether it was by one block more or to what a sweep leaves."""
    seen = Counter()
    for frames in recordings:
        for (_, _, before), (line, reply, after) in zip(frames, frames[1:]):
            for s in range(after.n):
                (kept, out), now = before.counts(s), after.counts(s)
                if now != [kept, out]:
                    more = now == [kept, out + 1]
                    assert more or now[1] == 0 and reply.startswith(f"(swept {s} "), (line, reply)
                    seen[re.match(r"\((\w+)", line)[1], more] += 1
    return seen


def draw(path, recordings):
    seen, counts = moves(recordings), counted(recordings)
    assert set(seen) == set(EDGES), f"moves that are not drawn, or not seen: {set(seen) ^ set(EDGES)}"
    assert set(counts) == {("make", True), ("step", False)}, counts
    picture = Picture(960, "A segment's states, and the call that moves it",
                      "In brackets how often in the recorded runs. A make that finds a block in a held segment moves the place and counts the block, no more.")
    for edge, (d, call, more, anchor, words) in EDGES.items():
        picture.arrow(d)
        picture.text(*call, f"{edge[2]} ({seen[edge]})", 13, anchor=anchor, weight="bold")
        if more:
            picture.text(*more, words, 12, SOFT, anchor)
    for word, (x, y, width, has) in NODES.items():
        picture.box(x - width / 2, y - 36, width, 72, STATE[word], INK, 'rx="10"')
        picture.text(x, y - 4, word, 17, anchor="middle", weight="bold")
        picture.text(x, y + 17, has, 12, SOFT, "middle")
    makes, steps = counts["make", True], counts["step", False]
    picture.text(14, 470, "Each segment has two counts, of the blocks kept at its last sweep and of those handed out since. "
                 f"A make adds 1 to the second ({makes});", 12, SOFT)
    picture.text(14, 486, f"the step that sweeps the segment sets the first to its marked blocks and the second to 0 ({steps}). "
                 "Their sum is the blocks in use; in a free segment both are 0.", 12, SOFT)
    picture.write(path, 502)
