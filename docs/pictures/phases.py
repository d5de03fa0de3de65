"""The phases of a cycle, with who must act in each and what the calls do. The way through them is that of a recorded run."""
import re
from collections import Counter

import layout
from svg import INK, LINE, PHASE, SOFT, Picture

LEFT, WIDE, TOP = 128, 168, 108
BOX = WIDE - 62
DOCUMENT = {layout.SYNC1: "document 01: roll 1", layout.SYNC2: "document 01: roll 2"}
ROWS = {
    "who must act": [
        "nobody; a start begins a cycle", "every mutator inside: check or leave; step acknowledges for those outside",
        "every mutator inside, again: its roots are entered; step for those outside", "the collector: one record a step",
        "the collector: one segment a step"],
    "step answers": ["idle", "waiting n, or moved", "waiting n, or moved", "traced, or moved", "swept s f, or done"],
    "a store enters": [
        "nothing", "after the first acknowledgement: the new value, then the old", "the new value, then the old", "the old value", "nothing"],
    "a record is made": ["unmarked", "unmarked", "unmarked; marked after the second acknowledgement", "marked", "unmarked"],
    "attach, spawn, detach": ["yes", "refused 11", "refused 11", "yes; who comes counts as acknowledged twice", "yes"],
    "start": ["yes", "refused 11", "refused 11", "refused 11", "refused 11"],
}
# the call that leads out of each phase, its reply, and the phase that it leads to
WAY = [("start", "(ok)", 1), ("step", "(moved)", 2), ("step", "(moved)", 3), ("step", "(moved)", 4), ("step", "(done)", 0)]
SAID = ["start", "step: moved", "step: moved", "step: moved", "step: done"]


def first_cycle(frames):
    """How many steps the first cycle of a run takes in each phase, and how it goes from phase to phase."""
    taken, way = Counter(), []
    for (_, _, before), (line, reply, after) in zip(frames, frames[1:]):
        taken[before.phase] += line == "(step)"
        if before.phase != after.phase:
            way.append((re.match(r"\((\w+)", line)[1], reply, after.phase))
        if reply == "(done)":
            return taken, way


def draw(path, frames):
    taken, way = first_cycle(frames)
    assert way == WAY, way
    picture = Picture(LEFT + 5 * WIDE + 12, "The phases of a cycle, and who must act",
                      "Steps taken: in the first cycle of the run on eight segments in docs/heap.html, where each mutator checks after its makes.")
    for i, name in enumerate(layout.PHASES):
        x = LEFT + i * WIDE
        middle = x + 8 + BOX / 2
        picture.box(x + 8, TOP - 30, BOX, 44, PHASE[i], INK, 'rx="10"')
        picture.text(middle, TOP - 10 if i in DOCUMENT else TOP - 3, name, 15, anchor="middle", weight="bold")
        picture.text(middle, TOP + 7, DOCUMENT.get(i, ""), 10, SOFT, "middle")
        if i < 4:
            picture.arrow(f"M{x + BOX + 10} {TOP - 8}h56")
            picture.lines(x + WIDE - 25, TOP - 27, SAID[i], 6, 10, SOFT, "middle", 12)
    picture.arrow(f"M{middle} {TOP + 14}v20H{LEFT + 8 + BOX / 2}v-18")
    picture.text(middle - 10, TOP + 29, SAID[4], 10, SOFT, "end")
    y = TOP + 70
    for name, cells in {**ROWS, "steps taken": ["-"] + [str(taken[p]) for p in range(1, 5)]}.items():
        picture.stroke(f"M14 {y - 18}H{LEFT + 5 * WIDE}", LINE)
        tall = [picture.lines(14, y, name, 15, 12, SOFT)] + [picture.lines(LEFT + i * WIDE + 8, y, cell, 25, 12.5) for i, cell in enumerate(cells)]
        y += max(tall) * 17 + 16
    picture.write(path, y - 6)
