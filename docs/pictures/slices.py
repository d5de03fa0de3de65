"""The lent slice to scale, by layout.py's formulas."""
import layout
from svg import GREY, INK, MARKED, PAPER, SOFT, STATE, USED, Picture

WIDTH, LEFT = 1000, 20
BAR, TALL = WIDTH - 2 * LEFT, 46
COLOUR = {"control": STATE["full"], "mutators": STATE["held"], "heap": USED, "segments": STATE["condemned"], "stacks": "#fdebc2", "bitmaps": STATE["part"],
          "marks": MARKED, "trace": GREY}
SMALL = ["segments", "stacks", "bitmaps", "marks"]
# the words of some parts, one box each
PARTS = {
    "control words": [("phase", 1, STATE["full"]), ("count of the trace stack", 1, STATE["full"]), ("cursor", 1, STATE["full"]),
                      ("not used", layout.CONTROL_WORDS - 3, PAPER)],
    "a mutator's entry, one of 32": [
        ("roots", layout.ROOTS, STATE["held"]), ("state", 1, USED), ("acknowledgements", 1, USED),
        ("held segments, one for each class", len(layout.CLASSES), STATE["part"]), ("not used", layout.ENTRY_WORDS - layout.HELD - len(layout.CLASSES), PAPER)],
    "a segment's record": [(word, 1, STATE["condemned"]) for word in ("state", "class", "place", "mutator")]
                          + [(word, 1, STATE["part"]) for word in ("blocks kept at the last sweep", "blocks handed out since")],
    "a record of 2 pointers and 4 values, class 5": [("header", 1, STATE["full"]), ("pointers", 2, GREY), ("values", 4, USED), ("rest of the block", 1, PAPER)],
}


def bar(picture, y, parts):
    """Named parts to scale; answers for each where it begins and how wide it is."""
    whole, x, found = sum(words for _, words in parts), LEFT, {}
    for name, words in parts:
        wide = words * BAR / whole
        picture.box(x, y, wide, TALL, COLOUR[name], INK, 'stroke-width=".6"')
        found[name] = (x, wide)
        x += wide
    return found


def label(picture, x, wide, y, name, words):
    picture.text(x + wide / 2, y + 21, name, 13, anchor="middle", weight="bold")
    picture.text(x + wide / 2, y + 38, f"{words:,}", 12, anchor="middle")


def draw(path, n=2):
    lengths = layout.lengths(n)
    more, beside = layout.total(2) - layout.total(1), layout.total(0)
    picture = Picture(WIDTH, f"The lent slice, to scale: {n} segments of {layout.KIB} KiB, {layout.total(n):,} words",
                      f"Each bar has its own scale. A further segment adds {more:,} words; {beside:,} are there beside the segments.")
    upper, lower = 84, 176
    whole = bar(picture, upper, list(lengths.items()))
    picture.text(LEFT, upper - 8, f"control: {lengths['control']}", 12, SOFT)
    for name in ("mutators", "trace"):
        label(picture, *whole[name], upper, name, lengths[name])
    heap, each = whole["heap"][0], whole["heap"][1] / n
    for s in range(n):
        label(picture, heap + s * each, each, upper, f"heap, segment {s}", layout.SEGMENT_WORDS)
        picture.stroke(f"M{heap + s * each:.1f} {upper}v{TALL}", INK, "3 3")
    first, end = whole[SMALL[0]][0], sum(whole[SMALL[-1]])
    picture.stroke(f"M{first:.1f} {upper + TALL}L{LEFT} {lower}M{end:.1f} {upper + TALL}L{WIDTH - LEFT} {lower}", SOFT, "4 3")
    zoom = bar(picture, lower, [(name, lengths[name]) for name in SMALL])
    for name in SMALL:
        if zoom[name][1] < 60:
            picture.text(zoom[name][0], lower + TALL + 16, f"{name}: {lengths[name]}", 12, SOFT)
        else:
            label(picture, *zoom[name], lower, name, lengths[name])
    y = 288
    for title, cells in PARTS.items():
        picture.text(LEFT, y, title, 12, SOFT)
        x = LEFT + 270
        for _, count, colour in cells:
            for _ in range(count):
                picture.box(x, y - 14, 21, 20, colour, INK, 'stroke-width=".6"')
                x += 21
        picture.text(LEFT + 270, y + 22, "; ".join(name if count == 1 else f"{count} {name}" for name, count, _ in cells), 12)
        y += 52
    below = "One box is one word of 32 bits. There is one mark bit, and one entry of the trace stack, for each two words of the heap."
    picture.text(LEFT, y + 4, below, 12, SOFT)
    picture.write(path, y + 20)
