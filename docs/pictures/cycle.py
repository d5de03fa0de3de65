"""The heap over two cycles: a band for each segment, its blocks as lines along the time."""
import layout
from svg import CONDEMNED, FREED, GREY, MARKED, PHASE, SOFT, STATE, UNUSED, USED, Picture, stretches

WIDTH, LEFT, TOP, BAND, STRIP, TALL = 1000, 92, 78, 54, 13, 32
LEGEND = [(UNUSED, "not in use"), (USED, "in use"), (CONDEMNED, "condemned, not marked"), (GREY, "on the trace stack"), (MARKED, "marked"),
          (FREED, "freed by a sweep")]


def colour(image, tag, header, used, freed):
    if not used:
        return FREED if freed else UNUSED
    if header in image.trace():
        return GREY
    if layout.marks_bind(image.phase, tag) and image.entered(header):
        return MARKED
    return CONDEMNED if tag == layout.CONDEMNED else USED


def blocks_over_time(frames, s):
    """For each frame the class of a segment, 0 where it is free, and the colour of each of its blocks."""
    freed, before, was, found = set(), 0, [], []
    for _, _, image in frames:
        tag, c, *_ = image.segment(s)
        used = image.in_use(s)
        if c != before:
            freed, was = set(), [False] * len(used)
        freed = {b for b, now in enumerate(used) if not now and (was[b] or b in freed)}
        found.append((c, [colour(image, tag, image.header(s, b), now, b in freed) for b, now in enumerate(used)]))
        before, was = c, used
    return found


def areas(x, y, blocks, coloured, first):
    """For each colour one path over all blocks of a stretch of frames."""
    tall, paths = TALL / blocks, {}
    for b in range(blocks):
        for p, q, fill in stretches([colours[b] for _, colours in coloured]):
            left, right = x(first + p), x(first + q)
            paths.setdefault(fill, []).append(f"M{left:.1f} {y + b * tall:g}H{right:.1f}v{tall:g}H{left:.1f}z")
    return sorted((fill, "".join(ds)) for fill, ds in paths.items())


def said(word, owner, c, room):
    """The longest of a state's texts that has room."""
    texts = [f"held by {owner}, class {c}", f"held by {owner}", word] if word == "held" else [f"{word}, class {c}", word] if word != "free" else [word]
    return next((t for t in texts if len(t) * 5.4 < room), "")


def draw(path, frames, begin, end):
    """Only the lines from begin to end are drawn."""
    def x(i):
        return LEFT + (i - begin) * (WIDTH - LEFT - 14) / (end - begin)

    picture = Picture(WIDTH, "The heap over two cycles",
                      f"Lines {begin + 1} to {end} of the run on eight segments in docs/heap.html: three mutators, two steps of the collector after each make.")
    picture.text(14, TOP - 6, "phase", 12, SOFT)
    for a, b, phase in stretches([image.phase for _, _, image in frames[begin:end]]):
        left, right = x(begin + a), x(begin + b)
        picture.box(left, TOP - 20, right - left, 18, PHASE[phase])
        picture.text((left + right) / 2, TOP - 7, layout.PHASES[phase], 11 if right - left > 38 else 8, anchor="middle")
    for s in range(frames[0][2].n):
        y = TOP + 8 + s * BAND
        picture.text(14, y + 30, f"segment {s}")
        for a, b, (tag, c, owner) in stretches([(t, c, o) for t, c, _, o, *_ in (image.segment(s) for _, _, image in frames[begin:end])]):
            left, right, word = x(begin + a), x(begin + b), layout.TAGS[tag]
            picture.box(left, y, right - left, STRIP, STATE[word])
            picture.text((left + right) / 2, y + 10, said(word, owner, c, right - left), 10, anchor="middle")
        coloured = blocks_over_time(frames, s)[begin:end]
        for a, b, c in stretches([c for c, _ in coloured]):
            for fill, d in areas(x, y + STRIP + 1, layout.blocks(c), coloured[a:b], begin + a) if c else []:
                picture.area(d, fill)
    foot = TOP + frames[0][2].n * BAND + 26
    picture.text(14, foot, "line", 11, SOFT)
    for i in range(-(-begin // 50) * 50, end + 1, 50):
        picture.stroke(f"M{x(i):.1f} {foot - 16}v5", SOFT)
        picture.text(x(i), foot, i, 11, SOFT, "middle")
    picture.legend(LEFT, foot + 14, LEGEND)
    below = "A band has the segment's blocks from top to bottom; a free segment has none. The strip above it is the segment's state."
    picture.text(LEFT, foot + 48, below, 12, SOFT)
    picture.write(path, foot + 60)
