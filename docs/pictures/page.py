"""docs/heap.html: recordings of runs, put into page.html as JSON. The page knows no offset: it gets values by name."""
import json
import re
from pathlib import Path

import layout

HERE = Path(__file__).resolve().parent
DOCS = HERE.parent
IN_USE, BIT, ENTERED, ON_STACK, REACHED = 1, 2, 4, 8, 16


def name(image, header):
    """A record by its segment and block."""
    return None if header is None else "%d.%d" % image.block(header)


def segment(image, s, reached, stacked):
    """Tag, class, place, mutator, a character for each block, the words of each bitmap level, and the two counts."""
    tag, c, place, owner, *counts = image.segment(s)
    codes = ""
    for b, (used, bit) in enumerate(zip(image.in_use(s), image.bits(s))):
        header = image.header(s, b)
        code = IN_USE * used | BIT * bit | REACHED * (header in reached) | ON_STACK * (header in stacked)
        if layout.marks_bind(image.phase, tag):
            code |= ENTERED * image.entered(header)
        codes += chr(48 + code)
    return [tag, c, place, owner, codes, [" ".join(f"{w:08x}" for w in level) for level in image.levels(s)], counts]


def state(image):
    """All that the page shows, each part under a key of its own."""
    reached, trace = image.reached(), image.trace()
    parts = {"phase": image.phase, "cursor": image.cursor, "trace": [name(image, h) for h in trace]}
    parts["stacks"] = [image.stack(t) for t in range(1 + len(layout.CLASSES))]
    for s in range(image.n):
        parts[f"segment{s}"] = segment(image, s, reached, set(trace))
    for k in range(layout.MUTATORS):
        standing, acks, roots, held = image.mutator(k)
        if standing != layout.ABSENT:
            parts[f"mutator{k}"] = [standing, acks, [name(image, r) for r in roots], held]
    for header in sorted(reached | set(trace)):
        parts[f"record{name(image, header)}"] = [*image.shape(header), [name(image, p) for p in image.pointers(header)]]
    return parts


# what a line means, where nobody wrote a note for it: by its call and the first word of its reply; its numbers, then its reply's
MEANS = {
    "rack ok": "A heap of {} segments is opened.",
    "attach ok": "Mutator {} comes in.",
    "make ok": "Mutator {} makes a record in root {}: {} pointer, {} values.",
    "make no": "No room for mutator {}: it holds no segment of the class, none of the class is part, and none is free.",
    "store ok": "Mutator {0} stores root {3} into pointer {2} of the record in root {1}.",
    "check ok": "Mutator {} checks: it gives an acknowledgement if it owes one.",
    "start ok": "A cycle begins: every full or part segment is condemned.",
    "step waiting": "The handshake waits for {} of the mutators inside.",
    "step moved": "The next phase.",
    "step traced": "The record on top of the trace stack is marked, and its pointers are entered.",
    "step swept": "Segment {} is swept: {} of its blocks became free.",
    "step done": "No segment is left to sweep: the cycle has ended.",
}


def meaning(line, reply):
    key = " ".join(re.match(r"\((\w+)", text)[1] for text in (line, reply))
    return MEANS[key].format(*re.findall(r"\d+", line), *re.findall(r"\d+", reply))


def recording(title, frames, notes=None):
    """Each line with its reply, its note, and the parts that it changed; null for one that went."""
    steps, before = [], {}
    for number, (line, reply, image) in enumerate(frames, 1):
        now = state(image)
        changed = {key: value for key, value in now.items() if before.get(key) != value}
        changed.update({key: None for key in before if key not in now})
        steps.append([line, reply, notes[number] if notes else meaning(line, reply), changed])
        before = now
    return {"title": title, "segments": frames[0][2].n, "steps": steps}


def table_notes(page, column):
    """The notes of a page's table: its first column has a line or a range of lines."""
    notes = {}
    for row in (DOCS / page).read_text().splitlines():
        cells = [c.strip() for c in re.split(r"(?<!\\)\|", row)[1:-1]]
        lines = re.fullmatch(r"(\d+)(?: to (\d+))?", cells[0]) if cells else None
        if lines:
            for number in range(int(lines[1]), int(lines[2] or lines[1]) + 1):
                notes[number] = cells[column].replace("**", "")
    return notes


def write(path, recordings):
    constants = {"phases": layout.PHASES, "tags": layout.TAGS, "classes": list(layout.CLASSES)}
    data = json.dumps({"constants": constants, "recordings": recordings}, separators=(",", ":"))
    path.write_text((HERE / "page.html").read_text().replace("RECORDINGS", data.replace("</", "<\\/")))
