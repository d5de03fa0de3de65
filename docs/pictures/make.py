"""The pictures and docs/heap.html, from runs on the library.

  make.py LIBRARY.so [FOLDER]     into docs, or into another folder
"""
import sys
from pathlib import Path

import cycle
import paced
import page
import phases
import record
import slices
import states

DOCS = Path(__file__).resolve().parent.parent


def main():
    library = record.Library(sys.argv[1])
    into = Path(sys.argv[2]) if len(sys.argv) > 2 else DOCS
    pictures = into / "pictures"
    pictures.mkdir(parents=True, exist_ok=True)
    changeover, evening = (record.played(library, (DOCS / name).read_text().splitlines()) for name in ("changeover.txt", "evening.txt"))
    long, rare = record.played(library, paced.run), record.played(library, states.rare())
    page.write(into / "heap.html", [
        page.recording("a changeover (docs/CHANGEOVER.md)", changeover, page.table_notes("CHANGEOVER.md", 3)),
        page.recording("an evening (docs/EVENING.md)", evening, page.table_notes("EVENING.md", 1)),
        page.recording("three mutators on eight segments", long),
    ])
    starts = [i for i, (line, _, _) in enumerate(long) if line == "(start)"]
    dones = [i for i, (_, reply, _) in enumerate(long) if reply == "(done)"]
    cycle.draw(pictures / "cycle.svg", long, starts[0] - 12, dones[1] + 14)
    states.draw(pictures / "states.svg", [changeover, evening, long, rare])
    phases.draw(pictures / "phases.svg", long)
    slices.draw(pictures / "slice.svg")


main()
