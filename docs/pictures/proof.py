"""The levels of the proof and the crate on each arrow. It plays no run and needs no library: python3 docs/pictures/proof.py writes proof.svg."""
import sys
from pathlib import Path

from svg import INK, LINE, SOFT, Picture

BOX, GAP, LEFT, HIGH = 168, 122, 26, 66
UPPER, LOWER = 100, 352
LEVEL = [("lent words", "List ℕ, as long as total says"), ("Mem", "eight regions; Consistent"), ("abstract machine", "State: blocks are numbers; Inv"),
         ("unbounded heap", "Unbounded: nothing is freed")]
FILL = ["#eef1f5", "#d3e2f6", "#cfe8d6", "#fdebc2"]
ACROSS = [("mem_of", "layout"), ("view", "refine_view"), ("Coupled", "theory")]
DOWN = [("a function", "storing, making .."), ("exec, start_of, step_of", "model"), ("act, start, step", "theory"), ("uexec", "theory")]
SQUARE = [("Promise", "answer and memory are the definition's", "each call's own crate"),
          ("AllRefine", "words in order; agrees on what is live", "refine_roots .. refine_start"),
          ("Alike", "same answer; invariant kept", "theory")]
JOINED = "guarantee: the squares side by side, and one below the other along a list of calls, from where an opening leaves off."
OUTER = "What is left is the outer edge: the answers of the functions are the unbounded heap's. guarantee_cases applies it to lists."


def draw(path):
    picture = Picture(LEFT * 2 + 4 * BOX + 3 * GAP, "From the lent words to the unbounded heap, before a call and after it",
                      "In each box a value, on each arrow a function or relation and the crate that defines it, in each square what is proved and where.")
    for row, said in ((UPPER, "before"), (LOWER, "after")):
        for i, (name, below) in enumerate(LEVEL):
            x = LEFT + i * (BOX + GAP)
            picture.box(x, row, BOX, HIGH, FILL[i], INK, 'rx="8"')
            picture.text(x + BOX / 2, row + 28, name, 15, anchor="middle", weight="bold")
            picture.text(x + BOX / 2, row + 48, below, 10.5, SOFT, "middle")
            if i < 3:
                middle = x + BOX + GAP / 2
                half = GAP / 2 - 6
                picture.arrow(f"M{middle - (half if i < 2 else 0)} {row + HIGH / 2}h{half * (2 if i < 2 else 1)}")
                if i == 2:
                    picture.arrow(f"M{middle} {row + HIGH / 2}h{-half}")
                picture.text(middle, row + HIGH / 2 - 8, ACROSS[i][0], 13, anchor="middle", weight="bold")
                picture.text(middle, row + HIGH / 2 + 18, ACROSS[i][1], 11, SOFT, "middle")
        picture.text(LEFT, row - 8, said, 11, SOFT)
    for i, (name, crate) in enumerate(DOWN):
        x = LEFT + i * (BOX + GAP) + BOX / 2
        picture.arrow(f"M{x} {UPPER + HIGH + 6}V{LOWER - 8}")
        top = UPPER + HIGH + 34
        anchor, at = ("end", x - 8) if i == 3 else ("start", x + 8)
        picture.text(at, top, name, 13, anchor=anchor, weight="bold")
        picture.text(at, top + 16, crate, 11, SOFT, anchor)
        if i < 3:
            wide = BOX + GAP - 36
            picture.box(x + 18, top + 34, wide, 74, "#ffffff", LINE, 'rx="8" stroke-dasharray="4 3"')
            name, said, where = SQUARE[i]
            picture.text(x + 18 + wide / 2, top + 54, name, 13, anchor="middle", weight="bold")
            picture.text(x + 18 + wide / 2, top + 74, said, 12, anchor="middle")
            picture.text(x + 18 + wide / 2, top + 94, where, 11, SOFT, "middle")
    low = LOWER + HIGH + 20
    picture.box(LEFT, low, 4 * BOX + 3 * GAP, 58, "#f6f7f9", LINE, 'rx="8"')
    picture.text(LEFT + 14, low + 24, JOINED, 13)
    picture.text(LEFT + 14, low + 44, OUTER, 13)
    picture.write(path, low + 76)


if __name__ == "__main__":
    draw(Path(sys.argv[1]) if len(sys.argv) > 1 else Path(__file__).resolve().parent / "proof.svg")
