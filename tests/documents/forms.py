"""The example lines of docs/FORMS.md through the bracket program: one input, and the reply of each as the page has it.

  forms.py BRACKET
"""
import re
import subprocess
import sys
from pathlib import Path

TOP = Path(__file__).resolve().parents[2]


def examples():
    """The code spans of the last two columns of each table, line by line."""
    for row in (TOP / "docs/FORMS.md").read_text().splitlines():
        if row.startswith("| ") and not row.startswith("| form |") and " example " not in row:
            asked, replied = [re.findall(r"`([^`]*)`", cell) for cell in row.split(" | ")[-2:]]
            assert len(asked) == len(replied) > 0, row
            yield from zip(asked, replied)


def main():
    lines = list(examples())
    given = "".join(asked + "\n" for asked, _ in lines)
    said = subprocess.run([sys.argv[1]], input=given, text=True, capture_output=True, check=True).stdout.splitlines()
    wrong = [(a, r, s) for (a, r), s in zip(lines, said) if r != s]
    for asked, replied, printed in wrong:
        print(f"docs/FORMS.md: {asked} is answered {printed}, not {replied}")
    if wrong or len(said) != len(lines):
        sys.exit(f"docs/FORMS.md: {len(wrong)} of {len(lines)} examples wrong, {len(said)} replies")
    print(f"docs/FORMS.md: {len(lines)} example lines, each answered as the page has it")


main()
