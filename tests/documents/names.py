"""What the documents say of definitions, against the definitions: that each one named with its file is there, that the refusals of each call
are those that it may give, that the lengths are the header's, that no line of prose is longer than 120 characters, that docs/PROOF.md's
picture and table are what their programs write, that README has the table's figures, and that a definition which no statement reaches says so."""
import re
import sys
import tempfile
from pathlib import Path

TOP = Path(__file__).resolve().parents[2]
PAGES = ["SPEC", "FORMS", "GLOSSARY", "EVENING", "PROOF"]
sys.dont_write_bytecode = True
sys.path += [str(TOP / "tests/documents"), str(TOP / "docs/pictures")]
wrong = []


def text(name):
    return (TOP / name).read_text()


def defined(path, name):
    """Whether a file of definitions has the name: a definition, a record, a field; of proofs, a lemma that is not public too; of code, a function."""
    n = re.escape(name)
    if path.suffix == ".rt":
        return re.search(rf"(?m)^\s*(?:pub )?fn {n}\(", path.read_text())
    pub = "(?:pub )?" if path.parent.name == "proofs" else "pub "
    return re.search(rf"(?m)^\s*(?:(?:abbrev|unfoldable) )?{pub}(?:(?:record|data) )?{n}(?= (?:.* )?:| .*where)", path.read_text())


def place(crate, part, file):
    """The file that "(crate/File)", "(crate/proofs/File)" or "(crate/src)" names."""
    return TOP / f"crates/{crate}/src/lib.rt" if file == "src" else TOP / f"crates/{crate}/{part or 'specs/'}{file}.antt"


def names():
    count = 0
    for page in PAGES:
        flat = re.sub(r"\s+", " ", text(f"docs/{page}.md"))
        for listed, crate, part, file in re.findall(r"((?:`[^`]+`(?:, | and )?)+) \(([a-z_]+)/(proofs/)?([A-Za-z0-9]+)\)", flat):
            path = place(crate, part, file)
            for name in re.findall(r"`([^`]+)`", listed):
                count += 1
                if not path.exists() or not defined(path, name):
                    wrong.append(f"docs/{page}.md: no {name} in {crate}/{part}{file}")
    return count


def proof():
    """docs/PROOF.md: every word in code letters is a name that is there, a file, or a word of the language; its table and its picture."""
    import believed
    import proof as picture
    page = text("docs/PROOF.md")
    known = {"ensures", "requires", "use"} | {d.name for d in TOP.glob("crates/*")} | {d.stem for d in TOP.glob("crates/*/must-fail/*.edit")}
    for path in [*TOP.glob("crates/*/specs/*.antt"), *TOP.glob("crates/*/proofs/*.antt")]:
        known |= set(re.findall(r"(?m)^\s*(?:(?:abbrev|unfoldable) )?pub (?:(?:record|data) )?(\S+)(?= (?:.* )?:| .*where)", path.read_text()))
        known |= {word for line in re.findall(r"(?m)^  ((?:\S+ )+): Duty$", path.read_text()) for word in line.split()}
    said = set(re.findall(r"`([^`]+)`", re.sub(r"\s+", " ", page)))
    located = set(re.findall(r"`([^`]+)`", " ".join(re.findall(r"(?:`[^`]+`(?:, | and )?)+ \([a-z_]+/[A-Za-z0-9/]+\)", re.sub(r"\s+", " ", page)))))
    for word in sorted(said - known - located):
        path = word.removeprefix("python3 ")
        if not word.startswith("--") and not (TOP / path).exists():
            wrong.append(f"docs/PROOF.md: nothing has the name {word}")
    if believed.table() not in page:
        wrong.append("docs/PROOF.md: its table is not the one that tests/documents/believed.py prints")
    counts = [believed.counted(roots, cuts)[0] for _, roots, cuts in believed.CLAIMS[:2]]
    said = [f"{sum(c.values()):,} {between} {len(c)}" for c, between in zip(counts, ("lines of definitions in", "in"))]
    if not all(s in re.sub(r"\s+", " ", text("README.md")) for s in said):
        wrong.append(f"README.md: what must be believed is {said}")
    for key, definition, _, _ in believed.unreached():
        if not believed.marked(definition):
            wrong.append(f"crates/{key[0]}/specs/{key[1]}.antt: no statement reaches {definition.name}, and its comment does not say so")
    seen = believed.reach(*believed.CLAIMS[-1][1:])[0]
    for key in sorted(believed.counted(*believed.CLAIMS[1][1:])[0]):
        for definition in believed.FILES[key].order:
            if (key, definition.name) in seen and believed.marked(definition):
                wrong.append(f"crates/{key[0]}/specs/{key[1]}.antt: a statement reaches {definition.name}, and its comment says none does")
    with tempfile.TemporaryDirectory() as scratch:
        drawn = Path(scratch) / "proof.svg"
        picture.draw(drawn)
        if drawn.read_text() != text("docs/pictures/proof.svg"):
            wrong.append("docs/pictures/proof.svg is not the one that docs/pictures/proof.py draws")


def refusals():
    """The numbers of each call in SPEC's table and in FORMS', beside 1 and 13, which every call may give."""
    may = {}
    answers = text("crates/model/specs/Answers.antt")
    for call, numbers in re.findall(r"(?m)^own_numbers \(c_(\w+)[^)]*\) = (.*) ∷ \[\]", answers):
        may[call] = [int(n) for n in numbers.split(" ∷ ")]
    may["start"] = [int(n) for n in re.search(r"(?m)^start_may_give = (.*) ∷ \[\]", answers)[1].split(" ∷ ") if n not in ("1", "13")]
    spec = {r[0]: r[1] for r in re.findall(r"(?m)^\| (\w+) k.*\| ([^|]*) \|$", text("docs/SPEC.md"))}
    forms = {r[0]: r[1] for r in re.findall(r"(?m)^\| `\((\w+)[^|]*\|[^|]*\|[^|]*\| ([^|]*) \|", text("docs/FORMS.md")) if r[0] in may}
    for page, rows in (("SPEC", spec), ("FORMS", forms)):
        for call, numbers in may.items():
            if call == "start" and page == "SPEC":
                continue
            said = [int(n) for n in re.findall(r"\d+", rows.get(call, ""))]
            if said != numbers:
                wrong.append(f"docs/{page}.md: {call} is refused {said}, its definition has {numbers}")
    return len(may)


def lengths():
    """SPEC's table of slices at both segment sizes against the header's macros, and these against the formulas that are proved, `LengthsAre`."""
    header, theorem = text("include/borvukhai.h").replace("\\\n", ""), text("crates/layout/specs/TwoSizes.antt")
    table = [[cell.strip() for cell in line.strip("|").split("|")] for line in re.findall(r"(?m)^\| the .*\|$", text("docs/SPEC.md"))]
    each = r"(?:\(\(kib\) == 32 \? (\d+)u : )?(\d+)u\)? \* \(segments\)(?: \+ (\d+)u)?"
    macros = {16: [], 32: []}
    for macro, lent in (("LENGTH", "the memory"), ("STATES_LENGTH", "the output"), ("SCRATCH_LENGTH", "the scratch")):
        by = re.search(rf"define BORVUKHAI_{macro}\(segments, kib\) .*? \? {each} : 0u\)", header)
        for kib, a, b in ((16, int(by[2]), int(by[3] or 0)), (32, int(by[1] or by[2]), int(by[3] or 0))):
            macros[kib].append((a, b))
            cells = [row[3:] for row in table if row[0] == lent and str(kib) in row[2].split(", ")]
            right = [f"{a:,} n" + (f" + {b:,}" if b else "")] + [f"{a * n + b:,}" for n in (1, 2, 256)]
            if cells != [right]:
                wrong.append(f"docs/SPEC.md: {lent} at {kib} KiB has {cells}, the header {right}")
    beside, states = (int(re.search(by, theorem)[1]) for by in (r"total g ≡ each \* g\.segments \+ (\d+)", r"Region\.segments ≡ (\d+) \* g\.segments"))
    proved = [[(int(a), beside), (states, 0), (int(b), 0)] for a, b in re.findall(r"Lengths g (\d+) (\d+)", theorem)]
    if list(macros.values()) != proved:
        wrong.append(f"include/borvukhai.h: the lengths are {macros}, those of LengthsAre {proved}")


def prose():
    for page in [TOP / "README.md", TOP / "CHANGELOG.md", *sorted(TOP.glob("docs/*.md")), *sorted(TOP.glob("docs/*/*.md"))]:
        fenced = False
        for number, line in enumerate(page.read_text().splitlines(), 1):
            fenced ^= line.startswith("```")
            if len(line) > 120 and not fenced and not line.startswith(("|", "    ")):
                wrong.append(f"{page.relative_to(TOP)}:{number}: {len(line)} characters")


count, calls = names(), refusals()
lengths()
prose()
proof()
for line in wrong:
    print(line)
if wrong:
    sys.exit(1)
print(f"docs: {count} names of definitions are there; the refusals of {calls} calls and the lengths are those of the definitions")
