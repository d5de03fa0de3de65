"""What a reader must believe, by claim: the definitions that a statement reaches, counted.

  tests/documents/believed.py              the table, as docs/PROOF.md has it, and what each claim begins with
  tests/documents/believed.py --files      and the lines and files of each claim
  tests/documents/believed.py --unreached  and the definitions in those files that no statement reaches, with who uses them: the comment
                                           of each says "in no statement" (names.py looks)

The rule. A statement is a definition under crates/*/specs. From it every name that its text uses is followed, through the file's own definitions and
its `use` lines, to the definition that has the name; a name that a binder, a pattern or a field of the same record gives is not followed. A line counts
when it belongs to a definition that is reached, its signature, clauses, fields and cases, and is no comment, not blank and no `use` line. An enum or
struct that code declares counts by its lines in src/. What the kit defines (natural numbers, lists, options, equality) is not counted: its names are.
A cut takes the definitions of a file for what the code's `ensures` cites, and does not go into them."""
import re
import sys
from pathlib import Path

TOP = Path(__file__).resolve().parents[2]
DEMAND3 = ("guarantee", "Demand3")
KEEPING = ("guarantee", "Keeping")
PROMISE = ("model", "Promise")
BESIDE = [(("guarantee", file), None) for file in ("Demand3", "Keeping", "EmptyCycle", "HandsBack", "OtherSize", "Totals", "Independent", "Elements")]
BESIDE += [(("cycle_bound", file), None) for file in ("StepsLeft", "CycleBound")] + [(("layout", "TwoSizes"), None), (("sheet", "Long"), None)]
# a claim, the statements that it begins with (a file's all where no name is given), and the files that are cut
CLAIMS = [
    ("demand 3, each promise taken as the code's `ensures`", [(DEMAND3, "Demand3")], [PROMISE]),
    ("demand 3 and demand 2", [(DEMAND3, "Demand3"), (KEEPING, "NoRoomExactly")], []),
    ("all theorems beside the guarantee too", BESIDE, []),
    ("the exported functions' numbers too", BESIDE + [(("packing", "Packed"), None)], []),
]
HEAD = re.compile(r"^(?:(?:abbrev|unfoldable) +)?(?:pub +)?(?:(data|record) +)?(\S+)")


class Definition:
    """One definition: its file, its name, its kind, its chunks (signature, clauses, cases) as lists of lines."""

    def __init__(self, file, name, kind):
        self.file, self.name, self.kind = file, name, kind
        self.chunks, self.made, self.scope = [], [], []

    def lines(self):
        return sum(len(chunk) for chunk in self.chunks)


class File:
    """A file of definitions: what it defines, and what each name that it uses stands for."""

    def __init__(self, crate, name, path):
        self.key, self.own, self.kit, self.imported, self.alias = (crate, name), {}, {}, {}, {}
        self.order = []
        current, scopes = None, []
        for raw in path.read_text().splitlines():
            line = re.sub(r"(^|\s)--(\s.*)?$", "", raw).rstrip()
            if not line:
                continue
            depth = len(line) - len(line.lstrip())
            words = line.strip()
            if words.startswith(("use ", "pub use ", "pub mod ")):
                self.use(words, crate)
                continue
            while scopes and depth < scopes[-1][0] + 2:
                scopes.pop()
            if words.startswith("module "):
                scopes.append((depth, words))
                current = None
                continue
            if depth > (scopes[-1][0] + 2 if scopes else 0) or words.startswith(("unfolding ", "}")):
                if current is not None:
                    if current.kind == "data" and depth == (scopes[-1][0] + 2 if scopes else 0) + 2:
                        current.made += words.split(" : ")[0].split()
                    current.chunks[-1].append(words)
                continue
            if words.startswith("infix"):
                continue
            if current is not None and [current.name] == [f"◌{word}◌" for word in words.split()[1:2]]:
                current.chunks.append([words])  # a clause of an operator, which stands between its arguments
                continue
            kind, head = HEAD.match(words).groups()
            if head not in self.own:
                self.own[head] = current = Definition(self.key, head, kind)
                current.scope = [s[1] for s in scopes]
                self.order.append(current)
            current = self.own[head]
            current.chunks.append([words])
        self.cases = {case: d for d in self.order for case in d.made}

    def lines(self, names=None):
        """The lines of the definitions of these names, or of all, with those of the modules that they stand in."""
        chosen = [d for d in self.order if names is None or d.name in names]
        return sum(d.lines() for d in chosen) + len({s for d in chosen for s in d.scope})

    def use(self, words, crate):
        found = re.match(r"(?:pub )?use (\S+?)(?:\.\{(.*)\}| as (\S+))$", words)
        if not found:
            return
        path, names, other = found.groups()
        target = place(path, crate)
        if other:
            self.alias[other] = target
        for name in (names or "").split(", "):
            if name:
                self.imported[name] = target


def place(path, crate):
    """Where a `use` path leads: a file of definitions, a declared type, proofs, or the kit."""
    parts = path.split(".")
    if parts[0] != "Rattle" or not (TOP / "crates" / parts[1]).is_dir():
        return ("kit", path)
    _, at, part, *rest = parts
    if part == "proofs":
        return ("proofs", at, rest[0])
    if rest[0] == "declared":
        return ("declared", at, rest[1])
    return ("specs", at, rest[0])


FILES = {}
for file in sorted(TOP.glob("crates/*/specs/*.antt")):
    key = (file.parts[-3], file.stem)
    FILES[key] = File(*key, file)


def declared(crate, name):
    """The lines of an enum or struct that a crate's code declares, and the types that it names."""
    for path in sorted((TOP / f"crates/{crate}/src").glob("*.rt")):
        text = path.read_text()
        found = re.search(rf"(?m)^pub (?:enum|struct) {name}(?:;| \{{$(.*?)^\}})$", text, re.S)
        if found:
            lines = [l for l in found[0].splitlines() if l.strip() and not l.strip().startswith("//")]
            inside = set(re.findall(r"[(:,]\s*([A-Z]\w*)", "\n".join(lines[1:])))  # of the values: no case's own name
            own = {n: (crate, n) for n in re.findall(r"(?m)^pub (?:enum|struct) (\w+)[ ;]", text)}
            used = {n: (c, n) for c, names in re.findall(r"(?m)^use (\w+)::\{?([\w, ]+)\}?;", text) for n in names.split(", ")}
            return len(lines), path, [t for n, t in {**used, **own}.items() if n in inside and n != name]
    raise SystemExit(f"no {name} is declared in crates/{crate}/src")


def tokens(text):
    return re.findall(r"[^\s(){};,]+|[(){};,]", text)


def bound(text):
    """The names that binders, λ and let give in a text."""
    names = set()
    for group in re.findall(r"[({]\s*([^(){}:;,=]+?) : ", text):
        names.update(group.split())
    for group in re.findall(r"λ ([^.()]*)\.(?=[\s(])", text):
        names.update(group.split())
    names.update(re.findall(r"\blet (\S+)", text))
    return names


def mentions(file, definition):
    """What a definition's text names: (target, name) for each name that the file or its `use` lines give."""
    here = FILES[file] if isinstance(file, tuple) else file
    found = set()

    def resolve(token, locals_):
        if token in locals_ or token.startswith(".") or not token:
            return
        if "." in token and token.split(".")[0] in here.alias:
            head, tail = token.split(".", 1)
            target = here.alias[head]
            found.add((target, tail.rstrip(".")))
            return
        token = token.split(".")[0]  # a field of it, or the end of a binder
        if token in locals_:
            return
        if token in here.own or f"◌{token}◌" in here.own:
            found.add((("specs",) + here.key, token if token in here.own else f"◌{token}◌"))
        elif token in here.cases:
            found.add((("specs",) + here.key, here.cases[token].name))
        else:
            for name in (token, f"◌{token}◌"):
                if name in here.imported:
                    found.add((here.imported[name], name))

    def case(token):
        """Whether a pattern's word is a case of an enum, and no variable."""
        if "." in token:
            return True
        if token in here.own:
            return False
        if token in here.cases:
            return True
        target = here.imported.get(token) or here.imported.get(f"◌{token}◌")
        if target is None:
            return False
        if target[0] == "specs":
            return token in FILES[target[1:]].cases
        return True

    outer = set().union(*[bound(s) for s in definition.scope]) if definition.scope else set()
    for scope in definition.scope:
        for token in tokens(scope):
            resolve(token, outer | {"module", "_", "where"})
    for chunk in definition.chunks:
        text = " ".join(chunk)
        locals_ = outer | bound(text)
        if definition.kind == "record":
            locals_ |= set(re.findall(r"(?:^| )pub (\S+) :", " ".join(chunk[1:])))
        words = tokens(text)
        clause = not re.match(r"(?:(?:abbrev|unfoldable) +)?(?:pub +)?(?:(?:data|record) +)?\S+ (?:.* )?: ", text) or text.startswith(f"{definition.name} ") and " = " in text
        if definition.kind is None and clause and "=" in words:
            cut = words.index("=")
            for word in words[:cut]:
                if case(word):
                    resolve(word, set())
                elif not re.fullmatch(r"[(){};,]", word):
                    locals_.add(word)
            words = words[cut + 1:]
        for i, word in enumerate(words):
            if i + 1 < len(words) and words[i + 1] == "=" and word not in ("}", ")"):
                continue
            resolve(word, locals_)
    found.discard((("specs",) + here.key, definition.name))
    return found


def reach(roots, cuts):
    """The definitions, declared types and names of the kit that statements reach."""
    todo, seen, types, kit, stopped = [], set(), set(), set(), set()
    for key, name in roots:
        todo += [(key, name)] if name else [(key, d.name) for d in FILES[key].order]
    while todo:
        key, name = todo.pop()
        if (key, name) in seen:
            continue
        if key in cuts:
            stopped.add(name)
            continue
        seen.add((key, name))
        for target, other in mentions(key, FILES[key].own[name]):
            if target[0] == "kit":
                kit.add(other)
            elif target[0] == "declared":
                types.add(target[1:])
            elif target[0] == "specs":
                file = FILES[target[1:]]
                there = file.own.get(other) or file.cases.get(other)
                if there is None:
                    raise SystemExit(f"{key[0]}/specs/{key[1]}: {other} is not in {target[1]}/specs/{target[2]}")
                todo.append((target[1:], there.name))
            else:
                raise SystemExit(f"{key[0]}/specs/{key[1]}: {name} stands on a proof, {'/'.join(target)}")
    more = list(types)
    while more:
        for inner in declared(*more.pop())[2]:
            if inner not in types:
                types.add(inner)
                more.append(inner)
    return seen, types, kit, stopped


def counted(roots, cuts):
    """Lines by file, of definitions and of declared types."""
    seen, types, kit, stopped = reach(roots, cuts)
    rows, code = {}, {}
    for key in {k for k, _ in seen}:
        rows[key] = FILES[key].lines({n for k, n in seen if k == key})
    for crate, name in types:
        lines, path, _ = declared(crate, name)
        code[path] = code.get(path, 0) + lines
    return rows, code, seen, types, kit, stopped


def table():
    """The table of docs/PROOF.md."""
    rows = ["| claim | lines | files | enums and structs of the code | names of the kit |", "|---|---:|---:|---:|---:|"]
    for claim, roots, cuts in CLAIMS:
        lines, code, _, types, kit, _ = counted(roots, cuts)
        rows.append(f"| {claim} | {sum(lines.values()):,} | {len(lines)} | {sum(code.values())} lines, {len(types)} types | {len(kit)} |")
    return "\n".join(rows)


def users(key, name):
    """Who else uses a definition: files of definitions, of proofs and of code that name it."""
    found = set()
    path = rf"Rattle\.{key[0]}\.specs\.{key[1]}"
    for file in [file for part in ("src", "specs", "proofs", "proofs/*") for file in sorted(TOP.glob(f"crates/*/{part}/*"))]:
        if not file.is_file():
            continue
        text = file.read_text()
        crate, part = file.relative_to(TOP).parts[1:3]
        for names, other in re.findall(rf"use {path}(?:\.\{{(.*)\}}| as (\S+?));?$", text, re.M):
            if name in names.split(", ") or other and re.search(rf"(?<!\S){re.escape(other)}\.{re.escape(name)}(?![\w-])", text):
                found.add(f"{crate}/{part}")
    return found


def unreached():
    """The definitions of the files that demands 2 and 3 reach which no statement reaches, with who uses them."""
    wanted = counted(*CLAIMS[1][1:])[0]
    seen = reach(*CLAIMS[-1][1:])[0]
    for key in sorted(wanted):
        for definition in FILES[key].order:
            if (key, definition.name) not in seen:
                inner = [d.name for d in FILES[key].order if any(t[1] == definition.name and t[0][1:] == key for t in mentions(key, d))]
                yield key, definition, inner, sorted(users(key, definition.name))


def marked(definition):
    """Whether the last comment before a definition says that it is in no statement."""
    crate, file = definition.file
    comment, open_ = "", False
    for line in (TOP / f"crates/{crate}/specs/{file}.antt").read_text().splitlines():
        if line.strip() == definition.chunks[0][0]:
            return "in no statement" in comment
        remark = line.strip().startswith("-- ")
        if remark:
            comment = f"{comment} {line.strip()[3:]}" if open_ else line.strip()[3:]
        open_ = remark
    return False


if __name__ == "__main__":
    print(table())
    if "--files" in sys.argv:
        for claim, roots, cuts in CLAIMS:
            lines, code, _, types, kit, stopped = counted(roots, cuts)
            print(f"\n{claim}")
            for key, n in sorted(lines.items()):
                print(f"  {n:4} of {FILES[key].lines():4}  {key[0]}/specs/{key[1]}")
            for path, n in sorted(code.items()):
                print(f"  {n:4}          {path.relative_to(TOP)} ({', '.join(sorted(t for c, t in types if c == path.parts[-3]))})")
            if stopped:
                print(f"  cut: {', '.join(sorted(stopped))}")
            print(f"  of the kit: {', '.join(sorted(kit))}")
    if "--unreached" in sys.argv:
        for key, definition, inner, others in unreached():
            print(f"{key[0]}/specs/{key[1]}: {definition.name}, {definition.lines()} lines; used by {', '.join(inner + others) or 'nothing'}")
