#!/usr/bin/env python3
"""Respells this repository's own names of specs/ and proofs/: words in snake case, a dash only behind a word that it joins.

usage: tools/respell.py            at the top of the repository, after the kit's port.py: rewrites crates/ in place
       tools/respell.py --report   says what would fall together, and writes nothing

blocksIn -> blocks_in, c-make -> c_make, length-setBit -> length-set_bit. Names of src/ (functions, types, fields, variants),
strings, names of the kit and the names that Rattle makes for proofs stay as they are.
"""

import collections
import glob
import re
import sys

W = r"[^\s(){}.;,@\"«»\[\]\\]+"
ANTT = re.compile(r"--[^\n]*|\"(?:[^\"\\]|\\.)*\"|«[^»]*»|" + W)
RT = re.compile(r"//[^\n]*|b?\"(?:[^\"\\]|\\.)*\"|" + W)
CAMEL = re.compile(r"(?<![A-Za-z0-9_])[a-z][a-z0-9]*[A-Z][A-Za-z0-9]*(?![A-Za-z0-9_])")
# Words of the kit, and of this repository, that a dash joins to what follows.
JOINED = set("length take drop set get_or append replicate reverse map sum".split())
OLD_WORDS = {"getD": "get_or"}
# A lemma that would fall together with what it is about gets this ending, as the kit has it.
ENDING = "_lem"
# Lemmas, fields and variables that the kit's script had respelled, beside which a definition gets their name now.
SPELLED = "no_start one_number handed_out step_in is_one no_room all_ones left_out never_both".split()
OF_A_FILE = {"crates/sheet/proofs/Records.antt": {"in_use": "in_use_is"}}


def read(path):
    with open(path, encoding="utf-8", newline="") as it:
        return it.read()


def snake(word):
    if word in OLD_WORDS:
        return OLD_WORDS[word]
    if not re.match(r"[a-z]", word):
        return word
    return re.sub(r"(?<=[a-z0-9])([A-Z])", lambda m: "_" + m[1].lower(), word)


def files(ending):
    return sorted(p for p in glob.glob("crates/**/*" + ending, recursive=True) if "/out/" not in p)


def of_the_kit(texts):
    """The names that the files take from modules of the kit."""
    out = set()
    own = {p.split("/")[1] for p in texts}
    for text in texts.values():
        for module, names in re.findall(r"(?ms)^(?:pub |ghost )?use (\S+?)\.\{([^}]*)\}", text):
            first = module.split(".")
            if first[0] == "Rattle" and first[1] in own:
                continue
            for name in names.split(","):
                out.update(w.strip() for w in name.split(" as "))
    return out


def declared(texts):
    """The names with a dash that the files declare: at a signature, as a field, a constructor, a variable or a `let`."""
    out = set()
    for path, text in texts.items():
        made = path.endswith("Proof.antt")
        plain = re.sub(r"--[^\n]*", "", text)
        for m in re.finditer(r"(?m)^[ ]*(?:(?:pub|abbrev|unfoldable|data|record|where) )*(%s) :(?= |$)([^\n]*)" % W, plain):
            name = m[1]
            if made and re.search(r"\btie\.", m[2]) or name.endswith("-spec") and made:
                continue
            out.add(name)
        for m in re.finditer(r"(?:\blet |λ |[({])(%s)(?= [:=.])" % W, plain):
            out.add(m[1])
        for m in re.finditer(r"[({]((?:%s )+):" % W, plain):
            out.update(m[1].split())
        for m in re.finditer(r"(?m)^ +(?:pub )?((?:%s )+):(?= )" % W, plain):
            out.update(m[1].split())
        for m in re.finditer(r"(?m)^pub ruleset (\S+)", plain):
            out.add(m[1])
    return {n for n in out if re.match(r"[a-z]", n) and "-" in n and not re.match(r"(invariant|measure)-", n)}


def table(texts):
    kit, words = of_the_kit(texts), set()
    for text in texts.values():
        words.update(snake(w) for w in re.findall(r"(?m)^(?:abbrev |unfoldable |pub )+(\w+) :", text) if not w[0].isupper())
    joins = JOINED | {w for w in words if "_" in w}
    names = {}
    for text in texts.values():
        for m in ANTT.finditer(text):
            word = m[0]
            if not word.startswith(("--", '"', "«")) and CAMEL.fullmatch(word) and word not in kit:
                names[word] = snake(word)
    for word in declared(texts) - kit:
        parts = [snake(p) for p in word.split("-")]
        plain = "_".join(parts)
        at = max((n for n in range(1, len(parts)) if "_".join(parts[:n]) in joins), default=0)
        names[word] = "_".join(parts[:at]) + "-" + "_".join(parts[at:]) if at else plain
    names.update((word, word + ENDING) for word in SPELLED)
    # A name with a dash gives way where another name of the file is spelled so.
    for path, text in texts.items():
        seen = {m[0] for m in ANTT.finditer(text)}
        back = collections.Counter(names.get(w, w) for w in seen if w not in SPELLED)
        for word in seen:
            new = names.get(word, word)
            if "-" in word and word in names and back[new] > 1 and not new.endswith(ENDING):
                names[word] = new + ENDING
    return {a: b for a, b in names.items() if a != b}


def respelled(text, names, token):
    def one(m):
        word = m[0]
        if word.startswith(("--", "//")):
            return CAMEL.sub(lambda c: names.get(c[0], c[0]), word)
        if word.startswith(('"', "«", 'b"')):
            return word
        return names.get(word, word)

    return token.sub(one, text)


def report(texts, names):
    back = collections.defaultdict(set)
    for a, b in names.items():
        back[b].add(a)
    for path, text in texts.items():
        token = RT if path.endswith(".rt") else ANTT
        seen = {m[0] for m in token.finditer(text)}
        seen = {w for w in seen if not w.startswith(("--", '"', "«", "//"))}
        for b, of in sorted(back.items()):
            if b in OF_A_FILE.get(path, {}):
                continue
            here = (of & seen) | ({b} & seen)
            if len(here) > 1:
                print(f"together: {path}: {' '.join(sorted(here))} -> {b}")


def main():
    texts = {p: read(p) for p in files(".antt")}
    names = table(texts)
    sources = {p: read(p) for p in files(".rt")}
    if sys.argv[1:] == ["--report"]:
        report({**texts, **sources}, names)
        print(len(names), "names")
        return
    for path, text in {**texts, **sources}.items():
        now = respelled(text, {**names, **OF_A_FILE.get(path, {})}, RT if path.endswith(".rt") else ANTT)
        if now != text:
            with open(path, "w", encoding="utf-8", newline="") as it:
                it.write(now)


if __name__ == "__main__":
    main()
