"""Bracket forms played on the library, and the lent memory after each as values. What the looks show is compared with what the memory's words say.

The bracket program itself opens one or two segments; here (rack S) opens up to 256."""
import ctypes
import re
from array import array

import layout

WORD = ctypes.c_uint32
CONTENT = 0xA5A5A5A5


class Library:
    """The exported calls over one lent slice."""

    def __init__(self, path):
        self.calls = ctypes.CDLL(path)
        self.n, self.memory = 0, None

    def open(self, n):
        words = layout.total(n)
        length = self.calls.borvukhai_length
        length.restype = ctypes.c_size_t
        asked = length(WORD(n), WORD(layout.KIB))
        assert asked == words, f"the library asks for {asked} words for {n} segments, layout.py for {words}"
        self.n, self.memory = n, (WORD * words)(*[CONTENT] * words)  # an opening works on memory of any content
        return self.ask("open")

    def ask(self, name, *numbers, lent=None):
        """The answer as 64 bits: a result above a refusal."""
        call = getattr(self.calls, "borvukhai_" + name)
        call.restype = ctypes.c_uint64 if name in ("get", "same", "shape", "step", "phase", "examine") else WORD
        slices = [self.memory] + ([lent] if lent is not None else [])
        lent_words = [x for s in slices for x in (s, ctypes.c_size_t(len(s)))]
        return call(WORD(self.n), WORD(layout.KIB), *lent_words, *map(WORD, numbers))

    def image(self):
        return layout.Image(array("I", bytes(self.memory)), self.n)

    def look(self, image):
        """The looks beside the words: phase, segment states, and that the examination says yes and leaves its scratch zero. What no look shows is compared
        with what it shows: the stacks of segments, the marks of what is on the trace stack, the class of records that are reached; and the counts that it
        shows with bits and places."""
        assert self.ask("phase") == image.phase << 32
        output = (WORD * (layout.RECORD_WORDS * self.n))()
        assert self.ask("states", lent=output) == 0
        assert list(output) == [w for s in range(self.n) for w in image.segment(s)]
        words = self.calls.borvukhai_scratch_length
        words.restype = ctypes.c_size_t
        scratch = (WORD * words(WORD(self.n), WORD(layout.KIB)))(CONTENT, CONTENT)
        assert self.ask("examine", lent=scratch) == 1 << 32, "the memory fails the examination"
        assert not any(bytes(scratch))
        segments = [image.segment(s) for s in range(self.n)]
        assert sorted(image.stack(0)) == [s for s, (tag, *_) in enumerate(segments) if tag == layout.FREE]
        for t, c in enumerate(layout.CLASSES, 1):
            assert sorted(image.stack(t)) == [s for s, (tag, of, *_) in enumerate(segments) if tag == layout.PART and of == c]
        assert all(image.counts(s) == image.counted(s) for s in range(self.n))
        assert all(image.entered(header) for header in image.trace())
        for header in image.reached():
            s, b = image.block(header)
            fields, room = sum(image.shape(header)), layout.block_words(segments[s][1])
            assert image.in_use(s)[b] and (fields < 2 or room // 2 <= fields) and fields < room


# a form's numbers in the order of the call's: a load names its mutator twice
ORDER = {"load": (0, 1, 3, 4)}
STEPS = ["idle", "waiting", "moved", "traced", "swept", "done"]


def reply(name, answer):
    """The reply as the bracket program prints it."""
    number, value = answer & 0xFFFFFFFF, answer >> 32
    if number:
        return f"(no {number})"
    if name == "step":
        kind, low, high = STEPS[value & 0xFF], value >> 8 & 0xFF, value >> 16
        return {"waiting": f"(waiting {low})", "swept": f"(swept {low} {high})"}.get(kind, f"({kind})")
    if name == "shape":
        return f"(ok {value >> 16} {value & 0xFFFF})"
    return f"(ok {value})" if name in ("get", "same") else "(ok)"


class Player:
    """Lines played one after the other; `frames` has each with its reply and the memory after it. The blocks in use are those of all makes, less those
    that sweeps freed."""

    def __init__(self, library):
        self.library, self.image, self.frames, self.used = library, None, [], 0

    def line(self, line):
        name = re.match(r"\((\w+)", line)[1]
        numbers = [int(x) for x in re.findall(r"\d+", line)]
        numbers = [numbers[i] for i in ORDER[name]] if name in ORDER else numbers
        answer = self.library.open(*numbers) if name == "rack" else self.library.ask(name, *numbers)
        before, self.image, said = self.image, self.library.image(), reply(name, answer)
        self.library.look(self.image)
        if said.startswith("(swept"):
            s, freed = map(int, re.findall(r"\d+", said))
            assert freed == sum(before.in_use(s)) - sum(self.image.in_use(s))
            self.used -= freed
        self.used = 0 if name == "rack" else self.used + (name == "make" and said == "(ok)")
        for of in (self.image.in_use, self.image.counts):
            assert self.used == sum(sum(of(s)) for s in range(self.image.n))
        self.frames.append((line, said, self.image))
        return said


def played(library, run):
    """The frames of a run: a list of lines, or a program that plays its own."""
    player = Player(library)
    if callable(run):
        run(player)
    else:
        for line in run:
            player.line(line)
    return player.frames
