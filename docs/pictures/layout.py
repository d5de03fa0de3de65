"""docs/LAYOUT.md's words at the bracket program's segment size, 16 KiB, by formulas of the segment count. Nothing else in this folder knows where anything
stands in the lent slice."""

WORD_BITS = 32
KIB = 16  # the segment size
SEGMENT_WORDS = KIB * 1024 * 8 // WORD_BITS
CLASSES = range(3, 15)
MUTATORS, ROOTS, ENTRY_WORDS = 32, 16, 32
RECORD_WORDS = 6  # tag, class, place, mutator, blocks kept at the last sweep, blocks handed out since
CONTROL_WORDS = 16
PHASE, TRACE_COUNT, CURSOR = 0, 1, 2
MARK_GRAIN = 2  # words of the heap that share a mark bit
STATE, ACKS, HELD = ROOTS, ROOTS + 1, ROOTS + 2

PHASES = ["IDLE", "SYNC1", "SYNC2", "MARK", "SWEEP"]
IDLE, SYNC1, SYNC2, MARK, SWEEP = range(5)
TAGS = ["free", "part", "held", "full", "condemned"]
FREE, PART, HELD_BY, FULL, CONDEMNED = range(5)
ABSENT, INSIDE, OUTSIDE = range(3)


def marks_bind(phase, tag):
    """Whether the marks of a segment mean anything: docs/CONSISTENCY.md, by phase."""
    return phase in (SYNC1, SYNC2, MARK) or phase == SWEEP and tag == CONDEMNED


def block_words(c):
    return (1 << c) // 4


def blocks(c):
    return SEGMENT_WORDS // block_words(c)


def words_for(bits):
    return -(-bits // WORD_BITS)


def level_bits(c):
    """How many bits each level of a bitmap of class c has, level 0 first."""
    bits = [blocks(c)]
    while bits[-1] > WORD_BITS:
        bits.append(words_for(bits[-1]))
    return bits


BITMAP_WORDS = sum(map(words_for, level_bits(CLASSES[0])))
MARK_WORDS = words_for(SEGMENT_WORDS // MARK_GRAIN)


def lengths(n):
    """The regions in order, and their words."""
    return {
        "control": CONTROL_WORDS,
        "mutators": MUTATORS * ENTRY_WORDS,
        "heap": n * SEGMENT_WORDS,
        "segments": n * RECORD_WORDS,
        "stacks": (1 + n) * (1 + len(CLASSES)),
        "bitmaps": n * BITMAP_WORDS,
        "marks": n * MARK_WORDS,
        "trace": n * blocks(CLASSES[0]),
    }


def starts(n):
    at, begins = 0, {}
    for name, words in lengths(n).items():
        begins[name] = at
        at += words
    return begins


def total(n):
    return sum(lengths(n).values())


class Image:
    """The words of a heap of n segments, by name. A reference is None for nil, or the number of a header word in the heap."""

    def __init__(self, words, n):
        self.words, self.n, self.begins = words, n, starts(n)

    def at(self, region, index):
        return self.words[self.begins[region] + index]

    def run(self, region, index, count):
        return list(self.words[self.begins[region] + index:][:count])

    def reference(self, word):
        return word - 1 if word else None

    @property
    def phase(self):
        return self.at("control", PHASE)

    @property
    def cursor(self):
        return self.at("control", CURSOR)

    def trace(self):
        """The trace stack, the first entered first."""
        return [self.reference(self.at("trace", i)) for i in range(self.at("control", TRACE_COUNT))]

    def segment(self, s):
        """Tag, class, place, mutator, and the two counts: blocks kept at the last sweep, and handed out since."""
        return self.run("segments", s * RECORD_WORDS, RECORD_WORDS)

    def counts(self, s):
        return self.segment(s)[4:]

    def counted(self, s):
        """The two counts by the bits and the place: the 1 bits among the blocks, and the blocks in use whose bit is 0."""
        bits = self.bits(s)
        return [sum(bits), sum(self.in_use(s)) - sum(bits)]

    def mutator(self, k):
        """State, acknowledgements, roots, and the held segment of each class that has one."""
        entry = self.run("mutators", k * ENTRY_WORDS, ENTRY_WORDS)
        held = {c: entry[HELD + i] - 1 for i, c in enumerate(CLASSES) if entry[HELD + i]}
        return entry[STATE], entry[ACKS], [self.reference(w) for w in entry[:ROOTS]], held

    def levels(self, s):
        """The words of each level of a segment's bitmap; of a free segment none."""
        tag, c, *_ = self.segment(s)
        found, at = [], s * BITMAP_WORDS
        for bits in level_bits(c) if tag != FREE else []:
            found.append(self.run("bitmaps", at, words_for(bits)))
            at += words_for(bits)
        return found

    def bits(self, s):
        """The bit of each block at level 0; of a free segment none."""
        tag, c, *_ = self.segment(s)
        level = self.levels(s)[0] if tag != FREE else []
        return [level[b // WORD_BITS] >> b % WORD_BITS & 1 for b in range(blocks(c) if level else 0)]

    def entered(self, header):
        """Whether a record is marked or on the trace stack."""
        bit = header // MARK_GRAIN
        return self.at("marks", bit // WORD_BITS) >> bit % WORD_BITS & 1

    def header(self, s, b):
        return s * SEGMENT_WORDS + b * block_words(self.segment(s)[1])

    def block(self, header):
        """The segment and the block of a record."""
        s = header // SEGMENT_WORDS
        return s, header % SEGMENT_WORDS // block_words(self.segment(s)[1])

    def shape(self, header):
        return divmod(self.at("heap", header), 1 << 16)

    def pointers(self, header):
        return [self.reference(w) for w in self.run("heap", header + 1, self.shape(header)[0])]

    def stack(self, t):
        """Stack 0 is the free segments', 1 + (c - 3) the part segments' of class c; the last put on last."""
        base = t * (1 + self.n)
        return self.run("stacks", base + 1, self.at("stacks", base))

    def in_use(self, s):
        """For each block of a segment whether it is in use."""
        place = self.segment(s)[2]
        return [b < place or bit for b, bit in enumerate(self.bits(s))]

    def reached(self):
        """The records that the roots of attached mutators lead to."""
        left = [r for k in range(MUTATORS) for r in self.mutator(k)[2] if self.mutator(k)[0] != ABSENT and r is not None]
        found = set()
        while left:
            header = left.pop()
            if header not in found:
                found.add(header)
                left += [p for p in self.pointers(header) if p is not None]
        return found
