"""What the tables of docs/BENCH.md show: the rows' names as the workloads give them, and the limits that they are held to."""

SINGLE = [
    "load", "get", "put", "copy", "clear", "same", "shape",
    "store: nothing", "store: new and old pushed", "store: old pushed", "store: old is on the stack already",
    "make 0+1", "make 1+1", "make 8+8", "make 600+400", "make 0+31", "make 0+32", "make 0+1023",
    "make 0+1, last bit of a word", "make 1+1, last bit of a word", "make 8+8, last bit of a word",
    "make 0+1, takes a free segment", "make 1+1, takes a free segment", "make 8+8, takes a free segment",
    "make 0+1024, takes a free segment", "make 0+1024, segment becomes full",
    "make 0+2047, takes a free segment", "make 0+2047, segment becomes full",
    "make 0+2048, takes a free segment, full at once", "make 0+4095, takes a free segment, full at once",
    "make in mark, 0+1, takes a free segment", "make in mark, 1023+0, takes a free segment", "make in mark, 1023+0, segment becomes full",
    "make in mark, 2047+0, segment becomes full", "make in mark, 4095+0, takes a free segment, full at once",
    "make in mark, takes a part segment, next free block is the last", "make in mark, climbs to the last block, segment becomes full",
    "attach", "spawn", "detach, holds nothing", "detach, hands back eleven segments",
    "check, idle", "check, first handshake", "check, second handshake, 16 roots", "leave, idle", "leave, second handshake, 16 roots", "enter",
    "start, 1 full", "start, 64 full", "start, 256 full",
    "start, 1 part", "start, 64 part", "start, 256 part", "start, 256 free",
    "step: waiting", "step: first handshake, 1 mutator", "step: second handshake, 1 mutator",
    "step: second handshake, 31 mutators outside",
    "step: mark, a record without pointers", "step: mark, 16 new pointers", "step: mark, 64 new pointers",
    "step: mark, 1023 new pointers", "step: mark, 4095 new pointers", "step: mark is over",
    "step: sweep of class 3, 4 segments", "step: sweep of class 3, 256 segments", "step: sweep of class 3, last of 256 segments",
    "step: done, 4 segments", "step: done, 256 segments", "step: idle",
    "sheet, 1 segment", "sheet, 256 segments",
]

# Heaps of four segments filled: the shape and the makes.
FILLED = [("0+1", 8192), ("1+1", 4096), ("8+8", 512)]

# A new pointer in mark: a step over a record of so many less one over so many.
POINTERS = [(64, 16), (1023, 64), (4095, 1023)]

# A make of so many values less one of so many.
VALUES = [(32, 31)]

# Each kind of call and the beginnings of the names of its rows; the longest of them counts.
LONGEST = [
    ("open", ["open"]), ("attach", ["attach"]), ("spawn", ["spawn"]), ("detach", ["detach"]), ("make", ["make"]),
    ("load", ["load"]), ("store", ["store"]), ("put", ["put"]), ("get", ["get"]), ("copy", ["copy"]),
    ("clear", ["clear"]), ("same", ["same"]), ("shape", ["shape"]), ("check", ["check"]), ("leave", ["leave"]),
    ("enter", ["enter"]), ("start", ["start"]),
    ("step in a handshake", ["step: first", "step: second", "step: waiting"]), ("step in mark", ["step: mark"]),
    ("step in sweep", ["step: sweep", "step: done"]),
    ("phase", ["phase"]), ("states", ["states"]), ("sheet", ["sheet"]), ("examine", ["examine"]),
]

GROWTH = [1, 2, 4, 8, 16, 32, 64, 128, 256]
HALF_EMPTY = [1, 64, 256]  # cycles over part segments, half of their blocks in use
PACES = ["mutation, no collector", "mutation, a step every 16 calls", "mutation, a step every 4 calls", "mutation, a step every 1 calls"]

# Limits of the ratio to the independent implementation as it was at 8d90607: the group, the ratio, and its rows, each with the
# count of that implementation; None is the stored one.
RATIOS = [
    ("a new pointer in mark", 1.1, {"a new pointer in mark (64 against 16)": 25, "a new pointer in mark (1,023 against 64)": 25}),
    ("a whole cycle, a live record", 1.0, {
        "cycle, 64 segments, live: a live record": 162, "cycle, 256 segments, live: a live record": 162,
        "cycle, 64 segments, half live: a live record": 163, "cycle, 256 segments, half live: a live record": 163}),
    ("a whole cycle over dead segments", 1.35, {
        "cycle, 1 segments, dead, class 3": 2578, "cycle, 64 segments, dead, class 3": 17320, "cycle, 256 segments, dead, class 3": 62248,
        "cycle, 1 segments, dead, class 4": 2550, "cycle, 64 segments, dead, class 4": 15528, "cycle, 256 segments, dead, class 4": 55080}),
    ("check and leave with 16 roots", 1.0, {"check, second handshake, 16 roots": 536, "leave, second handshake, 16 roots": 524}),
    ("the longest step in a handshake", 1.0, {"longest: step in a handshake": 17002}),
    ("store that enters", 1.2, {"store: new and old pushed": 105, "store: old pushed": 81, "store: old is on the stack already": 73}),
    # the three counts of request No. 3, with which that implementation counts too: one instruction more than at 8d90607
    ("make", 1.2, {"make 0+1": 98, "make 1+1": 99, "make 8+8": 101}),
    ("make, mean over a fill", 1.25, {"make 0+1, mean over 8,192": None, "make 1+1, mean over 4,096": None, "make 8+8, mean over 512": None}),
    # counted again at request No. 5, with which both condemn part segments too: more to sweep, and more cycles
    ("mutation with steps", 1.05, {f"{pace}: a call": count for pace, count in zip(PACES[1:], (58.2, 73.9, 89.6))}),
    ("open", 1.0, {"longest: open": None}),
]

# Limits "no more than at 8d90607": the group and its rows.
NO_MORE = [
    ("load, get, put, copy, same, shape, clear, enter", ["load", "get", "put", "copy", "same", "shape", "clear", "enter"]),
    ("make at a word's last bit", ["make 0+1, last bit of a word", "make 1+1, last bit of a word", "make 8+8, last bit of a word"]),
    ("make that takes a segment or climbs", [
        "make 0+1, takes a free segment", "make 1+1, takes a free segment", "make 8+8, takes a free segment",
        "make in mark, 0+1, takes a free segment", "make in mark, 1023+0, takes a free segment",
        "make in mark, takes a part segment, next free block is the last", "make in mark, climbs to the last block, segment becomes full"]),
    ("examine", ["examine, 256 segments, live"]),
]

# Limits of request No. 2, no more than the library took before it (83a14ee): the group, and its rows with that count. Those of load,
# get, put, copy, clear and same are above: they had not moved since 8d90607.
NO_MORE_2 = [
    ("store", {"store: nothing": 57, "store: new and old pushed": 120, "store: old pushed": 90, "store: old is on the stack already": 75}),
    ("make of up to 31 fields that searches or takes a segment", {
        "make 0+1, last bit of a word": 151, "make 1+1, last bit of a word": 152, "make 8+8, last bit of a word": 155,
        "make 0+1, takes a free segment": 352, "make 1+1, takes a free segment": 282, "make 8+8, takes a free segment": 277,
        "make in mark, 0+1, takes a free segment": 363, "make in mark, takes a part segment, next free block is the last": 594,
        "make in mark, climbs to the last block, segment becomes full": 451}),
    ("make of 1,023 fields that takes or fills a segment", {
        "make in mark, 1023+0, takes a free segment": 603, "make in mark, 1023+0, segment becomes full": 646}),
]

# Limits of request No. 3, for the word that a make raises: at most so many instructions more than before it (778de55); the group, and
# its rows with that count.
RAISED = 6
NO_MORE_3 = [
    ("make with a free block at hand", {
        "make 0+1": 111, "make 1+1": 112, "make 8+8": 114, "make 0+31": 139, "make 0+32": 159, "make 600+400": 374, "make 0+1023": 381}),
]

# Limits of request No. 5, against the library before it (39d67b6). A start writes the counts of twelve stacks and tests
# for two tags: the row, that count, and by how many instructions it may be more, or so many times that count.
START_MORE = ("start, 1 full", 96, 70)
START_TIMES = ("start, 256 full", 5084, 1.1)
# No more than at that commit: the group, and its rows with that count. Those of load, get, put, store, of a make with a
# free block at hand and of one of up to 31 fields that takes a free segment are above: they had not moved.
NO_MORE_5 = [
    ("a sweep of class 3", {
        "step: sweep of class 3, 4 segments": 1002, "step: sweep of class 3, 256 segments": 1002,
        "step: sweep of class 3, last of 256 segments": 996}),
    ("any other make", {
        "make 0+1, last bit of a word": 165, "make 1+1, last bit of a word": 166, "make 8+8, last bit of a word": 169,
        "make 0+1024, takes a free segment": 501, "make 0+1024, segment becomes full": 556,
        "make 0+2047, takes a free segment": 725, "make 0+2047, segment becomes full": 780,
        "make 0+2048, takes a free segment, full at once": 894, "make 0+4095, takes a free segment, full at once": 1342,
        "make in mark, 1023+0, takes a free segment": 512, "make in mark, 1023+0, segment becomes full": 567,
        "make in mark, 2047+0, segment becomes full": 791,
        "make in mark, 4095+0, takes a free segment, full at once": 1353,
        "make in mark, takes a part segment, next free block is the last": 599,
        "make in mark, climbs to the last block, segment becomes full": 457}),
]

# Limits of request No. 6, with which every call takes the segment size, against the library before it (c151f16): the
# group, by how many instructions a row may be more than there, and its rows with that count.
MORE_6 = [
    ("load, get, put, copy, clear, same", 6, {
        "load": 46, "get": 44, "put": 45, "copy": 28, "clear": 24, "same": 30}),
    ("store", 10, {
        "store: nothing": 57, "store: new and old pushed": 120, "store: old pushed": 90,
        "store: old is on the stack already": 75}),
    ("make", 10, {
        "make 0+1, takes a free segment": 352, "make 0+1": 117, "make 0+1, last bit of a word": 165,
        "make 1+1, takes a free segment": 282, "make 1+1": 118, "make 1+1, last bit of a word": 166,
        "make 8+8, takes a free segment": 277, "make 8+8": 120, "make 8+8, last bit of a word": 169,
        "make 600+400": 380, "make 0+31": 145, "make 0+32": 165, "make 0+1023": 387,
        "make 0+1024, takes a free segment": 501, "make 0+1024, segment becomes full": 556,
        "make 0+2047, takes a free segment": 725, "make 0+2047, segment becomes full": 780,
        "make 0+2048, takes a free segment, full at once": 894,
        "make 0+4095, takes a free segment, full at once": 1342,
        "make in mark, takes a part segment, next free block is the last": 599,
        "make in mark, climbs to the last block, segment becomes full": 457,
        "make in mark, 0+1, takes a free segment": 363, "make in mark, 1023+0, takes a free segment": 512,
        "make in mark, 1023+0, segment becomes full": 567, "make in mark, 2047+0, segment becomes full": 791,
        "make in mark, 4095+0, takes a free segment, full at once": 1353}),
    ("a new pointer in mark", 3, {f"a new pointer in mark ({more:,} against {fewer:,})": 27 for more, fewer in POINTERS}),
]
# A whole cycle: so many times the count there.
TIMES_6 = ("a whole cycle", 1.05, {
    "cycle, 1 segments, dead, class 3": 1993, "cycle, 1 segments, dead, class 4": 1922,
    "cycle, 1 segments, live": 40316, "cycle, 1 segments, half live": 21388,
    "cycle, 1 segments, half empty, half live": 11964, "cycle, 1 segments, half empty, dead": 1915,
    "cycle, 64 segments, dead, class 3": 22764, "cycle, 64 segments, dead, class 4": 18220,
    "cycle, 64 segments, live": 2499502, "cycle, 64 segments, half live": 1288110,
    "cycle, 64 segments, half empty, half live": 681950, "cycle, 64 segments, half empty, dead": 17772,
    "cycle, 256 segments, dead, class 3": 85980, "cycle, 256 segments, dead, class 4": 67804,
    "cycle, 256 segments, live": 9994078, "cycle, 256 segments, half live": 5148510,
    "cycle, 256 segments, half empty, half live": 2723726, "cycle, 256 segments, half empty, dead": 66012})
# At 32 KiB: so many more than the row at 16 KiB that does the same work; each with the name of that row.
MORE_AT_32 = 2
AT_32 = {name: name for name in (
    "load", "get", "put", "copy", "clear", "same",
    "store: nothing", "store: new and old pushed", "store: old pushed", "store: old is on the stack already",
    "make 0+1", "make 1+1", "make 8+8",
    "make 0+1, last bit of a word", "make 1+1, last bit of a word", "make 8+8, last bit of a word",
    *(f"a new pointer in mark ({more:,} against {fewer:,})" for more, fewer in POINTERS))}
AT_32 |= {"make 0+1, block 2,049": "make 0+1", "make 0+1, block 2,079, last bit of a word": "make 0+1, last bit of a word"}
# More rows at 32 KiB, where a segment has twice the blocks, so that there is more to do.
LARGE = {name: name for name in (
    "make 0+1, takes a free segment", "make 1+1, takes a free segment", "make 8+8, takes a free segment",
    "step: sweep of class 3, 256 segments", "cycle, 64 segments, dead, class 3", "cycle, 64 segments, dead, class 4",
    "cycle, 64 segments, live: a live record", "cycle, 64 segments, half live: a live record",
    "states, 256 segments", "sheet, 256 segments", "examine, 256 segments, live")}
LARGE |= {"make 0+1, mean over blocks 2,048 to 4,095": "make 0+1, mean over 8,192",
          "detach, hands back twelve segments": "detach, hands back eleven segments"}

# Limits in instructions: the group, the most, and its rows.
AT_MOST = [
    ("make of 32 fields less that of 31", 30, ["make of 32 values less that of 31"]),
    ("detach that holds nothing", 185, ["detach, holds nothing"]),
    ("done, 256 segments, none condemned", 1600, ["step: done, 256 segments"]),
    # six words a segment where there were four: half more than at 8d90607
    ("states", 6018, ["states, 256 segments"]),
    ("a sweep of class 3 with live blocks", 1000,
     ["step: sweep of class 3, 4 segments", "step: sweep of class 3, 256 segments", "step: sweep of class 3, last of 256 segments"]),
]

# The frame that make reserves by its own, beside the registers that it saves, in bytes: it is to be below the first, and was the
# second at 8d90607 (docs/requests/04.md).
FRAME = (300, 1208)

# Beside Boehm's stop-the-world, by time: make with its share of the cycles is to be below it at these segments and shapes.
BELOW_BOEHM = [(64, "1+1"), (256, "1+1"), (64, "8+8")]

# How fast the independent implementation must be for the ratios to mean something: the call, the instructions of the C caller with
# which the wanted figure was taken, and that figure; None is the new pointer in mark.
YARDSTICK = [("load", 16, 61), ("get", 15, 58), ("put", 16, 60), ("store: nothing", 16, 101), ("make 0+1", 16, 199), (None, 0, 40)]
