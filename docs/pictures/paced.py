"""A run over eight segments: three mutators that make records of three classes, drop them and link them; a start where
three segments are full or part, and two steps of the collector after each make. The same lines every time."""
import layout

SEGMENTS, ROUNDS, RING = 8, 74, 6
# for each mutator the shape that it makes, class 9, 10 and 11, and how often: in each round, in each second one
MAKES = {0: ("(1 100)", 1), 1: ("(1 200)", 1), 2: ("(1 400)", 2)}
FOR_START, STEPS = 3, 2


def numbers(seed=13):
    while True:
        seed = (seed * 1103515245 + 12345) % (1 << 31)
        yield seed >> 16


def run(player):
    draw = numbers()
    player.line(f"(rack {SEGMENTS})")
    for k in MAKES:
        player.line(f"(attach {k})")
    for turn in range(ROUNDS):
        for k, (shape, every) in MAKES.items():
            if turn % every:
                continue
            root = next(draw) % RING
            other = (root + 1 + next(draw) % (RING - 1)) % RING
            made = player.line(f"(make ({k} {root}) {shape})") == "(ok)"
            if next(draw) % 3 == 0 and made:
                player.line(f"(store ({k} {root} 0) {other})")
            player.line(f"(check {k})")
            tags = [player.image.segment(s)[0] for s in range(SEGMENTS)]
            if player.image.phase == layout.IDLE and tags.count(layout.FULL) + tags.count(layout.PART) >= FOR_START:
                player.line("(start)")
            for _ in range(STEPS):
                if player.image.phase != layout.IDLE:
                    player.line("(step)")
