#!/usr/bin/env python3
"""The tables of docs/BENCH.md from what bench/run measured: report.py FOLDER BENCH.md rewrites the parts of the document
that stand between a mark "measured" and the next "end of measured"."""
import os
import re
import subprocess
import sys
import textwrap
from array import array
from statistics import median

from rows import AT_32, AT_MOST, BELOW_BOEHM, FILLED, FRAME, GROWTH, HALF_EMPTY, LARGE, LONGEST, MORE_6, MORE_AT_32
from rows import NO_MORE, NO_MORE_2, NO_MORE_3, NO_MORE_5, PACES, POINTERS, RAISED, RATIOS, SINGLE, START_MORE, START_TIMES
from rows import TIMES_6, VALUES, YARDSTICK

PART = re.compile(r"(<!-- measured, (\w+): written by bench/run -->\n).*?(<!-- end of measured -->)", re.S)
STORED = os.path.join(os.path.dirname(os.path.abspath(__file__)), "before-8d90607.txt")
NOT_COUNTED, NOT_MEASURED = "Instructions are not counted: no valgrind.\n", "Boehm's collector is not measured: no libgc-dev.\n"
AT_SIZE = ", 32 KiB"  # what the names of rows at that size end with
SHAPES = [(segments, shape) for segments in (64, 256) for shape in ("1+1", "8+8")]


def number(x):
    return f"{x:,.0f}" if x >= 1000 or x == int(x) else f"{x:.1f}"


def table(head, rows):
    """A table: the first column to the left, the others to the right."""
    written = lambda line: "| " + " | ".join(line) + " |\n"
    return written(head) + "|---|" + "---:|" * (len(head) - 1) + "\n" + "".join(map(written, rows))


def verdict(kept):
    return "ok" if kept else "MISS"


# What was counted.


def read_counts(folder, library):
    """name -> (probe, alone)"""
    with open(os.path.join(folder, library + ".rows")) as file:
        return {name: (int(probe), int(alone)) for name, probe, alone in (row.rstrip("\n").split("\t") for row in file)}


def read_said(folder):
    """What the counted workloads print: live records of cycles, calls of mutations."""
    with open(os.path.join(folder, "verified.said")) as file:
        return {fields[0].split(": ", 1)[1]: int(fields[1]) for fields in (row.split("\t") for row in file)}


def read_sizes(folder, library):
    with open(os.path.join(folder, library + ".sizes")) as file:
        return {name: int(size) for name, size in (row.split("\t") for row in file)}


def read_stored():
    """The stored counts and sizes: those of the library at 8d90607, and those of the independent implementation of that day."""
    before, held = {}, {}
    with open(STORED) as file:
        for row in file:
            if not row.startswith("#"):
                name, verified, independent = row.rstrip("\n").split("\t")
                before[name] = int(verified)
                if independent:
                    held[name] = int(independent)
    return before, held


def differences():
    """(name, row, row, divisor) of the rows that are the difference of two; at 8d90607 some of these were not counted."""
    for more, fewer in POINTERS:
        for size in ("", AT_SIZE):
            steps = [f"step: mark, {pointers} new pointers{size}" for pointers in (more, fewer)]
            yield (f"a new pointer in mark ({more:,} against {fewer:,}){size}", *steps, more - fewer)
    for more, fewer in VALUES:
        yield (f"make of {more} values less that of {fewer}", f"make 0+{more}", f"make 0+{fewer}", 1)


def derive(counts, said):
    """The counts with those that follow from them: means, a new pointer in mark, the longest of each kind."""
    all_rows = dict(counts)
    for shape, makes in FILLED:
        all_rows[f"make {shape}, mean over {makes:,}"] = counts[f"fill {shape}"] / makes
    for name, row, less, by in differences():
        if row in counts and less in counts:
            all_rows[name] = (counts[row] - counts[less]) / by
    upper = counts.get("fill 0+1 from block 2,048 on" + AT_SIZE)
    if upper:
        all_rows["make 0+1, mean over blocks 2,048 to 4,095" + AT_SIZE] = upper / 2048
    for kind, begins in LONGEST:
        lengths = [count for name, count in counts.items() if name.startswith(tuple(begins)) and not name.endswith(AT_SIZE)]
        if lengths:  # the stored counts have no sheet
            all_rows[f"longest: {kind}"] = max(lengths)
    for name, many in said.items():
        if name in counts:
            size = AT_SIZE if name.endswith(AT_SIZE) else ""
            all_rows[name.removesuffix(AT_SIZE) + (": a live record" if name.startswith("cycle") else ": a call") + size] = counts[name] / many
    return all_rows


class Counted:
    """Every row by name: now, at 8d90607, and the independent implementation's, now and as it is held."""

    def __init__(self, folder):
        said = read_said(folder)
        self.probes = [read_counts(folder, library) for library in ("verified", "independent")]
        before, held = read_stored()
        alone = [{name: count[1] for name, count in rows.items()} for rows in self.probes]
        self.now, self.independent, self.before, self.held = (derive(rows, said) for rows in (*alone, before, held))
        self.said = said

    def line(self, name, *more, label=None):
        now, before, independent = self.now[name], self.before.get(name), self.independent[name]
        was, ratio = (number(before), f"{now / before:.2f}") if before else ("", "")
        return [label or name, number(now), was, number(independent), ratio, f"{now / independent:.2f}", *more]


COMPARED = ["verified", "at 8d90607", "independent", "by 8d90607's", "by independent's"]


def single_table(c):
    rows = [c.line(name, " / ".join(number(rows[name][0]) for rows in c.probes)) for name in SINGLE]
    rows += [c.line(f"make {shape}, mean over {makes:,}", "") for shape, makes in FILLED]
    rows += [c.line(f"a new pointer in mark ({more:,} against {fewer:,})", "") for more, fewer in POINTERS]
    return table(["instructions of one call", *COMPARED, "as probes"], rows)


def large_table(c):
    """The rows at 32 KiB, each beside the one at 16 KiB."""
    rows = []
    for name, small in (AT_32 | LARGE).items():
        now, before, independent = c.now[name + AT_SIZE], c.now[small], c.independent[name + AT_SIZE]
        rows.append([name, number(now), number(before), f"{now / before:.2f}", number(independent), f"{now / independent:.2f}"])
    return table(["instructions at 32 KiB", "verified", "at 16 KiB", "by 16 KiB's", "independent", "by independent's"], rows)


def yardstick_table(c):
    """Both libraries with a C caller, beside the figures that the independent one had to reach."""
    rows = []
    for name, caller, most in YARDSTICK:
        own, other = (counts[name or "a new pointer in mark (64 against 16)"] + caller for counts in (c.now, c.independent))
        rows.append([f"{name or 'a new pointer in mark'} ({caller})", str(most), number(other), "ok" if other <= most else "too slow", number(own), f"{own / most:.2f}"])
    return table(["instructions with a caller of so many", "yardstick", "independent", "", "verified", "by the yardstick"], rows)


def longest_table(c, mixed):
    rows = [c.line(f"longest: {kind}", mixed_cell(kind, mixed), label=kind) for kind, _ in LONGEST]
    return table(["instructions of the longest call, 256 segments", *COMPARED, "longest in the mixed run, ns"], rows)


def mixed_cell(kind, mixed):
    key = {"step in a handshake": "step: handshake", "step in mark": "step: mark", "step in sweep": "step: sweep"}.get(kind, kind)
    return f"{mixed['verified'][key]} / {mixed['independent'][key]}" if key in mixed["verified"] else ""


def paces_table(c):
    return table(["instructions of the mutation workload", *COMPARED], [c.line(f"{pace}: a call", label=f"{pace}: for each call") for pace in PACES])


# How cost grows.


def growth_table(c, what, kinds, each, shown):
    """A row for each number of segments; for each kind the verified library, that of 8d90607, the independent one."""
    head = [what] + [f"{kind}: {who}" if who == "verified" else who for kind in kinds for who in ("verified", "at 8d90607", "independent")]
    rows = []
    for segments in GROWTH:
        cells = [shown.format(each(counts, segments, kind)) for kind in kinds for counts in (c.now, c.before, c.independent)]
        rows.append([str(segments)] + cells)
    return table(head, rows)


def half_empty_table(c):
    """Cycles over part segments: dead ones for each segment, half live ones for each live record."""
    rows = []
    for segments in HALF_EMPTY:
        name = f"cycle, {segments} segments, half empty"
        dead = [f"{counts[f'{name}, dead'] / segments:,.0f}" for counts in (c.now, c.independent)]
        live = [f"{counts[f'{name}, half live: a live record']:.1f}" for counts in (c.now, c.independent)]
        rows.append([str(segments)] + dead + live)
    head = ["segments, all part: instructions", "dead, for each segment: verified", "independent",
            "half live, for each live record: verified", "independent"]
    return table(head, rows)


def growth_tables(c):
    dead = lambda counts, segments, kind: counts[f"cycle, {segments} segments, {kind}"] / segments
    live = lambda counts, segments, kind: counts[f"cycle, {segments} segments, {kind}: a live record"]
    return [growth_table(c, "segments: instructions for each segment", ("dead, class 3", "dead, class 4"), dead, "{:,.0f}"),
            growth_table(c, "segments: instructions for each live record", ("live", "half live"), live, "{:.1f}"),
            half_empty_table(c)]


# The limits.


def limit_rows_5(c):
    """Those of request No. 5."""
    name, before, more = START_MORE
    out = [("start over one full segment", f"{more} more than at 39d67b6", name, c.now[name], before + more,
            c.now[name] <= before + more)]
    name, before, times = START_TIMES
    out.append(("start over 256 full segments", f"{times} of 39d67b6", name, c.now[name], before,
                c.now[name] <= times * before))
    for group, rows in NO_MORE_5:
        for name, most in rows.items():
            out.append((group, "no more than at 39d67b6", name, c.now[name], most, c.now[name] <= most))
    return out


def limit_rows_6(c):
    """Those of request No. 6."""
    out = []
    for group, more, rows in MORE_6:
        for name, before in rows.items():
            out.append((group, f"{more} more than at c151f16", name, c.now[name], before + more, c.now[name] <= before + more))
    group, times, rows = TIMES_6
    for name, before in rows.items():
        out.append((group, f"{times} of c151f16", name, c.now[name], before, c.now[name] <= times * before))
    for name, small in AT_32.items():
        now, most = c.now[name + AT_SIZE], c.now[small] + MORE_AT_32
        out.append(("a call at 32 KiB", f"{MORE_AT_32} more than at 16 KiB", name + AT_SIZE, now, most, now <= most))
    return out


def limit_rows(c):
    """(group, limit, row, now, what it is held against, kept) of every limit on instructions."""
    out = []
    for group, limit, rows in RATIOS:
        for name, reference in rows.items():
            reference = reference or c.held[name]
            out.append((group, f"{limit} of independent", name, c.now[name], reference, c.now[name] / reference <= limit + 1e-9))
    for group, rows in NO_MORE:
        out += [(group, "no more than at 8d90607", name, c.now[name], c.before[name], c.now[name] <= c.before[name]) for name in rows]
    for group, rows in NO_MORE_2:
        out += [(group, "no more than at 83a14ee", name, c.now[name], most, c.now[name] <= most) for name, most in rows.items()]
    for group, rows in NO_MORE_3:
        out += [(group, f"{RAISED} more than at 778de55", name, c.now[name], most + RAISED, c.now[name] <= most + RAISED) for name, most in rows.items()]
    out += limit_rows_5(c)
    out += limit_rows_6(c)
    for group, most, rows in AT_MOST:
        out += [(group, f"at most {most:,}", name, c.now[name], most, c.now[name] <= most) for name in rows]
    return out


def summary_rows(limits):
    groups = {}
    for group, limit, _, now, reference, kept in limits:
        groups.setdefault((group, limit), []).append((now / reference, kept))
    out = []
    for (group, limit), rows in groups.items():
        kept = sum(k for _, k in rows)
        best, worst = (f(ratio for ratio, _ in rows) for f in (min, max))
        out.append([group, f"{best:.2f} to {worst:.2f}" if len(rows) > 1 else f"{best:.2f}", limit, f"{kept} of {len(rows)}", verdict(kept == len(rows))])
    return out


def summary_frame(folder):
    frame, most = read_sizes(folder, "verified").get("frame of make"), FRAME[0]
    return [["make's own frame, bytes", f"{frame / most:.2f}", f"below {most}", f"{int(frame < most)} of 1", verdict(frame < most)]] if frame else []


def boehm_limits(folder, churn):
    """(group, limit, ratio, kept) of the limits by time."""
    out = [("make alone, beside Boehm's", "below 1.0", ratio, ratio < 1) for ratio in (median(ratios(churn, s, shape, "fill")) for s, shape in SHAPES)]
    for segments, shape in BELOW_BOEHM:
        ratio = median(ratios(churn, segments, shape, "total"))
        out.append(("make with its share of the cycles, beside Boehm's", "below 1.0", ratio, ratio < 1))
    for program in ("boehm", "incremental"):
        for segments, shape in SHAPES:
            ours, theirs = (least_longest(folder, p, segments, shape) for p in ("verified", program))
            out.append(("the longest single call, by Boehm's", "1/50", ours / theirs, 50 * ours <= theirs))
    return out


def summary_boehm(limits):
    groups = {}
    for group, limit, ratio, kept in limits:
        groups.setdefault((group, limit), []).append((ratio, kept))
    shown = lambda ratio, limit: f"1/{1 / ratio:.0f}" if limit.startswith("1/") else f"{ratio:.2f}"
    return [[group, f"{shown(min(rows)[0], limit)} to {shown(max(rows)[0], limit)}", limit, f"{sum(k for _, k in rows)} of {len(rows)}", verdict(all(k for _, k in rows))]
            for (group, limit), rows in groups.items()]


def limits_part(folder, c, churn):
    """All limits in one view, and those on instructions row by row."""
    limits = limit_rows(c) if c else []
    rows = summary_rows(limits) + summary_frame(folder) + (summary_boehm(boehm_limits(folder, churn)) if has_boehm(churn) else [])
    parts = [table(["limits", "ratio, best to worst", "limit", "rows within it", ""], rows)] if rows else []
    if not c:
        parts.append(NOT_COUNTED)
    else:
        each = [[name.replace("cycle, 1 segments", "cycle, 1 segment"), number(now), limit, number(reference), f"{now / reference:.2f}", verdict(kept), number(c.before[name]) if name in c.before else ""] for _, limit, name, now, reference, kept in limits]
        parts.append(table(["instructions", "verified", "limit", "held against", "ratio", "", "at 8d90607"], each))
    if has_boehm(churn):
        parts.append(make_table(churn, [("total", "boehm")]))
    return parts


# Times.


def read_times(folder, library):
    """name -> list of ns by round"""
    times = {}
    with open(os.path.join(folder, library + ".times")) as file:
        for row in file:
            _, name, ns = row.rstrip("\n").split("\t")
            times.setdefault(name, []).append(float(ns))
    return times


def spread(values):
    values = sorted(values)
    return f"{median(values):.2f} ({values[len(values) // 4]:.2f} to {values[-1 - len(values) // 4]:.2f})"


def times_table(folder):
    v, i = read_times(folder, "verified"), read_times(folder, "independent")
    rows = []
    for name in v:
        what = name + (": a live record" if name.endswith("half live") else ": a segment" if "dead" in name else ": a call" if "mutation" in name else "")
        rows.append([what, f"{median(v[name]):.1f}", f"{median(i[name]):.1f}", spread([a / b for a, b in zip(v[name], i[name])])])
    return table(["ns, medians", "verified", "independent", "ratio within a round: median (quartiles)"], rows)


def read_churn(folder):
    """(program, segments, shape, mode) -> the figures by round"""
    churn = {}
    with open(os.path.join(folder, "churn.rows")) as file:
        for row in file:
            _, program, segments, shape, mode, figure = row.rstrip("\n").split("\t")
            churn.setdefault((program, int(segments), shape.replace(" ", "+"), mode), []).append(float(figure))
    return churn


def has_boehm(churn):
    return any(program == "boehm" for program, *_ in churn)


def ratios(churn, segments, shape, mode, program="boehm"):
    """Within each round, the verified library's time by Boehm's."""
    return [a / b for a, b in zip(*(churn[(p, segments, shape, mode)] for p in ("verified", program)))]


LABELS = {"fill": "make alone", "total": "make with its share of the cycles", "boehm": "", "incremental": ", Boehm's incremental"}


def make_table(churn, kinds):
    """Rows for each (mode, program of Boehm's) of `kinds`; the limits are on the median of the ratios."""
    rows = []
    for mode, program in kinds:
        for segments, shape in SHAPES:
            held = program == "boehm" and (mode == "fill" or (segments, shape) in BELOW_BOEHM)
            ours, theirs, independent = (median(churn[(p, segments, shape, mode)]) for p in ("verified", program, "independent"))
            within = ratios(churn, segments, shape, mode, program)
            rows.append([f"{LABELS[mode]}, {shape}, {segments} segments{LABELS[program]}", f"{ours:.1f}", f"{theirs:.1f}", spread(within),
                         "below 1.0" if held else "", verdict(median(within) < 1) if held else "", f"{independent:.1f}"])
    return table(["ns a record, medians", "verified", "Boehm's", "ratio within a round: median (quartiles)", "limit", "", "independent"], rows)


def least_longest(folder, program, segments, shape):
    """The longest call in ns, each by the least that it took in any round."""
    lengths = array("I")
    with open(os.path.join(folder, f"{program}-{segments}-{shape.replace('+', '-')}.calls"), "rb") as file:
        lengths.frombytes(file.read())
    return max(lengths)


def pause_table(folder, churn):
    rows = []
    for program in ("boehm", "incremental"):
        for segments, shape in SHAPES:
            ours, theirs, independent = (least_longest(folder, p, segments, shape) for p in ("verified", program, "independent"))
            seen = [median(churn[(p, segments, shape, mode)]) / 1000 for p, mode in (("verified", "each"), (program, "each"), ("verified", "nothing"))]
            rows.append([f"{shape}, {segments} segments{LABELS[program]}", f"{ours / 1000:.1f}", f"{theirs / 1000:,.0f}", f"{theirs / ours:.0f}", "50", verdict(theirs >= 50 * ours),
                         f"{independent / 1000:.1f}", ", ".join(f"{x:,.0f}" if x >= 1 else f"{x:.1f}" for x in seen)])
    head = ["longest single call, µs", "verified", "Boehm's", "times longer", "wanted", "", "independent", "as seen, medians: verified, Boehm's, an empty call"]
    return table(head, rows)


# What a user asks.

CALLS = [("load", "load"), ("get", "get"), ("put", "put"), ("store: nothing", "store, no cycle runs"), ("copy", "copy"), ("clear", "clear"),
         ("same", "same"), ("shape", "shape"), ("check, idle", "check, nothing owed")]
MOST_INSTRUCTIONS = [("longest start", "start"), ("longest step in a handshake", "step in a handshake"), ("longest step in mark", "step in mark")]


def user_table(folder, churn):
    """Times of calls, then of makes and the longest call with Boehm's beside them."""
    times = {library: read_times(folder, library) for library in ("verified", "independent")}
    boehms = ("boehm", "incremental") if has_boehm(churn) else ()
    rows = []
    for name, label in CALLS:
        rows.append([f"{label}: ns", f"{median(times['verified'][name]):.1f}", "", "", "", f"{median(times['independent'][name]):.1f}"])
    for mode, label in (("fill", "make {}, {} segments, no collection: ns"), ("total", "make {}, {} segments, with its share of the cycles: ns")):
        for segments, shape in SHAPES:
            figure = lambda p: f"{median(churn[(p, segments, shape, mode)]):.1f}"
            beside = [figure("boehm"), spread(ratios(churn, segments, shape, mode)), figure("incremental")] if boehms else [""] * 3
            rows.append([label.format(shape, segments), figure("verified"), *beside, figure("independent")])
    for segments, shape in SHAPES:
        longest = {p: least_longest(folder, p, segments, shape) / 1000 for p in ("verified", "independent", *boehms)}
        beside = [f"{longest['boehm']:,.0f}", f"1/{longest['boehm'] / longest['verified']:.0f}", f"{longest['incremental']:,.0f}"] if boehms else [""] * 3
        rows.append([f"longest single call, {shape}, {segments} segments: µs", f"{longest['verified']:.1f}", *beside, f"{longest['independent']:.1f}"])
    for name, label in MOST_INSTRUCTIONS:
        rows.append([f"{label} of most instructions, 256 segments, warm caches: µs", f"{median(times['verified'][name]) / 1000:.1f}", "", "", "",
                     f"{median(times['independent'][name]) / 1000:.1f}"])
    return table(["a call", "verified", "Boehm's", "verified by Boehm's: median (quartiles)", "Boehm's, incremental", "independent"], rows)


# Sizes.


def sizes_table(folder):
    now, independent = (read_sizes(folder, library) for library in ("verified", "independent"))
    before, _ = read_stored()
    words = lambda sizes: f"{sizes['words for each segment']:,} n + {sizes['words beside them']:,}"
    lent = lambda sizes: f"{4 * (256 * sizes['words for each segment'] + sizes['words beside them']):,}"
    large = lambda sizes: f"{sizes['words for each segment' + AT_SIZE]:,} n + {sizes['words beside them' + AT_SIZE]:,}"
    rows = [["words lent, n segments"] + [words(sizes) for sizes in (before, now, independent)],
            ["words lent, n segments of 32 KiB", "", large(now), large(independent)],
            ["bytes lent, 256 segments"] + [lent(sizes) for sizes in (before, now, independent)],
            ["code and its constants, bytes", number(before["code"]), number(now["code"]), ""]]
    if "frame of make" in now:
        rows.append(["make's own frame, bytes", number(FRAME[1]), number(now["frame of make"]), ""])
    for call in ("make", "examine"):
        rows.append([f"the most stack that {call} takes, 256 segments, bytes"] + [number(sizes[f"stack of {call}"]) for sizes in (before, now, independent)])
    return table(["", "at 8d90607", "verified", "independent"], rows)


def said_by(*command):
    try:
        return subprocess.run(command, capture_output=True, text=True, check=True).stdout.splitlines()[0]
    except (OSError, subprocess.CalledProcessError, IndexError):
        return "none"


def machine():
    with open("/proc/cpuinfo") as file:
        model = next((row.split(":", 1)[1].strip() for row in file if row.startswith("model name")), "unknown")
    parts = [f"{model}, {os.cpu_count()} cores", said_by("gcc", "--version"), said_by("rustc", "--version"), said_by("valgrind", "--version"),
             "libgc " + said_by("pkg-config", "--modversion", "bdw-gc"), said_by("date", "-u", "+%Y-%m-%d")]
    return textwrap.fill("Machine: " + "; ".join(parts) + ".", 120) + "\n"


def rounds_of(folder):
    return f"Rounds: {len(read_times(folder, 'verified')['load'])}.\n"


def read_mixed(folder):
    mixed = {}
    for library in ("verified", "independent"):
        with open(os.path.join(folder, library + ".mixed")) as file:
            mixed[library] = {fields[0]: fields[1] for fields in (row.rstrip("\n").split("\t") for row in file)}
    return mixed


def parts_of(folder):
    """The parts of the document by name, each a list of tables; what could not be measured says so."""
    c = Counted(folder) if os.path.exists(os.path.join(folder, "verified.rows")) else None
    churn = read_churn(folder)
    kinds = [(mode, program) for mode in ("fill", "total") for program in ("boehm", "incremental")]
    return {
        "user": [user_table(folder, churn), machine() + rounds_of(folder)],
        "growth": growth_tables(c) if c else [NOT_COUNTED],
        "sizes": [sizes_table(folder)],
        "limits": limits_part(folder, c, churn),
        "instructions": [single_table(c), large_table(c), yardstick_table(c), longest_table(c, read_mixed(folder)), paces_table(c)] if c else [NOT_COUNTED],
        "times": [times_table(folder)] + ([make_table(churn, kinds), pause_table(folder, churn)] if has_boehm(churn) else [NOT_MEASURED]),
    }


def main():
    folder, path = sys.argv[1:3]
    parts = parts_of(folder)
    with open(path) as file:
        text = file.read()
    missing = set(parts) - {name for _, name, _ in PART.findall(text)}
    if missing:
        sys.exit(f"{path}: no mark for {', '.join(sorted(missing))}")
    with open(path, "w") as file:
        file.write(PART.sub(lambda mark: mark[1] + "\n" + "\n".join(parts[mark[2]]) + "\n" + mark[3], text))


if __name__ == "__main__":
    main()
