#!/usr/bin/env bash
# Times `show` and the reading half of `wait` on whole triples of the greatest sizes.
#
# It makes triples of 4096 scenarios with 2^22 changes: twelve blocks of two
# realisations, a list of scenarios one by one, and a list in which all take over
# their changes; and triples of many entries: of few changes in each scenario, of
# many new ones in a single scenario, of columns that leave the run, and of more
# changes than there may be. A row that can't be met ends `wait` after the first
# scenario, so that its time is that of loading, reading, joining and one problem.
# The first three are made with half as many scenarios besides.
# The table has the bytes of the three files, and for each command its exit status,
# seconds of a processor and the most memory that it held; behind a triple whose half
# was run before it the growth of `show`: seconds over those of the half, and bytes over
# bytes, so that a growth that is linear in the bytes shows the same number twice.
#
# Needs: rt, python3; some 200 MB of disk and 4 GB of memory.
# Takes: some minutes, besides the build of the program where it isn't built.
# Use: bench/join.sh [PROGRAM]; without a program, that of `bin/sppy`.

. "$(dirname "${BASH_SOURCE[0]}")/common.sh"

program=${1-}
if [ -z "$program" ]; then
    small=$repository/examples/small/small
    "$repository/bin/sppy" show "$small.cor" "$small.tim" "$small.sto" >"$work/small"
    program=$repository/out/sppy
fi
print_machine
python3 - "$program" "$work" <<'PY'
import os, pathlib, subprocess, sys

program, work = sys.argv[1], pathlib.Path(sys.argv[2])
SCENARIOS, ROWS, BLOCKS = 4096, 1023, 12
HALF = SCENARIOS // 2


def core(columns, entries, idle=()):
    """A core of X, Y0, Y1 .. and of R0, R1 .., with a last row that can't be met."""
    lines = ["NAME BENCH", "ROWS", " N COST"] + [f" G R{i}" for i in range(ROWS)] + [" G LAST"]
    lines += ["COLUMNS", " X COST 1 LAST 1"]
    for j in range(columns):
        lines += [f" Y{j} COST {j % 97}.5"] + [f" Y{j} R{i} {i % 7 + 1}" for i in entries(j)]
    lines += ["RHS", " RHS LAST 1000"] + [f" RHS R{i} {i % 13}" for i in range(ROWS)]
    lines += ["BOUNDS", " UP BND X 10"]
    lines += [f" UP BND Y{j} {0 if j in idle else 100}" for j in range(columns)]
    return lines + ["ENDATA", ""]


def blocks(count):
    lines = ["STOCH BENCH", "BLOCKS DISCRETE"]
    for b in range(count):
        for r in range(2):
            lines += [f" BL B{b} T2 0.5"] + [f" Y0 COST {r}.5"] * (b == 0)
            lines += [f" RHS R{i} {i % 13 + r}" for i in range(b, ROWS, count)]
    return lines + ["ENDATA", ""]


def listed(count, changes, parent=lambda s: "ROOT"):
    lines = ["STOCH BENCH", "SCENARIOS DISCRETE"]
    for s in range(count):
        lines += [f" SC S{s} {parent(s)} 0.5 T2"] + changes(s)
    return lines + ["ENDATA", ""]


def sides(s):
    return [f" Y0 COST {s % 5}.5"] + [f" RHS R{i} {(i * s) % 17}" for i in range(ROWS)]


def cells(columns, each):
    return [f" Y{j} R{i} 9" for j in range(columns) for i in range(each)]


first = lambda s: "ROOT" if s == 0 else "S0"
few = lambda j: [j % ROWS]
TRIPLES = (
    ("half blocks", core(1000, few), blocks(BLOCKS - 1)),
    ("blocks", core(1000, few), blocks(BLOCKS)),
    ("half one by one", core(1000, few), listed(HALF, sides)),
    ("one by one", core(1000, few), listed(SCENARIOS, sides)),
    ("half taken over", core(1000, few), listed(HALF, lambda s: sides(s) if s == 0 else [], first)),
    ("taken over", core(1000, few), listed(SCENARIOS, lambda s: sides(s) if s == 0 else [], first)),
    ("entries", core(160, lambda j: range(1000)), listed(SCENARIOS, lambda s: [f" Y0 R0 {s % 9 + 1}"])),
    ("new entries", core(1000, lambda j: range(10)), listed(1, lambda s: [f" Y{j} R{10 + i} 9" for i in range(80) for j in range(1000)])),
    ("idle", core(1000, few, range(1000)), listed(4000, lambda s: cells(1000, 40) if s == 0 else [], first)),
    ("too many", core(1000, few), listed(4000, lambda s: cells(1000, 40) if s == 0 else [], first)),
)


def measured(command, *options):
    """The status of a command, its seconds of a processor, its most megabytes and the bytes of its text."""
    words = [program, command, *(str(work / name) for name in ("core", "time", "stoch")), *options]
    with open(work / "text", "wb") as text:
        child = subprocess.Popen(words, stdout=text, stderr=subprocess.DEVNULL)
        _, status, usage = os.wait4(child.pid, 0)
    child.returncode = os.waitstatus_to_exitcode(status)
    seconds, megabytes = usage.ru_utime + usage.ru_stime, usage.ru_maxrss / 1024
    return child.returncode, seconds, megabytes, (work / "text").stat().st_size


def cells_of(status, seconds, megabytes, _):
    return f"{status:>8}{seconds:>9.2f}{megabytes:>8.0f}"


(work / "time").write_text("\n".join(["TIME BENCH", "PERIODS", " X COST T1", " Y0 R0 T2", "ENDATA", ""]))
print(f"{'triple':<16}{'bytes':>12}{'show':>8}{'s':>9}{'MB':>8}{'wait':>8}{'s':>9}{'MB':>8}")
halves = {}
for name, core_lines, stoch_lines in TRIPLES:
    (work / "core").write_text("\n".join(core_lines))
    (work / "stoch").write_text("\n".join(stoch_lines))
    size = sum((work / f).stat().st_size for f in ("core", "time", "stoch"))
    show, wait = measured("show"), measured("wait")
    halves[name] = (show[1], size + show[3])
    half = halves.get("half " + name)
    growth = f"   {show[1] / half[0]:.2f} {(size + show[3]) / half[1]:.2f}" if half else ""
    print(f"{name:<16}{size:>12}{cells_of(*show)}{cells_of(*wait)}{growth}", flush=True)
PY
