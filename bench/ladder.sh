#!/usr/bin/env bash
# Times `wait` on a ladder of planning problems, from small to hard, beside outside
# solvers on the same scenario problems, and prints a table in Markdown.
#
# The problems come from a folder of instances that the first argument names: it holds
# `make_instances.py`, which makes a triple of SMPS files (`--preset NAME --seed N --out
# DIR`), and `smps_ef.py`, which counts its scenarios and columns (`--facts CORE TIME
# STOCH`) and writes a scenario's problem as an MPS file (`--scenario S CORE TIME STOCH`);
# and where it has an `expected.json` with the exact wait-and-see value of a preset and
# seed, from outside solvers, the value that `wait` writes is compared with that.
# For each step the table tells how `wait` ended within the default budget; where it
# solved all, the least budget of 1, 2, 5, 10, .. that is enough, so that the hardest
# scenario opens at most so many boxes and more than the number before; whether the
# value is `equal`, `differs` or isn't known (`-`); and seconds of
# processor time: the program's for all scenarios; those of `cbc` and of `glpsol`, where
# they are installed, for all scenario problems one by one; and the program's time as a
# multiple of each. `-` stands where there is no figure, since a time ran out or a solver
# isn't there.
#
# Needs: python3; the program is built first. cbc and glpsol where installed.
# Takes: up to LIMIT seconds (the second argument, 60 where it isn't given) for each
# step and each solver, and a little more for the budgets.
# Use: bench/ladder.sh INSTANCES [LIMIT [STEP..]]

set -euo pipefail
here=$(cd "$(dirname "${BASH_SOURCE[0]}")/.." && pwd)
[ $# -ge 1 ] || { sed -n 's/^# Use: /use: /p' "${BASH_SOURCE[0]}" >&2; exit 2; }
"$here/bin/parts/build"
exec python3 - "$here/out/sppy" "$@" <<'PY'
import json, os, pathlib, platform, resource, shutil, subprocess, sys, tempfile
from fractions import Fraction

program, instances = sys.argv[1], pathlib.Path(sys.argv[2])
limit = float(sys.argv[3]) if len(sys.argv) > 3 else 60.0
STEPS = """dcap-small hydro-micro farmer-book hydro-toy hydro-tree-toy uc-small hydro-small
dcap-233-50 farmer-small hydro-tree uc-day sslp-5-25-50 uc-medium""".split()
steps = sys.argv[4:] or STEPS
BUDGETS = [front * 10**power for power in range(6) for front in (1, 2, 5)] + [10**6]
expected = instances / "expected.json"
KNOWN = json.loads(expected.read_text()).values() if expected.exists() else []
SOLVERS = {"cbc": "cbc FILE ratio 0 allow 0 solve quit".split(), "glpsol": "glpsol --freemps FILE --mipgap 0".split()}


def timed(words, seconds):
    """Seconds of processor time of a command, its status and what it wrote; None twice where its time ran out."""
    before = resource.getrusage(resource.RUSAGE_CHILDREN)
    try:
        ran = subprocess.run(words, capture_output=True, text=True, timeout=seconds)
    except subprocess.TimeoutExpired:
        return None, None, ""
    after = resource.getrusage(resource.RUSAGE_CHILDREN)
    return after.ru_utime + after.ru_stime - before.ru_utime - before.ru_stime, ran.returncode, ran.stdout


def compared(step, seed, text):
    """Whether the value that `wait` wrote is the one that outside solvers found."""
    known = [one.get("wait_and_see") for one in KNOWN if (one["preset"], one["seed"]) == (step, seed)]
    found = [line.split()[3] for line in text.splitlines() if line.startswith("lower ") and len(line.split()) == 4]
    if not found or not any(known):
        return "-"
    return "equal" if Fraction(found[0]) == Fraction(known[0]) else "differs"


def tool(name, *words):
    """What a tool of the folder of instances writes."""
    words = [sys.executable, str(instances / name), *map(str, words)]
    return subprocess.run(words, check=True, capture_output=True, text=True).stdout


def least_budget(files):
    """The least of the budgets that is enough, where the greatest one is."""
    low, high = 0, len(BUDGETS) - 1
    while low < high:
        middle = (low + high) // 2
        _, status, _ = timed([program, "wait", *files, "--budget", str(BUDGETS[middle])], limit)
        low, high = (low, middle) if status == 0 else (middle + 1, high)
    return str(BUDGETS[low])


def outside(solver, problems):
    """Seconds of an outside solver for all problems; None where it isn't there or its time ran out."""
    if shutil.which(solver) is None:
        return None
    whole = 0.0
    for problem in problems:
        words = [str(problem) if word == "FILE" else word for word in SOLVERS[solver]]
        spent, _, _ = timed(words, limit - whole)
        if spent is None or whole + spent >= limit:
            return None
        whole += spent
    return whole


def shown(seconds):
    return "-" if seconds is None else f"{seconds:.2f}"


def ratio(ours, theirs):
    return f"{ours / theirs:.2f}" if ours is not None and theirs else "-"


def row(step, folder):
    seed = 1 if step == "farmer-book" else 101
    tool("make_instances.py", "--preset", step, "--seed", seed, "--out", folder)
    files = [str(next(folder.rglob(f"*.{end}"))) for end in ("cor", "tim", "sto")]
    facts = json.loads(tool("smps_ef.py", "--facts", *files))
    problems = []
    for number in range(1, facts["scenarios"] + 1):
        problems.append(folder / f"{number}.mps")
        problems[-1].write_text(tool("smps_ef.py", "--scenario", number, *files))
    ours, status, text = timed([program, "wait", *files], limit)
    ended = {0: "solved", 5: "spent", None: "out of time"}.get(status, f"status {status}")
    budget = least_budget(files) if status == 0 else "-"
    theirs = [outside(solver, problems) for solver in SOLVERS]
    ratios = [ratio(ours if status == 0 else None, one) for one in theirs]
    cells = [facts["scenarios"], facts["columns"], facts["rows"], ended, budget, compared(step, seed, text)]
    return [step, *cells, *map(shown, [ours, *theirs]), *ratios]


def line(cells):
    print("| " + " | ".join(map(str, cells)) + " |", flush=True)


load = ", ".join(f"{one:.1f}" for one in os.getloadavg())
print(f"{os.cpu_count()} processors ({platform.machine()}), load average {load} over 1, 5 and 15 minutes at")
print(f"the begin; at most {limit:.0f} s for a step and a solver.")
print()
line(["step", "scenarios", "columns", "rows", "ended", "boxes at most", "value", "sppy s", *(f"{one} s" for one in SOLVERS), *(f"to {one}" for one in SOLVERS)])
line(["---"] + ["--:"] * 3 + ["---", "--:", "---"] + ["--:"] * 5)
with tempfile.TemporaryDirectory() as folder:
    for step in steps:
        line(row(step, pathlib.Path(folder) / step))
PY
