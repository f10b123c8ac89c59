#!/usr/bin/env bash
# Times `drive` with an empty schedule, where all actors make their steps in rounds, on
# planning problems and by three penalties; tells how much of the time goes into the
# searches, how much memory it takes at most, and how close the bounds get.
#
# The problems come from a folder of instances that the first argument names: it holds
# `make_instances.py`, which makes a triple of SMPS files (`--preset NAME --seed N --out
# DIR`), and where it has an `expected.json` with the exact optimum of a preset and seed,
# from outside solvers, the bounds are held against that.
# For each problem and penalty the table has how the run ended (the status where it
# didn't), its puts, seconds of processor time, the part of them that lies in functions of
# the search's crates or what they call, and the part besides: start, reading, and what perf
# can't name the caller of (`-` where perf isn't there, and for a run of too few samples to
# tell); the greatest memory in MB, the last pair of bounds in the problem's own costs, the
# optimum, how far the lower bound is below it and the pair is apart, as parts of the
# optimum, and whether the pair encloses it. `-` stands where there is no figure.
#
# Needs: python3; the program is built first. perf and time where installed.
# Takes: up to LIMIT seconds (the second argument, 120 where it isn't given) for a row.
# Use: bench/drive.sh INSTANCES [LIMIT [PRESET..]]

set -euo pipefail
here=$(cd "$(dirname "${BASH_SOURCE[0]}")/.." && pwd)
[ $# -ge 1 ] || { sed -n 's/^# Use: /use: /p' "${BASH_SOURCE[0]}" >&2; exit 2; }
"$here/bin/parts/build"
exec python3 - "$here/out/sppy" "$@" <<'PY'
import json, os, pathlib, platform, shutil, subprocess, sys, tempfile
from fractions import Fraction

program, instances = sys.argv[1], pathlib.Path(sys.argv[2])
limit = sys.argv[3] if len(sys.argv) > 3 else "120"
presets = sys.argv[4:] or ["dcap-small", "hydro-small", "sslp-toy", "uc-small", "farmer-book"]
PENALTIES = [10000, 100000, 1000000]
SEARCH = ("branch_bound", "propagate", "row_prices", "dual_simplex", "safe_bound", "boxed_problem")
FEWEST_SAMPLES = 50
expected = instances / "expected.json"
KNOWN = json.loads(expected.read_text()).values() if expected.exists() else []


def measured(words, folder):
    """The exit status of a command, its seconds of processor time, its greatest memory in
    bytes, none where no program counts it, and what it wrote. The memory that the system
    counts for a process begins with its parent's, so a small program starts the command."""
    counted = folder / "memory"
    counter = ["time", "-q", "-f", "%M", "-o", str(counted)] if shutil.which("time") else []
    ran = subprocess.Popen([*counter, *words], stdout=subprocess.PIPE, stderr=subprocess.DEVNULL, text=True)
    text = ran.stdout.read()
    _, status, usage = os.wait4(ran.pid, 0)
    ran.returncode = os.waitstatus_to_exitcode(status)
    memory = int(counted.read_text()) * 1024 if counter else None
    return ran.returncode, usage.ru_utime + usage.ru_stime, memory, text.splitlines()


def parts(words, folder, seconds):
    """Which parts of the time lie in functions of the search and what they call, and besides."""
    if not shutil.which("perf"):
        return "-", "-"
    data = str(folder / "perf.data")
    often = "499" if seconds > 0.5 else "4999"
    record = ["perf", "record", "-q", "-e", "cpu-clock", "-F", often, "--call-graph", "dwarf,2048", "-o", data]
    subprocess.run([*record, *words], stdout=subprocess.DEVNULL, stderr=subprocess.DEVNULL)
    script = ["perf", "script", "-i", data, "-F", "ip,sym"]
    told = subprocess.run(script, capture_output=True, text=True).stdout.split("\n\n")
    names = [chain for chain in told if chain.strip()]
    if len(names) < FEWEST_SAMPLES:
        return "-", "-"
    within = sum(any(crate in name for crate in SEARCH) for name in names)
    return f"{100 * within / len(names):.0f} %", f"{100 - 100 * within / len(names):.0f} %"


def bound(lines, word):
    """The number behind `=` of the last line that begins so."""
    found = [line.split()[3] for line in lines if line.startswith(word + " ") and len(line.split()) == 4]
    return Fraction(found[-1]) if found else None


def told(number):
    return "-" if number is None else f"{float(number):.6g}"


def known(preset, seed):
    found = [one.get("optimum") for one in KNOWN if (one["preset"], str(one["seed"])) == (preset, seed)]
    return Fraction(found[0]) if found and found[0] else None


def row(preset, seed, penalty, folder, files):
    """A line of the table."""
    words = ["timeout", limit, program, "drive", *files, "--xhat", "0", "--rho", str(penalty)]
    status, seconds, memory, lines = measured(words, folder)
    ends = [line[4:] for line in lines if line.startswith("end ")]
    end = ends[0] if ends else "time ran out" if status == 124 else f"status {status}"
    puts = sum(line.startswith("put ") for line in lines)
    within, besides = parts(words, folder, seconds) if status == 0 else ("-", "-")
    lower, upper, optimum = bound(lines, "lower"), bound(lines, "upper"), known(preset, seed)
    below = apart = encloses = "-"
    if lower is not None and optimum:
        below = f"{100 * float((optimum - lower) / abs(optimum)):.2f} %"
    if upper is not None and optimum:
        apart = f"{100 * float((upper - lower) / abs(optimum)):.2f} %"
    if lower is not None and optimum is not None:
        encloses = "yes" if lower <= optimum and (upper is None or optimum <= upper) else "NO"
    return [preset, f"{penalty}", end, f"{puts}", f"{seconds:.2f}", within, besides, "-" if memory is None else f"{memory / 1e6:.1f}", told(lower), told(upper), told(optimum), below, apart, encloses]


print(f"{os.cpu_count()} processors ({platform.machine()}), load {os.getloadavg()[0]:.1f}; seconds of a processor")
heads = ["problem", "rho", "end", "puts", "seconds", "in searches", "besides", "MB", "lower", "upper", "optimum", "below", "apart", "encloses"]
print("| " + " | ".join(heads) + " |\n|" + "---|" * len(heads))
with tempfile.TemporaryDirectory() as work:
    for preset in presets:
        seed = "1" if preset == "farmer-book" else "101"
        folder = pathlib.Path(work) / preset
        make = [sys.executable, instances / "make_instances.py", "--preset", preset, "--seed", seed, "--out", folder, "--no-ef"]
        subprocess.run(make, check=True, stdout=subprocess.DEVNULL)
        schedule = folder / "empty.sch"
        schedule.write_text("")
        files = [str(next(folder.rglob(f"*.{end}"))) for end in ("cor", "tim", "sto")] + [str(schedule)]
        for penalty in PENALTIES:
            print("| " + " | ".join(row(preset, seed, penalty, folder, files)) + " |", flush=True)
PY
