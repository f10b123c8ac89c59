# shellcheck shell=bash disable=SC2034
# What the benchmarks share; they source it, and it is not run by itself.
#
# It finds the repository from its own path, makes a temporary folder that is
# removed at the end, and builds a driver program in a copy of the crates that
# the driver stands on. The driver is an extra crate of that copy alone: it is
# proved there like any other program, and nothing is written in the repository.
#
# Needs: rt, python3 (its standard library alone).

set -euo pipefail

command -v rt >/dev/null || { echo "rt is not on the path" >&2; exit 2; }
command -v python3 >/dev/null || { echo "python3 is not on the path" >&2; exit 2; }

repository=$(cd "$(dirname "${BASH_SOURCE[0]}")/.." && pwd)
work=$(mktemp -d)
trap 'rm -rf "$work"' EXIT
trap 'exit 130' INT TERM

# copy_crates NAME..: copies these crates and all of the repository that they
# stand on, without what was built, and lists them in the copy's crates.txt.
copy_crates() {
    python3 - "$repository" "$work/copy" "$@" <<'PY'
import pathlib, shutil, sys

repository, copy = map(pathlib.Path, sys.argv[1:3])
lines = {}
for line in (repository / "crates.txt").read_text().splitlines():
    line = line.split("#")[0].strip()
    if line:
        head, _, below = line.partition(":")
        lines[head.split()[0]] = (line, below.split())
wanted, todo = [], sys.argv[3:]
while todo:
    name = todo.pop()
    if name not in lines:
        sys.exit(f"crates.txt has no crate {name}")
    if name not in wanted:
        wanted.append(name)
        todo += [below for below in lines[name][1] if below in lines]
for name in wanted:
    shutil.copytree(
        repository / "crates" / name,
        copy / "crates" / name,
        ignore=shutil.ignore_patterns("out", "must-fail"),
    )
(copy / "crates.txt").write_text("".join(lines[name][0] + "\n" for name in wanted))
PY
}

# build_driver NAME CRATE..: proves and builds the program whose source is on
# the standard input, over these crates. Its path is then in $driver.
build_driver() {
    local name=$1
    shift
    copy_crates "$@"
    local folder=$work/copy/crates/$name
    mkdir -p "$folder/src"
    cat >"$folder/src/main.rt"
    echo "$name: $*" >>"$work/copy/crates.txt"
    echo "proving and building the driver; this can take some minutes" >&2
    # Without arguments a driver does nothing, so this run only builds it.
    if ! (cd "$folder" && rt run) >"$work/build.log" 2>&1 </dev/null; then
        cat "$work/build.log" >&2
        echo "the driver was not built" >&2
        exit 1
    fi
    driver=$folder/out/$name
}

# $work/measure.py COMMAND WORD..: runs the command and prints its status, its seconds
# of a processor and its greatest memory in bytes, and behind them what it wrote. The memory
# that the system counts for a process begins with its parent's, so `time`, which is small,
# starts the command where it is installed; where it isn't, some 10 MB are the least that
# is printed.
cat >"$work/measure.py" <<'PY'
import os, shutil, subprocess, sys, tempfile

with tempfile.NamedTemporaryFile() as counted:
    counter = ["time", "-q", "-f", "%M", "-o", counted.name] if shutil.which("time") else []
    program = subprocess.Popen([*counter, *sys.argv[1:]], stdout=subprocess.PIPE, stderr=subprocess.STDOUT)
    text = program.stdout.read().decode(errors="replace")
    _, status, usage = os.wait4(program.pid, 0)
    program.returncode = os.waitstatus_to_exitcode(status)
    greatest = int(counted.read()) if counter else usage.ru_maxrss
print(program.returncode, usage.ru_utime + usage.ru_stime, greatest * 1024)
print(text, end="")
PY

# The processors and how busy they are, since the figures depend on both.
print_machine() {
    python3 - <<'PY'
import os

load = ", ".join(f"{one:.1f}" for one in os.getloadavg())
print(f"{os.cpu_count()} processors, load average {load} over 1, 5 and 15 minutes")
PY
}
