#!/usr/bin/env bash
# Times the reading of whole core files, `smps_core::read_core`.
#
# It makes core files of about 1, 8 and 64 MB (a MB is 2^20 bytes) of 5000 rows
# and 5000 columns with as many entries as fit, and of 64 MB one that is nearly
# all comments and one whose last data line has a fault. A driver program loads
# each from disk by `io_edge::FileShelf` and reads it. The table has, of the best
# of three runs, the seconds for loading and for reading, the MB read a second,
# how much slower that is a MB than at 1 MB (1.00 is linear growth), the most
# memory that the program held for each byte of the file, and, where `glpsol` is
# installed, the seconds that `glpsol --freemps --check` takes on the same file
# in the same run, and the reader's part of them. All seconds are seconds of a
# processor, so that other programs disturb them less.
#
# Needs: rt, python3; some 200 MB of disk and 4 GB of memory; glpsol if it is
# there.
# Takes: some three minutes, and some minutes before it where the crates are not
# proved yet.
# Use: bench/readers.sh

. "$(dirname "${BASH_SOURCE[0]}")/common.sh"

build_driver bench_readers io_edge smps_core <<'DRIVER'
//! Times the reading of the core files that its arguments name.
#![tactic(auto)]

use io_edge::{FileShelf, Shelf};
use smps_core::{CoreFault, read_core};
use std::time::CpuClock;
use std::{env, io};

const MOST: usize = 67_108_864;

fn time_file(rt: &HostRuntime, name: &str) -> io::Result<()> {
    let mut shelf = FileShelf::new(rt);
    let begun = rt.thread_cpu_time()?;
    let Ok(bytes) = shelf.load(rt.alloc(), name, MOST) else {
        return println!(rt; "not loaded");
    };
    let loading = rt.thread_cpu_time()?.saturating_sub(begun).as_micros();
    let begun = rt.thread_cpu_time()?;
    let answer = read_core(rt.alloc(), bytes.as_slice());
    let reading = rt.thread_cpu_time()?.saturating_sub(begun).as_micros();
    match answer {
        Ok(core) => {
            let rows = core.rows.len();
            let columns = core.columns.len();
            let entries = core.entries.len();
            println!(rt; "{rows}/{columns}/{entries} {loading} {reading}")
        }
        Err(CoreFault::At { line, .. }) => println!(rt; "fault:{line} {loading} {reading}"),
        Err(CoreFault::Memory) => println!(rt; "memory {loading} {reading}"),
    }
}

fn main(rt: HostRuntime) -> io::Result<()> {
    let mut words = env::args(&rt)?;
    let _program = words.next();
    for word in words {
        time_file(&rt, word.as_str())?;
    }
    Ok(())
}
DRIVER

print_machine
python3 - "$driver" "$work" <<'PY'
import pathlib, shutil, subprocess, sys

driver, work = sys.argv[1], pathlib.Path(sys.argv[2])
MB = 1 << 20
SIZE = 5000


def column_lines(j, count):
    rows = [(j * 7 + 13 * k) % SIZE for k in range(count)]
    pairs = [b"COST %d.%d" % (j % 97, j % 10)] + [b"R%d %d.%d" % (i, 1 + (i + j) % 89, (i * j) % 100) for i in rows]
    return b"".join(b" C%d %s\n" % (j, b" ".join(pairs[k : k + 2])) for k in range(0, len(pairs), 2))


def core_file(size, fault=False):
    head = [b"NAME BENCH\nROWS\n N COST\n"] + [b" %s R%d\n" % (b"LGE"[i % 3 : i % 3 + 1], i) for i in range(SIZE)] + [b"COLUMNS\n"]
    tail = [b"RHS\n"] + [b" RHS R%d %d R%d %d.5\n" % (i, i % 613, i + 1, i % 71) for i in range(0, SIZE, 2)]
    tail += [b"RANGES\n"] + [b" RNG R%d %d\n" % (i, 1 + i % 9) for i in range(0, SIZE, 10)]
    tail += [b"BOUNDS\n"] + [b" UP BND C%d %d\n" % (j, 1 + j % 999) for j in range(SIZE)]
    if fault:
        tail.append(b" UP BND NOBODY 1\n")
    tail.append(b"ENDATA\n")
    fixed = sum(map(len, head)) + sum(map(len, tail))
    per_entry = len(column_lines(4321, 400)) / 400
    count = int((size - fixed) / per_entry / SIZE)
    return b"".join(head + [column_lines(j, count) for j in range(SIZE)] + tail)


def comment_file(size):
    core = core_file(MB)
    line = b"* a comment that says nothing at all, of a usual length for one\n"
    return line * ((size - len(core)) // len(line)) + core


def run(command):
    measured = subprocess.run([sys.executable, work / "measure.py", *command], capture_output=True, text=True, check=True)
    head, _, text = measured.stdout.partition("\n")
    status, seconds, peak = head.split()
    if status != "0":
        sys.exit(f"{command[0]} ended with {status}: {text[-500:]}")
    return text.split(), float(seconds), int(peak)


glpsol = shutil.which("glpsol")
print(f"{'file':>9} {'MB':>6} {'rows/columns/entries':>22} {'load s':>7} {'read s':>7} {'MB/s':>6} {'growth':>7} {'peak B/B':>9} {'glpsol s':>9} {'part':>6}")
files = [("data", 1), ("data", 8), ("data", 64), ("comments", 64), ("fault", 64)]
first = None
for kind, size in files:
    text = comment_file(size * MB - 4096) if kind == "comments" else core_file(size * MB - 4096, kind == "fault")
    path = work / "core.mps"
    path.write_bytes(text)
    bytes_ = len(text)
    del text
    best = None
    for _ in range(3):
        (found, *times), _, peak = run([driver, str(path)])
        loading, reading = (int(one) / 1e6 for one in times)
        if best is None or reading < best[1]:
            best = loading, reading, peak
    loading, reading, peak = best
    other, part = "-", "-"
    if glpsol and kind != "fault":
        _, seconds, _ = min((run([glpsol, "--freemps", "--check", str(path)]) for _ in range(3)), key=lambda one: one[1])
        other, part = f"{seconds:.3f}", f"{reading / seconds:.2f}"
    megabytes = bytes_ / MB
    first = first or reading / megabytes
    print(f"{kind:>9} {megabytes:>6.1f} {found:>22} {loading:>7.3f} {reading:>7.3f} {megabytes / reading:>6.1f} {reading / megabytes / first:>7.2f} {peak / bytes_:>9.1f} {other:>9} {part:>6}", flush=True)
PY
