#!/usr/bin/env bash
# Times the reading of a file's lines and fields, `line_core::lines`.
#
# It makes core files of 1, 8 and 64 MB (a MB is 2^20 bytes): a small core
# followed, after its ENDATA line, by lines of data, whose lines are read too. A
# driver program loads each from disk by `io_edge::FileShelf` and then reads its
# lines. The table has, of the best of three runs (of sixteen at 1 MB), the
# seconds for loading and for the lines, the MB a second for the lines, how much
# slower that is a MB than at 1 MB (1.00 is linear growth), the most memory that
# the program held, and the seconds that `wc -l` took on the same file. All
# seconds are seconds of a processor, so that other programs disturb them less.
#
# Needs: rt, python3, wc; some 100 MB of disk and 4 GB of memory.
# Takes: under a minute, and some minutes before it where the crates are not
# proved yet.
# Use: bench/lines.sh

. "$(dirname "${BASH_SOURCE[0]}")/common.sh"

build_driver bench_lines io_edge line_core <<'DRIVER'
//! Times the reading of the lines of the files that its arguments name.
#![tactic(auto)]

use io_edge::{FileShelf, Shelf};
use line_core::lines;
use std::time::CpuClock;
use std::{env, io};

const MOST: usize = 67_108_864;

fn time_file(rt: &HostRuntime, name: &str) -> io::Result<()> {
    let mut shelf = FileShelf::new(rt);
    let begun = rt.thread_cpu_time()?;
    let Ok(bytes) = shelf.load(rt.alloc(), name, MOST) else {
        return println!(rt; "not loaded");
    };
    let loading = rt.thread_cpu_time()?.saturating_sub(begun).as_micros();
    let begun = rt.thread_cpu_time()?;
    let Ok(found) = lines(rt.alloc(), bytes.as_slice()) else {
        return println!(rt; "not read");
    };
    let reading = rt.thread_cpu_time()?.saturating_sub(begun).as_micros();
    let count = found.len();
    println!(rt; "{count} {loading} {reading}")
}

fn main(rt: HostRuntime) -> io::Result<()> {
    let mut words = env::args(&rt)?;
    let _program = words.next();
    for word in words {
        time_file(&rt, word.as_str())?;
    }
    Ok(())
}
DRIVER

print_machine
python3 - "$driver" "$work" <<'PY'
import os, pathlib, subprocess, sys

driver, work = sys.argv[1], pathlib.Path(sys.argv[2])
MB = 1 << 20
CORE = b"""NAME SMALL
ROWS
 N COST
 G NEED
COLUMNS
 X COST 1 NEED 1
 Y COST 3 NEED 1
RHS
 RHS NEED 2
BOUNDS
 UP BND X 10
 UP BND Y 10
ENDATA
"""


def data_line(k):
    return b" X%d COST %d.%d NEED%d %d\n" % (k, k % 997, k % 10, k % 4096, k % 61)


def core_file(size):
    piece = b"".join(map(data_line, range(20000)))
    text = CORE + piece * ((size - len(CORE)) // len(piece) + 1)
    end = text.rfind(b"\n", 0, size - 2) + 1
    return text[:end] + b" " + b"Z" * (size - end - 2) + b"\n"


def run(command):
    program = subprocess.Popen(command, stdout=subprocess.PIPE)
    text = program.stdout.read().decode()
    _, status, usage = os.wait4(program.pid, 0)
    program.returncode = os.waitstatus_to_exitcode(status)
    if program.returncode:
        sys.exit(f"{command[0]} ended with {program.returncode}: {text}")
    return text.split(), usage.ru_utime + usage.ru_stime, usage.ru_maxrss / 1024


print(f"{'MB':>4} {'lines':>9} {'load s':>8} {'lines s':>8} {'MB/s':>8} {'growth':>7} {'peak MB':>8} {'wc -l s':>8}")
first = None
for size in (1, 8, 64):
    path = work / "core.txt"
    path.write_bytes(core_file(size * MB))
    best = None
    for _ in range(max(3, 16 // size)):
        (found, *times), _, peak = run([driver, str(path)])
        loading, reading = (int(one) / 1e6 for one in times)
        if best is None or reading < best[1]:
            best = loading, reading, peak
    counted, seconds, _ = min((run(["wc", "-l", str(path)]) for _ in range(3)), key=lambda one: one[1])
    if int(counted[0]) != int(found):
        sys.exit(f"wc counts {counted[0]} lines and the driver {found}")
    loading, reading, peak = best
    first = first or reading / size
    print(f"{size:>4} {found:>9} {loading:>8.3f} {reading:>8.3f} {size / reading:>8.1f} {reading / size / first:>7.2f} {peak:>8.0f} {seconds:>8.4f}", flush=True)
PY
