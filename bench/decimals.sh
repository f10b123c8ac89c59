#!/usr/bin/env bash
# Times the reading of decimals, `dec_core::read`.
#
# The first table is of files of 1, 8 and 64 MB (a MB is 2^20 bytes) that have
# one decimal a line: a driver program loads each, takes its lines, and reads
# the first field of each line; only the reading of the decimals is timed. The
# second is of files that are ONE decimal of 1, 8 and 64 MB: digits that are not
# 0, a 1 with zeros behind it that its exponent takes away, a 5 with zeros in
# front of it, and a 1 far behind the point. Each row has, of the best of three
# runs (of sixteen at 1 MB), the seconds, the MB a second, how much slower that
# is a MB than at 1 MB (1.00 is linear growth), and the seconds that `wc -l`
# took on the same file. All seconds are seconds of a processor, so that other
# programs disturb them less; the first table has the most memory that the
# program held too, most of which is the lines.
#
# Needs: rt, python3, wc; some 100 MB of disk and 4 GB of memory.
# Takes: under a minute, and some minutes before it where the crates are not
# proved yet.
# Use: bench/decimals.sh

. "$(dirname "${BASH_SOURCE[0]}")/common.sh"

build_driver bench_decimals io_edge line_core dec_core <<'DRIVER'
//! Times the reading of decimals: with `each FILE`, of those of a file that
//! has one a line, and with `whole FILE`, of a file that is one decimal.
#![tactic(auto)]

use dec_core::{DecFault, Decimal, read};
use io_edge::{FileShelf, Shelf};
use line_core::{Line, lines};
use std::time::CpuClock;
use std::{env, io};

const MOST: usize = 67_108_864;

/// How many of the lines' first fields are decimals.
fn count_decimals(bytes: &[u8], found: &[Line]) -> u64 {
    let mut count = 0u64;
    for line in found {
        if read(line.field(bytes, 0)).is_ok() {
            count = count.saturating_add(1);
        }
    }
    count
}

fn time_each(rt: &HostRuntime, bytes: &[u8]) -> io::Result<()> {
    let Ok(found) = lines(rt.alloc(), bytes) else {
        return println!(rt; "not read");
    };
    let begun = rt.thread_cpu_time()?;
    let count = count_decimals(bytes, found.as_slice());
    let reading = rt.thread_cpu_time()?.saturating_sub(begun).as_micros();
    println!(rt; "{count} {reading}")
}

fn answer(read: Result<Decimal, DecFault>) -> &'static str {
    match read {
        Ok(_) => "read",
        Err(DecFault::NotNumber) => "not-number",
        Err(DecFault::TooManyPlaces) => "too-many-places",
        Err(DecFault::TooLarge { .. }) => "too-large",
    }
}

fn time_whole(rt: &HostRuntime, bytes: &[u8]) -> io::Result<()> {
    let begun = rt.thread_cpu_time()?;
    let found = answer(read(bytes));
    let reading = rt.thread_cpu_time()?.saturating_sub(begun).as_micros();
    println!(rt; "{found} {reading}")
}

fn main(rt: HostRuntime) -> io::Result<()> {
    let mut words = env::args(&rt)?;
    let _program = words.next();
    let (Some(mode), Some(name)) = (words.next(), words.next()) else {
        return Ok(());
    };
    let mut shelf = FileShelf::new(&rt);
    let Ok(bytes) = shelf.load(rt.alloc(), name.as_str(), MOST) else {
        return println!(rt; "not loaded");
    };
    match mode.as_str() {
        "each" => time_each(&rt, bytes.as_slice()),
        "whole" => time_whole(&rt, bytes.as_slice()),
        _ => println!(rt; "no such mode"),
    }
}
DRIVER

print_machine
python3 - "$driver" "$work" <<'PY'
import os, pathlib, random, subprocess, sys

driver, work = sys.argv[1], pathlib.Path(sys.argv[2])
path = work / "decimals.txt"
MB = 1 << 20
chance = random.Random(1)


def decimal():
    sign = chance.choice(["", "", "-", "+"])
    whole = str(chance.randrange(10 ** chance.randrange(1, 13)))
    fraction = "".join(chance.choices("0123456789", k=chance.randrange(7)))
    point = "." if fraction or chance.randrange(9) == 0 else ""
    exponent = chance.choice(["", "", "", "e2", "E+11", "e-3"])
    return sign + whole + point + fraction + exponent


def decimals(size):
    piece = "".join(decimal() + "\n" for _ in range(50000)).encode()
    text = piece * (size // len(piece) + 1)
    end = text.rfind(b"\n", 0, size - 2) + 1
    return text[:end] + b"0" * (size - end - 1) + b"\n"


def digits(size):
    piece = "".join(chance.choices("123456789", k=4096))
    return (piece * (size // 4096 + 1))[:size].encode()


def zeros_behind(size):
    # The exponent takes away as many zeros as there are.
    for width in range(1, 12):
        exponent = str(size - 3 - width)
        if len(exponent) == width:
            return b"1" + b"0" * int(exponent) + b"e-" + exponent.encode()


def zeros_in_front(size):
    return b"0" * (size - 1) + b"5"


def far_behind_the_point(size):
    return b"0." + b"0" * (size - 3) + b"1"


def run(command):
    program = subprocess.Popen(command, stdout=subprocess.PIPE)
    text = program.stdout.read().decode()
    _, status, usage = os.wait4(program.pid, 0)
    program.returncode = os.waitstatus_to_exitcode(status)
    if program.returncode:
        sys.exit(f"{command[0]} ended with {program.returncode}: {text}")
    return text.split(), usage.ru_utime + usage.ru_stime, usage.ru_maxrss / 1024


def measure(mode, text, wanted):
    path.write_bytes(text)
    runs = [run([driver, mode, str(path)]) for _ in range(max(3, (16 * MB) // len(text)))]
    for (found, *_), _, _ in runs:
        if found != wanted:
            sys.exit(f"the driver answers {found} in the place of {wanted}")
    (_, micros), _, peak = min(runs, key=lambda one: int(one[0][1]))
    wc = min(run(["wc", "-l", str(path)])[1] for _ in range(3))
    return max(int(micros), 1) / 1e6, peak, wc


print("\none decimal a line")
print(f"{'MB':>4} {'decimals':>9} {'read s':>8} {'MB/s':>8} {'growth':>7} {'peak MB':>8} {'wc -l s':>8}")
first = None
for size in (1, 8, 64):
    text = decimals(size * MB)
    count = text.count(b"\n")
    seconds, peak, wc = measure("each", text, str(count))
    first = first or seconds / size
    print(f"{size:>4} {count:>9} {seconds:>8.3f} {size / seconds:>8.1f} {seconds / size / first:>7.2f} {peak:>8.0f} {wc:>8.4f}", flush=True)

KINDS = [
    ("digits", digits, "too-large"),
    ("zeros behind", zeros_behind, "read"),
    ("zeros in front", zeros_in_front, "read"),
    ("behind the point", far_behind_the_point, "too-many-places"),
]
print("\none decimal")
print(f"{'MB':>4} {'what':<17} {'answer':<16} {'read s':>8} {'MB/s':>8} {'growth':>7} {'wc -l s':>8}")
for what, make, wanted in KINDS:
    first = None
    for size in (1, 8, 64):
        seconds, _, wc = measure("whole", make(size * MB), wanted)
        first = first or seconds / size
        print(f"{size:>4} {what:<17} {wanted:<16} {seconds:>8.3f} {size / seconds:>8.1f} {seconds / size / first:>7.2f} {wc:>8.4f}", flush=True)
PY
