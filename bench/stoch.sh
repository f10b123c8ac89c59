#!/usr/bin/env bash
# Times the reading of whole stoch files, `smps_stoch::read_stoch`, and the
# building of a scenario tree, `tree_core::build`.
#
# It makes a core of 4000 rows and columns in eight periods and, beside it,
# stoch files of about 1 and 15 MB (a MB is 2^20 bytes): 4096 scenarios with
# many right-hand sides, 12 elements of INDEP with many lines each, and a tree
# of blocks, one block for each period. A driver program loads each from disk by
# `io_edge::FileShelf` and reads it; of a small file of 12 elements of two lines
# each it also makes the marks and builds the tree of 4096 scenarios and 8
# stages. The table has, of the best of three runs, the seconds for loading and
# for reading, the MB read a second, how much slower that is a MB than at 1 MB
# (1.00 is linear growth), the most memory that the program held for each byte
# of the file, the seconds that awk takes, in the same run, to keep each word of the
# same file in a table, with the seconds for reading as a multiple of them, and the
# seconds for the marks and for the tree with the numbers of scenarios and nodes. All
# seconds are seconds of a processor, so that other programs disturb them less.
#
# Needs: rt, python3, awk; some 50 MB of disk and 2 GB of memory.
# Takes: a minute, and some minutes before it where the crates are not proved yet.
# Use: bench/stoch.sh

. "$(dirname "${BASH_SOURCE[0]}")/common.sh"

build_driver bench_stoch io_edge smps_core smps_time smps_stoch stoch_lines scenario_lists tree_core smps_words <<'DRIVER'
//! Times the reading of stoch files beside the core file and the time file that
//! its first two arguments name, and the building of their trees.
#![tactic(auto)]

ghost use Rattle.scenario_lists.specs.ScenarioList.{HaveAllParents};

use io_edge::{FileShelf, Shelf};
use scenario_lists::{MAX_SCENARIOS, scenario_count, scenario_marks};
use smps_core::read_core;
use smps_stoch::{Stoch, StochFault, read_stoch};
use smps_time::read_time;
use smps_words::{Core, Periods};
use std::time::CpuClock;
use std::{env, io};
use tree_core::build;

const MOST: usize = 67_108_864;

const STAGES: u8 = 8;

fn time_tree(rt: &HostRuntime, stoch: &Stoch) -> io::Result<()>
    requires { HaveAllParents stoch.now }
{
    let Ok(count) = scenario_count(stoch) else {
        return println!(rt; " - -");
    };
    let begun = rt.thread_cpu_time()?;
    let Ok(owners) = scenario_marks(rt.alloc(), STAGES, stoch, count) else {
        return println!(rt; " no marks");
    };
    let marking = rt.thread_cpu_time()?.saturating_sub(begun).as_micros();
    if owners.len() > MAX_SCENARIOS {
        return println!(rt; " - -");
    }
    let begun = rt.thread_cpu_time()?;
    let Ok(tree) = build(rt.alloc(), STAGES, &owners) else {
        return println!(rt; " no tree");
    };
    let building = rt.thread_cpu_time()?.saturating_sub(begun).as_micros();
    let nodes = tree.nodes.len();
    println!(rt; " {marking} {building} {count} {nodes}")
}

fn time_file(rt: &HostRuntime, core: &Core, periods: &Periods, name: &str) -> io::Result<()> {
    let mut shelf = FileShelf::new(rt);
    let begun = rt.thread_cpu_time()?;
    let Ok(bytes) = shelf.load(rt.alloc(), name, MOST) else {
        return println!(rt; "not loaded");
    };
    let loading = rt.thread_cpu_time()?.saturating_sub(begun).as_micros();
    let begun = rt.thread_cpu_time()?;
    let answer = read_stoch(rt.alloc(), bytes.as_slice(), core, periods);
    let reading = rt.thread_cpu_time()?.saturating_sub(begun).as_micros();
    match answer {
        Ok(stoch) => {
            println!(rt; "{loading} {reading}")?;
            match stoch {
                Stoch::Product(_) => time_tree(rt, &stoch),
                Stoch::Scenarios(_) => println!(rt; " - -"),
            }
        }
        Err(StochFault::At { line, .. }) => println!(rt; "fault {line}"),
        Err(StochFault::Memory) => println!(rt; "memory"),
    }
}

fn time_files(rt: &HostRuntime, core: &str, time: &str, stoch: &str) -> io::Result<()> {
    let mut shelf = FileShelf::new(rt);
    let Ok(bytes) = shelf.load(rt.alloc(), core, MOST) else {
        return println!(rt; "no core");
    };
    let Ok(core) = read_core(rt.alloc(), bytes.as_slice()) else {
        return println!(rt; "core not read");
    };
    let Ok(bytes) = shelf.load(rt.alloc(), time, MOST) else {
        return println!(rt; "no periods");
    };
    let Ok(periods) = read_time(rt.alloc(), bytes.as_slice(), &core) else {
        return println!(rt; "periods not read");
    };
    time_file(rt, &core, &periods, stoch)
}

fn main(rt: HostRuntime) -> io::Result<()> {
    let mut words = env::args(&rt)?;
    let _program = words.next();
    let (Some(core), Some(time)) = (words.next(), words.next()) else {
        return Ok(());
    };
    for stoch in words {
        time_files(&rt, core.as_str(), time.as_str(), stoch.as_str())?;
    }
    Ok(())
}
DRIVER

print_machine
python3 - "$driver" "$work" <<'PY'
import pathlib, subprocess, sys

driver, work = sys.argv[1], pathlib.Path(sys.argv[2])
MB = 1 << 20
SIZE = 4000
PERIODS = 8
EACH = SIZE // PERIODS


def core_file():
    rows = [b" G R%d\n" % i for i in range(SIZE)]
    columns = [b" C%d COST %d R%d 1\n" % (j, j % 9 + 1, j) for j in range(SIZE)]
    return b"".join([b"NAME BENCH\nROWS\n N COST\n", *rows, b"COLUMNS\n", *columns, b"RHS\n RHS R0 1\nENDATA\n"])


def time_file():
    return b"PERIODS\n" + b"".join(b" C%d R%d T%d\n" % (EACH * t, EACH * t, t + 1) for t in range(PERIODS)) + b"ENDATA\n"


def pairs(rows, seed):
    entries = [b"R%d %d.%d" % (i, (i * 31 + seed * 17) % 997, seed % 10) for i in rows]
    return b"".join(b" RHS %s\n" % b" ".join(entries[k : k + 2]) for k in range(0, len(entries), 2))


def scenarios(size):
    count = max(1, size // (4096 * 13))
    body = [b"STOCH\nSCENARIOS DISCRETE\n"]
    for s in range(4096):
        period = 2 + (s & 7 and (s & 7) - 1 or 0)
        parent = b"ROOT" if s < 8 else b"S%d" % (s - 8)
        first = EACH * (period - 1)
        body.append(b" SC S%d %s 0.%d T%d\n" % (s, parent, 1 + s % 9, period))
        body.append(pairs([first + i for i in range(min(count, SIZE - first))], s))
    return b"".join([*body, b"ENDATA\n"])


def indep(size):
    each = size // 12 // 22
    lines = [b" RHS R%d %d.25 T2 0.%d\n" % (EACH + k, i, 1 + i % 9) for i in range(each) for k in range(12)]
    return b"".join([b"INDEP DISCRETE\n", *lines, b"ENDATA\n"])


def halves(size):
    lines = [b" RHS R%d %d T%d 0.5\n" % (EACH * (2 + k % 7 - 1) + k, i, 2 + k % 7) for k in range(12) for i in range(2)]
    return b"".join([b"INDEP DISCRETE\n", *lines, b"ENDATA\n"])


def blocks(size):
    each = max(2, size // (7 * EACH * 14))
    body = [b"BLOCKS DISCRETE\n"]
    for t in range(2, PERIODS + 1):
        for i in range(each):
            body.append(b" BL B%d T%d 0.%d\n" % (t, t, 1 + i % 9))
            body.append(pairs(range(EACH * (t - 1), EACH * t), i))
    return b"".join([*body, b"ENDATA\n"])


def run(command):
    measured = subprocess.run([sys.executable, work / "measure.py", *command], capture_output=True, text=True, check=True)
    head, _, text = measured.stdout.partition("\n")
    status, seconds, peak = head.split()
    if status != "0":
        sys.exit(f"{command[0]} ended with {status}: {text[-500:]}")
    return text.split("\n"), int(peak), float(seconds)


# Keeps each word of a file in a table and prints how many different ones there are.
AWK = "{ for (i = 1; i <= NF; i++) seen[$i]++ } END { for (word in seen) count++; print count }"


(work / "core").write_bytes(core_file())
(work / "time").write_bytes(time_file())
print(f"{'file':>9} {'MB':>6} {'load s':>7} {'read s':>7} {'MB/s':>6} {'growth':>7} {'peak B/B':>9} {'awk s':>6} {'to awk':>6}  marks s, tree s, scenarios, nodes")
for kind, make in (("scenarios", scenarios), ("indep", indep), ("blocks", blocks), ("tree", halves)):
    first = None
    for size in (1, 15) if kind != "tree" else (1,):
        text = make(size * MB)
        path = work / "stoch"
        path.write_bytes(text)
        best = None
        for _ in range(3):
            lines, peak, _ = run([driver, str(work / "core"), str(work / "time"), str(path)])
            loading, reading = (int(one) / 1e6 for one in lines[0].split())
            if best is None or reading < best[1]:
                best = loading, reading, peak, lines[1].split()
        loading, reading, peak, tree = best
        awk = min(run(["awk", AWK, str(path)])[2] for _ in range(3))
        megabytes = len(text) / MB
        first = first or reading / megabytes
        tree = "-" if len(tree) != 4 else " ".join(f"{int(one) / 1e6:.3f}" for one in tree[:2]) + " " + " ".join(tree[2:])
        print(f"{kind:>9} {megabytes:>6.1f} {loading:>7.3f} {reading:>7.3f} {megabytes / reading:>6.1f} {reading / megabytes / first:>7.2f} {peak / len(text):>9.1f} {awk:>6.3f} {reading / awk:>6.2f}  {tree}", flush=True)
PY
