#!/usr/bin/env bash
# Times the puts of progressive hedging, `hedging::first` and `next`, beside the
# searches in them, and measures their memory.
#
# The instances come from a folder that the first argument names: it holds
# `make_instances.py`, which makes a triple of SMPS files (`--preset NAME --seed N --out
# DIR`). `hydro-two` is its hydro problem with two periods in place of three. Behind them
# stands `wide`, a triple that the script makes: 4096 scenarios of 128 columns of the first
# stage and one of the second, whose problems are easy, and of which two puts are made, once.
# A driver program reads and joins each triple and makes ten puts; before each put it
# solves the same problems by itself, which it makes outside the clock. The table has the
# scenarios, the columns and the nonleaf columns of an instance, how many puts were made (a
# search that spends its budget ends them, and with none the table has the cause), the
# seconds of the puts and those of the searches alone, each the least of five runs, what
# the puts take beyond the searches as a part of the puts, and how many bytes the program
# held at most with puts beyond what it held when it only solved the first problems one
# after another, in all and for each scenario and nonleaf column. All seconds are seconds
# of a processor; the bytes are those of the greatest memory that the system counted, in
# whole pages, so of small instances they tell little.
#
# Needs: rt, python3.
# Takes: minutes for the searches, and before them the proof of the driver, and of the
# crates where they aren't proved.
# Use: bench/hedging.sh INSTANCES [PRESET..]

[ $# -ge 1 ] || { sed -n 's/^# Use: /use: /p' "${BASH_SOURCE[0]}" >&2; exit 2; }

. "$(dirname "${BASH_SOURCE[0]}")/common.sh"

# The proof of the driver's one loop that makes puts: the hedge stands at the put that
# has the number of the step.
proofs=$work/copy/crates/bench_hedging/proofs
mkdir -p "$proofs/time_next"
: >"$proofs/Lib.antt"
cat >"$proofs/time_next/Invariants.antt" <<'PROOF'
use Rattle.std.proofs.Common.{◌≡◌, ◌+◌, Some}
use Rattle.hedging.specs.Hedges.{made_of}
use Rattle.put_words.specs.Puts.{put_of}
use Rattle.bench_hedging.proofs.time_next.Given as goal

abbrev pub invariant-loop-step : goal.invariant-loop-step
invariant-loop-step l = record {
  put : put_of l.run l.hedge.put.number ≡ Some (made_of l.hedge);
  number : l.hedge.put.number ≡ l.step + 1;
}
PROOF
cat >"$proofs/time_next/Answers.antt" <<'PROOF'
use Rattle.std.proofs.Common.{ap, ◌∙◌}
use Rattle.hedging.specs.Hedges.{made_of}
use Rattle.put_words.specs.Puts.{put_of}
use Rattle.put_words.proofs.Inside.{put_number}
use Rattle.bench_hedging.proofs.time_next.Goals as goal

pub loop-step-init : goal.loop-step-init
loop-step-init c = record {
  put = ap (λ k. put_of c.args.run.now k) (put_number c.args.run.now 1 (made_of c.args.hedge) c.requires.put) ∙ c.requires.put;
  number = put_number c.args.run.now 1 (made_of c.args.hedge) c.requires.put;
}
PROOF

build_driver bench_hedging io_edge wide_num boxed_problem branch_bound tree_core smps_core smps_time smps_stoch smps_join sp_model run_calls put_words hedging <<'DRIVER'
//! Puts of progressive hedging over the run of three files. The words are what to do,
//! the core file, the time file, the stoch file, the scale, the penalty, the further
//! puts and the budget: `solve` solves the first problems, `puts` makes puts, `time`
//! times them and the searches in them.
#![tactic(auto)]

ghost use Rattle.std.specs.Prelude.{◌≡◌, ◌≤◌, Some, pos, ◌≤ℤ◌};
ghost use Rattle.hedging.specs.Hedges.{made_of};
ghost use Rattle.put_words.specs.Puts.{put_of};
ghost use Rattle.sp_model.specs.RunFacts.{OptionFacts};

use boxed_problem::Boxed;
use branch_bound::solve;
use hedging::{Hedge, first, next};
use io_edge::{FileShelf, Shelf};
use run_calls::Put;
use smps_core::read_core;
use smps_join::join;
use smps_stoch::read_stoch;
use smps_time::read_time;
use sp_model::{MAX_BUDGET, MAX_ITERATIONS, MAX_RHO, MAX_SCALE, Options, Run};
use std::alloc::{AllocError, Global};
use std::time::CpuClock;
use std::{env, io};
use tree_core::Node;
use wide_num::List;

const MOST: usize = 67_108_864;

/// The number, or the nearest one from 1 to `most`.
fn from_one(number: i128, most: i128) -> i128
    requires { pos 1 ≤ℤ most }
    ensures least { pos 1 ≤ℤ result }
    ensures most { result ≤ℤ most }
{
    if number < 1 {
        1
    } else if most < number {
        most
    } else {
        number
    }
}

/// A budget in its range.
fn some_budget(number: u64) -> u64
    ensures least { 1 ≤ result }
    ensures most { result ≤ 1000000000 }
{
    if number < 1 {
        1
    } else if MAX_BUDGET < number {
        MAX_BUDGET
    } else {
        number
    }
}

fn options(scale: i128, rho: i128, iterations: u64, budget: u64) -> Options
    ensures { OptionFacts result }
{
    Options {
        scale: from_one(scale, MAX_SCALE),
        rho: from_one(rho, MAX_RHO),
        iterations: iterations.min(MAX_ITERATIONS),
        ranks: 1,
        lagrangian: 1,
        xhat: 1,
        candidates: 1,
        mean: false,
        gap: 0,
        budget: some_budget(budget),
        missing: 1000000,
    }
}

fn joined(alloc: Global, texts: (&[u8], &[u8], &[u8]), options: &Options) -> Option<Run>
    requires { OptionFacts options.now }
{
    let Ok(core) = read_core(alloc, texts.0) else {
        return None;
    };
    let Ok(periods) = read_time(alloc, texts.1, &core) else {
        return None;
    };
    let Ok(stoch) = read_stoch(alloc, texts.2, &core, &periods) else {
        return None;
    };
    if core.columns.len() == 0 {
        return None;
    }
    match join(alloc, &core, &periods, &stoch, options) {
        Ok(run) => Some(run),
        Err(_) => None,
    }
}

/// The weight of a scenario.
fn weight(run: &Run, scenario: usize) -> i128 {
    match run.program.scenarios.as_slice().get(scenario) {
        Some(scenario) => scenario.weight,
        None => 0,
    }
}

/// The place of a scenario and a nonleaf column in the lists of a put.
fn place(run: &Run, scenario: usize, column: usize) -> usize {
    scenario.wrapping_mul(run.nonleaf as usize).wrapping_add(column)
}

/// The weighted sum of some scenarios' values in a nonleaf column, and their weight.
fn node_sum(run: &Run, put: &Put, members: &[u32], column: usize) -> (i128, i128) {
    let (mut sum, mut whole) = (0i128, 0i128);
    for member in members {
        let scenario = *member as usize;
        let value = put.x.as_slice().get(place(run, scenario, column)).copied().unwrap_or(0);
        let own = weight(run, scenario);
        sum = sum.wrapping_add(own.wrapping_mul(i128::from(value)));
        whole = whole.wrapping_add(own);
    }
    (sum, whole)
}

/// Gives each of some scenarios the sum and the weight of their node in a column.
fn spread(run: &Run, members: &[u32], column: usize, found: (i128, i128), sums: &mut Vec<(i128, i128)>) {
    for member in members {
        if let Some(cell) = sums.get_mut(place(run, *member as usize, column)) {
            *cell = found;
        }
    }
}

/// Fills in the sums of a node in the columns of its stage.
fn add_node(run: &Run, put: &Put, node: &Node, sums: &mut Vec<(i128, i128)>) {
    for column in 0..run.nonleaf as usize {
        let stage = match run.program.columns.as_slice().get(column) {
            Some(column) => column.stage,
            None => 0,
        };
        if node.stage == stage {
            let members = node.scenarios.as_slice();
            spread(run, members, column, node_sum(run, put, members, column), sums);
        }
    }
}

/// The sum and the weight of the node of each scenario and nonleaf column.
fn node_sums(alloc: Global, run: &Run, put: &Put) -> Result<Vec<(i128, i128)>, AllocError> {
    let cells = run.program.scenarios.len().wrapping_mul(run.nonleaf as usize);
    let mut sums = vec![in alloc; (0i128, 0i128); cells]?;
    for node in run.program.tree.nodes.as_slice() {
        add_node(run, put, node, &mut sums);
    }
    Ok(sums)
}

/// The linear part of a column in a hedged problem, and its square.
fn hedged_part(run: &Run, put: &Put, sums: &[(i128, i128)], scenario: usize, column: usize, cost: i128) -> (i128, i128) {
    let twice = cost.wrapping_mul(2);
    if column >= run.nonleaf as usize {
        return (twice, 0);
    }
    let place = place(run, scenario, column);
    let multiplier = put.multipliers.values.as_slice().get(place).copied().unwrap_or(0);
    let (sum, whole) = sums.get(place).copied().unwrap_or((0, 0));
    let square = run.options.rho.wrapping_mul(weight(run, scenario));
    let pull = if whole < 1 {
        0
    } else {
        square.wrapping_mul(2).wrapping_mul(sum).wrapping_div_euclid(whole)
    };
    let line = twice.wrapping_add(multiplier.wrapping_mul(2)).wrapping_sub(pull);
    (line, square)
}

/// The hedged problem of a scenario.
fn hedged(alloc: Global, run: &Run, put: &Put, sums: &[(i128, i128)], scenario: usize, own: Boxed) -> Option<Boxed> {
    let mut line = List::new(alloc);
    let mut square = List::new(alloc);
    for (column, cost) in own.line.as_slice().iter().enumerate() {
        let (linear, curved) = hedged_part(run, put, sums, scenario, column, *cost);
        let (Ok(()), Ok(())) = (line.push(linear), square.push(curved)) else {
            return None;
        };
    }
    let Boxed { columns, rows, entries, .. } = own;
    Boxed::new(columns, rows, entries, 0, line, square)
}

/// The microseconds of the search of a problem.
fn time_solve(rt: &HostRuntime, run: &Run, problem: &Boxed) -> io::Result<u128> {
    let begun = rt.thread_cpu_time()?;
    let _found = solve(rt.alloc(), problem, run.options.budget).is_ok();
    Ok(rt.thread_cpu_time()?.saturating_sub(begun).as_micros())
}

/// The microseconds of the searches of the first put.
fn time_first(rt: &HostRuntime, run: &Run) -> io::Result<u128> {
    let mut spent = 0u128;
    for scenario in 0..run.program.scenarios.len() as u32 {
        if let Ok(problem) = run.scenario(rt.alloc(), scenario) {
            spent = spent.saturating_add(time_solve(rt, run, &problem)?);
        }
    }
    Ok(spent)
}

/// The microseconds of the searches of the put behind a put.
fn time_behind(rt: &HostRuntime, run: &Run, put: &Put) -> io::Result<u128> {
    let alloc = rt.alloc();
    let mut spent = 0u128;
    let Ok(sums) = node_sums(alloc, run, put) else {
        return Ok(spent);
    };
    for scenario in 0..run.program.scenarios.len() as u32 {
        if let Ok(own) = run.scenario(alloc, scenario) {
            if let Some(problem) = hedged(alloc, run, put, sums.as_slice(), scenario as usize, own) {
                spent = spent.saturating_add(time_solve(rt, run, &problem)?);
            }
        }
    }
    Ok(spent)
}

/// What was made: how many puts, and the microseconds of the puts and of the searches
/// in them.
#[derive(Clone, Copy, Drop)]
struct Times {
    made: u64,
    puts: u128,
    solves: u128,
}

/// Further puts, with their times where they are asked for.
fn time_next(rt: &HostRuntime, run: &Run, mut hedge: Hedge, timed: bool, mut times: Times) -> io::Result<Times>
    requires put { put_of run.now 1 ≡ Some (made_of hedge) }
{
    for step in 0..run.options.iterations {
        let again = if timed { time_behind(rt, run, &hedge.put)? } else { 0 };
        let begun = rt.thread_cpu_time()?;
        if next(rt.alloc(), run, &mut hedge).is_err() {
            return Ok(times);
        }
        let time = rt.thread_cpu_time()?.saturating_sub(begun).as_micros();
        times.puts = times.puts.saturating_add(time);
        times.solves = times.solves.saturating_add(again);
        times.made = times.made.saturating_add(1);
    }
    Ok(times)
}

/// All puts, with their times where they are asked for.
fn time_puts(rt: &HostRuntime, run: &Run, timed: bool) -> io::Result<()> {
    let solves = if timed { time_first(rt, run)? } else { 0 };
    let begun = rt.thread_cpu_time()?;
    match first(rt.alloc(), run) {
        Ok(hedge) => {
            let puts = rt.thread_cpu_time()?.saturating_sub(begun).as_micros();
            let times = time_next(rt, run, hedge, timed, Times { made: 1, puts, solves })?;
            println!(rt; "{} {} {}", times.made, times.puts, times.solves)
        }
        Err(fault) => println!(rt; "0 0 0 {fault:?}"),
    }
}

fn number(word: Option<String>) -> u64 {
    match word {
        Some(word) => word.as_str().parse().unwrap_or(0),
        None => 0,
    }
}

fn work(rt: &HostRuntime, mode: &str, run: &Run) -> io::Result<()> {
    let scenarios = run.program.scenarios.len();
    let columns = run.program.columns.len();
    println!(rt; "{scenarios} {columns} {}", run.nonleaf)?;
    if mode == "solve" {
        let _solves = time_first(rt, run)?;
        return Ok(());
    }
    time_puts(rt, run, mode == "time")
}

fn main(rt: HostRuntime) -> io::Result<()> {
    let mut words = env::args(&rt)?;
    let _program = words.next();
    let (Some(mode), Some(core), Some(time), Some(stoch)) =
        (words.next(), words.next(), words.next(), words.next())
    else {
        return Ok(());
    };
    let scale = i128::from(number(words.next()));
    let rho = i128::from(number(words.next()));
    let iterations = number(words.next());
    let budget = number(words.next());
    let options = options(scale, rho, iterations, budget);
    let alloc = rt.alloc();
    let mut shelf = FileShelf::new(&rt);
    let Ok(core) = shelf.load(alloc, core.as_str(), MOST) else {
        return println!(&rt; "not loaded");
    };
    let Ok(time) = shelf.load(alloc, time.as_str(), MOST) else {
        return println!(&rt; "not loaded");
    };
    let Ok(stoch) = shelf.load(alloc, stoch.as_str(), MOST) else {
        return println!(&rt; "not loaded");
    };
    match joined(alloc, (core.as_slice(), time.as_slice(), stoch.as_slice()), &options) {
        Some(run) => work(&rt, mode.as_str(), &run),
        None => println!(&rt; "no run"),
    }
}
DRIVER

print_machine
python3 - "$driver" "$work" "$@" <<'PY'
import pathlib, subprocess, sys

driver, work, instances = sys.argv[1], pathlib.Path(sys.argv[2]), pathlib.Path(sys.argv[3])
presets = sys.argv[4:] or ["dcap-small", "hydro-small", "hydro-two", "farmer-book", "wide"]
OWN = {"hydro-two": "hydro P=2 B=4 K=2 R=2"}
SCALE, RHO, FURTHER, BUDGET = 1000, 1000, 9, 1000000
WIDE_SCENARIOS, WIDE_COLUMNS = 4096, 128
RUNS = 5


def measured(mode, files, further=FURTHER):
    """Greatest memory and lines of the driver."""
    words = [driver, mode, *files, *map(str, (SCALE, RHO, further, BUDGET))]
    ran = subprocess.run([sys.executable, str(work / "measure.py"), *words], capture_output=True, text=True)
    first, *lines = ran.stdout.splitlines()
    status, _, memory = first.split()
    if status != "0" or len(lines[0].split()) != 3:
        sys.exit(f"the driver ended with {status}: {lines[-1:]}")
    return int(memory), lines


def wide(folder):
    """Columns of the first stage that cost 1 to 9, and one of the second that meets what
    a scenario needs where they don't."""
    names = [f"X{j}" for j in range(WIDE_COLUMNS)]
    columns = [f" {name} COST {1 + j % 9} NEED 1" for j, name in enumerate(names)]
    bounds = [f" UP BND {name} 1" for name in names]
    core = ["NAME WIDE", "ROWS", " N COST", " G NEED", "COLUMNS", *columns, " Y COST 5 NEED 1"]
    core += ["RHS", " RHS NEED 1", "BOUNDS", *bounds, " UP BND Y 999", "ENDATA", ""]
    scenarios = [f" SC S{s} ROOT 0.5 T2\n RHS NEED {s % 3}" for s in range(WIDE_SCENARIOS)]
    folder.mkdir()
    (folder / "wide.cor").write_text("\n".join(core))
    (folder / "wide.tim").write_text("TIME WIDE\nPERIODS\n X0 COST T1\n Y NEED T2\nENDATA\n")
    (folder / "wide.sto").write_text("\n".join(["STOCH WIDE", "SCENARIOS DISCRETE", *scenarios, "ENDATA", ""]))


print(f"{'instance':12} {'scenarios':>9} {'columns':>7} {'nonleaf':>7} {'puts':>4} {'puts s':>9} {'solves s':>9} {'beyond':>7} {'bytes':>9} {'a cell':>7}")
for preset in presets:
    seed = "1" if preset == "farmer-book" else "101"
    kind = OWN[preset].split() if preset in OWN else ["--preset", preset]
    folder = work / preset
    if preset == "wide":
        wide(folder)
    else:
        subprocess.run([sys.executable, instances / "make_instances.py", *kind, "--seed", seed, "--out", folder], check=True, stdout=subprocess.DEVNULL)
    files = [str(next(folder.rglob(f"*.{end}"))) for end in ("cor", "tim", "sto")]
    low, lines = measured("solve", files)
    scenarios, columns, nonleaf = map(int, lines[0].split())
    head = f"{preset:12} {scenarios:9} {columns:7} {nonleaf:7}"
    further, times = (1, 1) if preset == "wide" else (FURTHER, RUNS)
    high, lines = measured("puts", files, further)
    if lines[1].startswith("0 "):
        print(head, lines[1].replace(" 0 0", "", 1).rjust(4), flush=True)
        continue
    runs = [tuple(map(int, measured("time", files, further)[1][1].split()[:3])) for _ in range(times)]
    made, puts, solves = runs[0][0], *(min(run[one] for run in runs) / 1e6 for one in (1, 2))
    beyond = f"{(puts - solves) / puts * 100:.1f} %"
    print(f"{head} {made:4} {puts:9.3f} {solves:9.3f} {beyond:>7} {high - low:9} {(high - low) / (scenarios * nonleaf):7.1f}", flush=True)
PY
