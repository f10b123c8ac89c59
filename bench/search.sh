#!/usr/bin/env bash
# Times the exact search, `branch_bound::solve`, on families of problems, beside the
# plain search and beside cbc and glpsol on the same problems.
#
# Families: `covering N`, one row that N columns from 0 to 3 cover by half;
# `knapsack N`, N columns from 0 to 1 under 3 rows; `cover N`, the same the other
# way round; `lots N`, production with setups and stock over N periods;
# `capacity K`, K kinds of capacity and what they serve; `units H U`, U units over
# H hours, on or off, with what is shed; `farm NAME`, a farmer's sales and
# purchases after a harvest; `split N`, three sums that are to be met exactly. A
# driver program searches each with a budget of a
# million boxes, and then looks for the least budget that is enough. The same
# driver has the plain search: no narrowing, no prices, the boxes copied.
# Each row has that least budget (or that the million was spent), the least value, the
# seconds of the search with a million, the boxes and seconds of the plain search
# (`+`: it was stopped), how much longer that took (`>` where it was stopped, `-`
# where the million was spent), and the seconds of cbc and glpsol, `-` where one
# isn't there. The second table has boxes a second of
# searches that spend their budget, and, where perf is there, where their time goes: to
# the rows (propagation), to finding prices, to bounds from the objective and the prices,
# and to the rest, by the names of the functions in which the samples lie, so that what
# the compiler has put into its caller counts as the caller's. All seconds are seconds
# of a processor.
#
# Needs: rt, python3; cbc, glpsol and perf if they are to be used.
# Takes: some ten minutes, most of them in rows that don't end within the million,
# and before it the proof of the driver, and of the crates where they aren't proved.
# Use: bench/search.sh

. "$(dirname "${BASH_SOURCE[0]}")/common.sh"

build_driver bench_search wide_num boxed_problem branch_bound <<'DRIVER'
//! Times the exact search and a plain one. The words are whole numbers: 0 for the
//! exact search or 1 for the plain one, a budget of boxes, the numbers of columns, rows and entries, then for each column its ends and its
//! linear part, for each row a limit with 0 (lower), 1 (upper) or 2 (both)
//! before it, and for each entry its row, column and value.
#![tactic(auto)]

use boxed_problem::{Boxed, Entry, Limits, Side};
use branch_bound::{SolveFault, solve};
use std::alloc::{AllocError, Global};
use std::time::CpuClock;
use std::{env, io};
use wide_num::List;

fn at(numbers: &[i64], place: usize) -> i64 {
    numbers.get(place).copied().unwrap_or(0)
}

fn count(numbers: &[i64], place: usize) -> usize {
    usize::try_from(at(numbers, place))
        .unwrap_or(0)
        .min(100_000)
}

fn index(numbers: &[i64], place: usize) -> u32 {
    u32::try_from(at(numbers, place)).unwrap_or(0)
}

fn columns_of(
    alloc: Global,
    numbers: &[i64],
    start: usize,
    n: usize,
) -> Result<List<Side>, AllocError> {
    let mut sides = List::new(alloc);
    let mut place = start;
    for _ in 0..n {
        let lower = at(numbers, place);
        let upper = at(numbers, place.saturating_add(1));
        sides.push(Side { lower, upper })?;
        place = place.saturating_add(3);
    }
    Ok(sides)
}

fn line_of(
    alloc: Global,
    numbers: &[i64],
    start: usize,
    n: usize,
) -> Result<List<i128>, AllocError> {
    let mut line = List::new(alloc);
    let mut place = start.saturating_add(2);
    for _ in 0..n {
        line.push(i128::from(at(numbers, place)))?;
        place = place.saturating_add(3);
    }
    Ok(line)
}

fn rows_of(
    alloc: Global,
    numbers: &[i64],
    start: usize,
    n: usize,
) -> Result<List<Limits>, AllocError> {
    let mut rows = List::new(alloc);
    let mut place = start;
    for _ in 0..n {
        let kind = at(numbers, place);
        let limit = i128::from(at(numbers, place.saturating_add(1)));
        let lower = if kind == 1 { None } else { Some(limit) };
        let upper = if kind == 0 { None } else { Some(limit) };
        rows.push(Limits { lower, upper })?;
        place = place.saturating_add(2);
    }
    Ok(rows)
}

fn entries_of(
    alloc: Global,
    numbers: &[i64],
    start: usize,
    n: usize,
) -> Result<List<Entry>, AllocError> {
    let mut entries = List::new(alloc);
    let mut place = start;
    for _ in 0..n {
        let row = index(numbers, place);
        let column = index(numbers, place.saturating_add(1));
        let value = i128::from(at(numbers, place.saturating_add(2)));
        entries.push(Entry { row, column, value })?;
        place = place.saturating_add(3);
    }
    Ok(entries)
}

fn problem_of(alloc: Global, numbers: &[i64]) -> Result<Option<Boxed>, AllocError> {
    let (columns, rows, entries) = (count(numbers, 2), count(numbers, 3), count(numbers, 4));
    let first_row = columns.saturating_mul(3).saturating_add(5);
    let first_entry = rows.saturating_mul(2).saturating_add(first_row);
    let mut square = List::new(alloc);
    for _ in 0..columns {
        square.push(0)?;
    }
    Ok(Boxed::new(
        columns_of(alloc, numbers, 5, columns)?,
        rows_of(alloc, numbers, first_row, rows)?,
        entries_of(alloc, numbers, first_entry, entries)?,
        0,
        line_of(alloc, numbers, 5, columns)?,
        square,
    ))
}

/// The boxes that a plain search has still to open, one after the other, each
/// as the ends of its columns; the ranges of the rows; and what it has found.
#[derive(Drop)]
struct Plain {
    boxes: Vec<i64>,
    sides: Vec<i64>,
    low: Vec<i128>,
    high: Vec<i128>,
    best: Option<i128>,
    opened: u64,
}

fn side(sides: &[i64], column: usize) -> (i64, i64) {
    let place = column.wrapping_mul(2);
    (at(sides, place), at(sides, place.wrapping_add(1)))
}

fn times(a: i128, b: i64) -> i128 {
    a.wrapping_mul(i128::from(b))
}

fn add(sums: &mut [i128], row: usize, more: i128) {
    if row < sums.len() {
        sums[row] = sums[row].wrapping_add(more);
    }
}

fn find_ranges(problem: &Boxed, sides: &[i64], low: &mut [i128], high: &mut [i128]) {
    for sum in low.iter_mut() {
        *sum = 0;
    }
    for sum in high.iter_mut() {
        *sum = 0;
    }
    for entry in problem.entries.as_slice() {
        let (lower, upper) = side(sides, entry.column as usize);
        let first = times(entry.value, lower);
        let last = times(entry.value, upper);
        add(low, entry.row as usize, first.min(last));
        add(high, entry.row as usize, first.max(last));
    }
}

fn misses(problem: &Boxed, low: &[i128], high: &[i128]) -> bool {
    for (row, limits) in problem.rows.as_slice().iter().enumerate() {
        let above = match limits.lower {
            Some(lower) => row < high.len() && high[row] < lower,
            None => false,
        };
        let below = match limits.upper {
            Some(upper) => row < low.len() && low[row] > upper,
            None => false,
        };
        if above || below {
            return true;
        }
    }
    false
}

fn least_value(problem: &Boxed, sides: &[i64]) -> i128 {
    let mut sum = problem.constant;
    for (column, line) in problem.line.as_slice().iter().enumerate() {
        let (lower, upper) = side(sides, column);
        sum = sum.wrapping_add(times(*line, lower).min(times(*line, upper)));
    }
    sum
}

fn first_wide(sides: &[i64], columns: usize) -> Option<usize> {
    for column in 0..columns {
        let (lower, upper) = side(sides, column);
        if lower < upper {
            return Some(column);
        }
    }
    None
}

fn push_half(boxes: &mut Vec<i64>, sides: &[i64], place: usize, end: i64) -> Result<(), AllocError> {
    for (k, number) in sides.iter().enumerate() {
        boxes.push(if k == place { end } else { *number })?;
    }
    Ok(())
}

fn take_box(plain: &mut Plain) -> bool {
    for number in plain.sides.iter_mut().rev() {
        let Some(end) = plain.boxes.pop() else {
            return false;
        };
        *number = end;
    }
    true
}

fn open_box(problem: &Boxed, plain: &mut Plain) -> Result<(), AllocError> {
    plain.opened = plain.opened.wrapping_add(1);
    find_ranges(problem, plain.sides.as_slice(), plain.low.as_mut_slice(), plain.high.as_mut_slice());
    if misses(problem, plain.low.as_slice(), plain.high.as_slice()) {
        return Ok(());
    }
    let least = least_value(problem, plain.sides.as_slice());
    if let Some(best) = plain.best {
        if best <= least {
            return Ok(());
        }
    }
    let Some(column) = first_wide(plain.sides.as_slice(), problem.columns.len()) else {
        plain.best = Some(least);
        return Ok(());
    };
    let (lower, upper) = side(plain.sides.as_slice(), column);
    let middle = lower.wrapping_add(upper).div_euclid(2);
    let place = column.wrapping_mul(2);
    push_half(&mut plain.boxes, plain.sides.as_slice(), place, middle.wrapping_add(1))?;
    push_half(&mut plain.boxes, plain.sides.as_slice(), place.wrapping_add(1), middle)
}

fn plain_search(alloc: Global, problem: &Boxed, budget: u64) -> Result<Plain, AllocError> {
    let mut boxes = Vec::new(alloc);
    let mut sides = Vec::new(alloc);
    for side in problem.columns.as_slice() {
        boxes.push(side.lower)?;
        boxes.push(side.upper)?;
        sides.push(0)?;
        sides.push(0)?;
    }
    let mut low = Vec::new(alloc);
    let mut high = Vec::new(alloc);
    for _ in 0..problem.rows.len() {
        low.push(0)?;
        high.push(0)?;
    }
    let mut plain = Plain { boxes, sides, low, high, best: None, opened: 0 };
    for _ in 0..budget {
        if !take_box(&mut plain) {
            break;
        }
        open_box(problem, &mut plain)?;
    }
    Ok(plain)
}

fn run_plain(rt: &HostRuntime, problem: &Boxed, budget: u64) -> io::Result<()> {
    let begun = rt.thread_cpu_time()?;
    let found = plain_search(rt.alloc(), problem, budget);
    let nanos = rt.thread_cpu_time()?.saturating_sub(begun).as_nanos();
    let Ok(plain) = found else {
        return println!(rt; "memory 0 {nanos}");
    };
    let opened = plain.opened;
    if !plain.boxes.is_empty() {
        return println!(rt; "spent {opened} {nanos}");
    }
    match plain.best {
        Some(value) => println!(rt; "{value} {opened} {nanos}"),
        None => println!(rt; "infeasible {opened} {nanos}"),
    }
}

fn main(rt: HostRuntime) -> io::Result<()> {
    let mut words = env::args(&rt)?;
    let _program = words.next();
    let mut numbers = Vec::new(rt.alloc());
    for word in words {
        if numbers
            .push(word.as_str().parse::<i64>().unwrap_or(0))
            .is_err()
        {
            return Ok(());
        }
    }
    let Ok(Some(problem)) = problem_of(rt.alloc(), numbers.as_slice()) else {
        return println!(rt; "no problem");
    };
    let budget = u64::try_from(at(numbers.as_slice(), 1)).unwrap_or(0);
    if at(numbers.as_slice(), 0) == 1 {
        return run_plain(&rt, &problem, budget);
    }
    let begun = rt.thread_cpu_time()?;
    let found = solve(rt.alloc(), &problem, budget);
    let nanos = rt.thread_cpu_time()?.saturating_sub(begun).as_nanos();
    match found {
        Ok(best) => println!(rt; "{} {nanos}", best.value),
        Err(SolveFault::Infeasible) => println!(rt; "infeasible {nanos}"),
        Err(SolveFault::Spent { .. }) => println!(rt; "spent {nanos}"),
        Err(SolveFault::Memory) => println!(rt; "memory {nanos}"),
    }
}
DRIVER

print_machine
python3 - "$driver" "$work" <<'PY'
import random, resource, shutil, subprocess, sys

driver, work = sys.argv[1], sys.argv[2]
MOST, PLAIN_MOST = 1_000_000, 2_000_000
LOWER, UPPER, BOTH = 0, 1, 2


def covering(n):
    values = [3 + j % 5 * 2 for j in range(n)]
    columns = [(0, 3, v * 4 + j) for j, v in enumerate(values)]
    return columns, [(LOWER, sum(values) * 3 // 2)], [(0, j, v) for j, v in enumerate(values)]


def binary(n, sign):
    draw = random.Random(n)
    weights = [[draw.randint(5, 60) for _ in range(n)] for _ in range(3)]
    columns = [(0, 1, sign * draw.randint(10, 99)) for _ in range(n)]
    kind = UPPER if sign < 0 else LOWER
    return columns, [(kind, sum(row) // 2) for row in weights], [(i, j, weights[i][j]) for j in range(n) for i in range(3)]


def lots(n):
    draw = random.Random(n)
    columns, rows, entries = [], [], []
    for t in range(n):
        columns += [(0, 1, draw.randint(20, 40)), (0, 12, 2), (0, 12, 1)]
        rows += [(BOTH, draw.randint(0, 8)), (UPPER, 0)]
        setup, made, kept = 3 * t, 3 * t + 1, 3 * t + 2
        entries += [(2 * t + 1, setup, -12), (2 * t, made, 1), (2 * t + 1, made, 1), (2 * t, kept, -1)]
        if t + 1 < n:
            entries.append((2 * t + 2, kept, 1))
    return columns, rows, entries


def farm(wheat, corn, beets):
    columns = [(170, 170, 150), (80, 80, 230), (250, 250, 260), (0, 10000, 238), (0, 10000, 210)]
    columns += [(0, 10000, -170), (0, 10000, -150), (0, 6000, -36), (0, 10000, -10)]
    rows = [(UPPER, 500), (LOWER, 2000), (LOWER, 2400), (LOWER, 0)]
    entries = [(0, 0, 1), (1, 0, wheat), (0, 1, 1), (2, 1, corn), (0, 2, 1), (3, 2, beets), (1, 3, 10), (2, 4, 10)]
    return columns, rows, entries + [(1, 5, -10), (2, 6, -10), (3, 7, -1), (3, 8, -1)]


def capacity(kinds, demands, most):
    draw = random.Random(10 * kinds + demands)
    columns = [(0, most, draw.randint(50, 150)) for _ in range(kinds)]
    columns += [(0, most, draw.randint(5, 40)) for _ in range(kinds * demands)]
    rows, entries = [], []
    for a in range(kinds):
        entries += [(len(rows), a, 1)] + [(len(rows), kinds + a * demands + b, -1) for b in range(demands)]
        rows.append((LOWER, 0))
    for b in range(demands):
        entries += [(len(rows), kinds + a * demands + b, draw.randint(1, 3)) for a in range(kinds)]
        rows.append((LOWER, draw.randint(most // 4, most // 2)))
    return columns, rows, sorted(entries, key=lambda e: (e[1], e[0]))


def split(n, most):
    draw = random.Random(n)
    weights = [[draw.randint(1, 99) for _ in range(n)] for _ in range(3)]
    columns = [(0, most, draw.randint(1, 99)) for _ in range(n)]
    rows = [(BOTH, sum(row) * most // 2) for row in weights]
    return columns, rows, [(i, j, weights[i][j]) for j in range(n) for i in range(3)]


def units(hours, count):
    draw = random.Random(100 * hours + count)
    most = [draw.randint(3, 9) * 10 for _ in range(count)]
    cost = [draw.randint(10, 40) for _ in range(count)]
    start = [draw.randint(100, 400) for _ in range(count)]
    columns = [(0, 1, 5 * cost[u]) for u in range(count) for _ in range(hours)]
    columns += [(0, 1, start[u]) for u in range(count) for _ in range(hours)]
    columns += [(0, most[u], cost[u]) for u in range(count) for _ in range(hours)]
    columns += [(0, sum(most), 500) for _ in range(hours)]
    rows, entries = [], []
    for t in range(hours):
        entries += [(len(rows), (2 * count + u) * hours + t, 1) for u in range(count)] + [(len(rows), 3 * count * hours + t, 1)]
        rows.append((LOWER, int(sum(most) * (0.4 + 0.4 * draw.random()))))
    for u in range(count):
        for t in range(hours):
            on, begun, made = u * hours + t, (count + u) * hours + t, (2 * count + u) * hours + t
            i = len(rows)
            entries += [(i, made, 1), (i, on, -most[u]), (i + 1, made, 1), (i + 1, on, -(most[u] // 3)), (i + 2, begun, 1), (i + 2, on, -1)]
            if t:
                entries.append((i + 2, on - 1, 1))
            rows += [(UPPER, 0), (LOWER, 0), (LOWER, 0)]
    return columns, rows, sorted(entries, key=lambda e: (e[1], e[0]))


def numbers_of(kind, problem, budget):
    columns, rows, entries = problem
    numbers = [kind, budget, len(columns), len(rows), len(entries)]
    return numbers + [v for part in problem for one in part for v in one]


def run(kind, problem, budget):
    words = subprocess.run([driver, *map(str, numbers_of(kind, problem, budget))], check=True, stdout=subprocess.PIPE, text=True).stdout.split()
    return [words[0], *map(int, words[1:])]


def search(problem, budget):
    found, nanos = run(0, problem, budget)
    return found, nanos / 1e9


GROUPS = {
    "rows": ("propagate",),
    "prices": ("dual_simplex", "row_prices", "suggesting", "scaling"),
    "bounds": ("safe_bound", "bettering", "gridding", "curving"),
}


def shares(problem, budget):
    """The shares of the groups in a search's time, and of the rest, in percent."""
    if not shutil.which("perf"):
        return "-"
    data = f"{work}/perf.data"
    record = ["perf", "record", "-q", "-F", "999", "-o", data, driver]
    subprocess.run([*record, *map(str, numbers_of(0, problem, budget))], stdout=subprocess.DEVNULL, stderr=subprocess.DEVNULL)
    script = subprocess.run(["perf", "script", "-i", data, "-F", "ip,sym"], stdout=subprocess.PIPE, stderr=subprocess.DEVNULL, text=True)
    counts = dict.fromkeys([*GROUPS, "rest"], 0)
    for line in script.stdout.split("\n"):
        if line.strip():
            group = next((one for one, words in GROUPS.items() if any(word in line for word in words)), "rest")
            counts[group] += 1
    whole = max(1, sum(counts.values()))
    return ", ".join(f"{one} {100 * count / whole:.0f} %" for one, count in counts.items())


def least_budget(problem):
    high = 1
    while search(problem, high)[0] == "spent":
        high *= 2
    low = high // 2
    while low + 1 < high:
        middle = (low + high) // 2
        if search(problem, middle)[0] == "spent":
            low = middle
        else:
            high = middle
    return high


def mps(problem, path):
    columns, rows, entries = problem
    with open(path, "w") as out:
        print("NAME X\nROWS\n N COST", file=out)
        for i, (kind, _) in enumerate(rows):
            print(f" {'GLE'[kind]} R{i}", file=out)
        print("COLUMNS\n MARKER 'MARKER' 'INTORG'", file=out)
        for j, (_, _, line) in enumerate(columns):
            print(f" X{j} COST {line}", file=out)
            for i, k, v in entries:
                if k == j:
                    print(f" X{j} R{i} {v}", file=out)
        print(" MARKER 'MARKER' 'INTEND'\nRHS", file=out)
        for i, (_, limit) in enumerate(rows):
            print(f" RHS R{i} {limit}", file=out)
        print("BOUNDS", file=out)
        for j, (lower, upper, _) in enumerate(columns):
            print(f" LO {'BND':<10}X{j:<9}{lower}", file=out)
            print(f" UP {'BND':<10}X{j:<9}{upper}", file=out)
        print("ENDATA", file=out)


def other(command):
    if not shutil.which(command[0]):
        return "-"
    before = resource.getrusage(resource.RUSAGE_CHILDREN).ru_utime
    subprocess.run(command, stdout=subprocess.DEVNULL, stderr=subprocess.DEVNULL, timeout=120)
    return f"{resource.getrusage(resource.RUSAGE_CHILDREN).ru_utime - before:.2f}"


FAMILIES = [(f"covering {n}", covering(n)) for n in (8, 10, 12, 14)]
FAMILIES += [(f"knapsack {n}", binary(n, -1)) for n in (12, 16, 20, 30)]
FAMILIES += [(f"cover {n}", binary(n, 1)) for n in (12, 16, 20, 30)]
FAMILIES += [(f"lots {n}", lots(n)) for n in (4, 6, 18, 24)]
FAMILIES += [("capacity 2", capacity(2, 2, 20)), ("capacity 4", capacity(4, 3, 1000)), ("units 2 2", units(2, 2)), ("units 6 3", units(6, 3)), ("units 8 4", units(8, 4))]
FAMILIES += [("farm GOOD", farm(30, 36, 24)), ("farm FAIR", farm(25, 30, 20)), ("farm POOR", farm(20, 24, 16))]
print(f"{'problem':>12} {'size':>9} {'boxes':>8} {'least value':>12} {'seconds':>9} {'plain boxes':>12} {'seconds':>9} {'times':>8} {'cbc':>7} {'glpsol':>7}")
for name, problem in FAMILIES:
    found, seconds = search(problem, MOST)
    boxes = "spent" if found == "spent" else least_budget(problem)
    value, opened, nanos = run(1, problem, PLAIN_MOST)
    ended = value != "spent"
    if ended and found not in ("spent", value):
        sys.exit(f"{name}: {found} and {value}")
    path = f"{work}/problem.mps"
    mps(problem, path)
    cbc = other(["cbc", path, "ratio", "0", "allow", "0", "solve", "quit"])
    glpsol = other(["glpsol", "--freemps", path, "--mipgap", "0", "--tmlim", "60"])
    size = f"{len(problem[0])}x{len(problem[1])}"
    plain = f"{opened}{'' if ended else '+'}"
    times = "-" if found == "spent" else f"{'' if ended else '>'}{nanos / 1e9 / max(seconds, 1e-9):.1f}"
    print(f"{name:>12} {size:>9} {boxes:>8} {found:>12} {seconds:>9.4f} {plain:>12} {nanos / 1e9:>9.4f} {times:>8} {cbc:>7} {glpsol:>7}", flush=True)

print(f"\n{'problem':>12} {'size':>9} {'budget':>9} {'seconds':>9} {'boxes/s':>10}  shares")
SPEEDS = [("split 10", split(10, 30)), ("lots 18", lots(18)), ("split 100", split(100, 1)), ("capacity 9", capacity(9, 10, 1000)), ("units 24 3", units(24, 3))]
for name, problem in SPEEDS:
    budget = 100_000
    found, seconds = search(problem, budget)
    while found != "spent" and budget > 100:
        budget //= 4
        found, seconds = search(problem, budget)
    size = f"{len(problem[0])}x{len(problem[1])}"
    print(f"{name:>12} {size:>9} {budget:>9} {seconds:>9.4f} {budget / max(seconds, 1e-9):>10.0f}{'' if found == 'spent' else ' (ended)'}  {shares(problem, budget)}", flush=True)
PY
