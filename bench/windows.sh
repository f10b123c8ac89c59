#!/usr/bin/env bash
# Times a window of atomic words that one thread writes and others read, `table_board`.
#
# A driver program makes a board whose first window has entries of 3000 words. For two
# seconds one thread writes entry after entry, while one, three and eight others read the
# window: first without a rest, so that the stamp is odd nearly all the time, and then with
# a rest of a millisecond behind each entry. Each row has the entries written, the whole
# readings, the torn ones, and how often none began, since an entry was being written or
# the last one was read already, each a second, and then how many nanoseconds of a clock on
# the wall a whole reading took. The last rows compare a put with nobody reading and as
# many plain stores of the same words into a vector of atomics, and a whole reading of
# each put with nobody writing and as many plain loads, in one thread and in the same run:
# the nanoseconds of a put, those of the plain stores, how many times that is (at most 3.0
# is wanted), and the same of a reading and of the plain loads.
#
# Needs: rt, python3.
# Takes: half a minute, and some minutes before it where the crates are not proved yet.
# Use: bench/windows.sh

. "$(dirname "${BASH_SOURCE[0]}")/common.sh"

build_driver bench_windows table_board stamped_read window_tests <<'DRIVER'
//! Times a window that one thread writes and others read: with a number N, while N
//! threads read it, with a second word at rests, and with `alone`, beside plain stores of
//! as many words.
#![tactic(auto)]
ghost use Rattle.std.specs.Prelude.{◌≤◌, ◌<◌, ◌≡◌};

use std::alloc::{AllocError, Global};
use std::sync::atomic::{AtomicU64, Ordering};
use std::thread::{self, Threads};
use std::time::{Clock, CpuClock, Duration, Instant};
use std::{env, io};
use stamped_read::{Again, Read};
use table_board::TableBoard;
use window_tests::{Crew, Follower, Rank, Tiny};

const WIDTH: usize = 3000;
const MOST: u64 = 1 << 40;
const SECONDS: u64 = 2;

/// How many readings of a follower were whole, how many were torn, and how often none
/// began, since an entry was being written or the last one was read already.
#[derive(Drop)]
struct Count<'a> {
    follower: Follower<'a>,
    whole: u64,
    torn: u64,
    none: u64,
    /// The nanoseconds of the whole ones.
    nanos: u128,
}

/// The same of all followers, and the entries written beside them.
#[derive(Clone, Copy)]
struct Figures {
    puts: u64,
    whole: u64,
    torn: u64,
    none: u64,
    nanos: u128,
}

const NOTHING: Figures = Figures {
    puts: 0,
    whole: 0,
    torn: 0,
    none: 0,
    nanos: 0,
};

/// Whether so much time has passed that a thread ends.
fn is_over(clock: &impl Clock, begun: Instant) -> bool {
    match begun.elapsed(clock) {
        Ok(time) => time.as_secs() >= SECONDS,
        Err(_) => true,
    }
}

/// The nanoseconds since a moment, and 0 where the clock tells none.
fn nanos_since(clock: &impl Clock, moment: Option<Instant>) -> u128 {
    match moment.map(|begun| begun.elapsed(clock)) {
        Some(Ok(time)) => time.as_nanos(),
        _ => 0,
    }
}

/// Reads until the time is over.
fn read_on<R: Clock>(rt: &R, begun: Instant, count: &mut Count<'_>) {
    for _ in 0..1u64 << 40 {
        if is_over(rt, begun) {
            return;
        }
        let moment = Instant::now(rt).ok();
        match count.follower.reading(WIDTH + 2) {
            Read::Reading { .. } => {
                count.whole = count.whole.saturating_add(1);
                count.nanos = count.nanos.saturating_add(nanos_since(rt, moment));
            }
            Read::Again(Again::Torn { .. }) => count.torn = count.torn.saturating_add(1),
            _ => count.none = count.none.saturating_add(1),
        }
    }
}

/// Writes entries until the time is over, with so many microseconds of rest behind each
/// of them, and tells how many.
fn write_on<R: Clock>(rt: &R, begun: Instant, mut rank: Rank<'_>, pause: u64) -> u64 {
    for _ in 0..1u64 << 40 {
        if is_over(rt, begun) {
            break;
        }
        rank.write_on(WIDTH + 2);
        if pause > 0 {
            thread::sleep(rt, Duration::from_micros(pause));
        }
    }
    rank.last()
}

/// So many windows, of which the first is written.
fn meaning(windows: usize) -> Tiny
    requires { 1 ≤ windows }
    ensures { (result.leaders ≡ 1) × (result.width ≡ 3000) }
{
    Tiny {
        windows,
        leaders: 1,
        width: WIDTH,
        most: MOST,
    }
}

/// Writes beside a crew's readers, of which there are at most eight. Tells the entries
/// written, the whole readings, the torn ones, and how often none began.
fn beside<R: Threads + Clock + Sync>(
    rt: &R,
    alloc: Global,
    crew: Crew<'_>,
    pause: u64,
) -> Result<Figures, AllocError> {
    let Crew {
        mut ranks,
        followers,
    } = crew;
    let Some(rank) = ranks.pop() else {
        return Ok(NOTHING);
    };
    let mut counts = Vec::new(alloc);
    for follower in followers {
        counts.push(Count {
            follower,
            whole: 0,
            torn: 0,
            none: 0,
            nanos: 0,
        })?;
    }
    let Ok(begun) = Instant::now(rt) else {
        return Ok(NOTHING);
    };
    let (puts, ()) = thread::join(
        rt,
        || write_on(rt, begun, rank, pause),
        || thread::for_each_mut(rt, counts.as_mut_slice(), 8, &|_, count| {
            read_on(rt, begun, count)
        }),
    );
    let mut figures = Figures { puts, ..NOTHING };
    for count in &counts {
        figures.whole = figures.whole.saturating_add(count.whole);
        figures.torn = figures.torn.saturating_add(count.torn);
        figures.none = figures.none.saturating_add(count.none);
        figures.nanos = figures.nanos.saturating_add(count.nanos);
    }
    Ok(figures)
}

/// Writes beside so many readers of a fresh board.
fn timed<R: Threads + Clock + Sync>(
    rt: &R,
    alloc: Global,
    readers: usize,
    pause: u64,
) -> Result<Figures, AllocError>
    requires { 1 ≤ readers }
{
    let meaning = meaning(readers);
    let mut board = TableBoard::new(alloc, meaning)?;
    let crew = Crew::new(alloc, &mut board, &meaning)?;
    beside(rt, alloc, crew, pause)
}

/// How often an entry is written, and its words stored plainly.
const ROUNDS: u64 = 3000;

/// Stores an entry's words in order.
fn store_all(words: &[AtomicU64], entry: u64) {
    for word in words {
        word.store(entry, Ordering::SeqCst);
    }
}

/// Loads an entry's words in order, into a vector that holds as many.
fn load_all(words: &[AtomicU64], entry: &mut [u64]) {
    for (word, place) in words.iter().zip(entry.iter_mut()) {
        *place = word.load(Ordering::SeqCst);
    }
}

/// The microseconds of a processor for a whole reading of each of so many puts, and
/// for as many plain loads of the same words.
fn read_alone(rt: &impl CpuClock, alloc: Global) -> io::Result<(u128, u128)> {
    let meaning = meaning(1);
    let mut board = TableBoard::new(alloc, meaning)?;
    let Crew {
        mut ranks,
        mut followers,
    } = Crew::new(alloc, &mut board, &meaning)?;
    let (Some(mut rank), Some(mut follower)) = (ranks.pop(), followers.pop()) else {
        return Ok((0, 0));
    };
    let mut words = Vec::new(alloc);
    for _ in 0..WIDTH + 2 {
        words.push(AtomicU64::new(0))?;
    }
    let mut entry = vec![in alloc; 0; WIDTH + 2]?;
    let (mut read, mut loaded) = (0u128, 0u128);
    for _ in 0..ROUNDS {
        rank.write_on(WIDTH + 2);
        let begun = rt.thread_cpu_time()?;
        follower.reading(WIDTH + 2);
        let whole = rt.thread_cpu_time()?;
        load_all(words.as_slice(), entry.as_mut_slice());
        let plain = rt.thread_cpu_time()?;
        read = read.saturating_add(whole.saturating_sub(begun).as_nanos());
        loaded = loaded.saturating_add(plain.saturating_sub(whole).as_nanos());
    }
    if follower.last() != ROUNDS {
        return Ok((0, 0));
    }
    Ok((read / 1000, loaded / 1000))
}

/// The microseconds of a processor for so many puts that nobody reads, and for as
/// many plain stores of the same words.
fn alone(rt: &impl CpuClock, alloc: Global) -> io::Result<(u128, u128)> {
    let meaning = meaning(1);
    let mut board = TableBoard::new(alloc, meaning)?;
    let Crew { mut ranks, .. } = Crew::new(alloc, &mut board, &meaning)?;
    let Some(mut rank) = ranks.pop() else {
        return Ok((0, 0));
    };
    let mut words = Vec::new(alloc);
    for _ in 0..WIDTH + 2 {
        words.push(AtomicU64::new(0))?;
    }
    let begun = rt.thread_cpu_time()?;
    for _ in 0..ROUNDS {
        rank.write_on(WIDTH + 2);
    }
    let put = rt.thread_cpu_time()?;
    for entry in 0..ROUNDS {
        store_all(words.as_slice(), entry);
    }
    let stored = rt.thread_cpu_time()?;
    Ok((
        put.saturating_sub(begun).as_micros(),
        stored.saturating_sub(put).as_micros(),
    ))
}

fn main(rt: HostRuntime) -> io::Result<()> {
    let mut words = env::args(&rt)?;
    let _program = words.next();
    let Some(mode) = words.next() else {
        return Ok(());
    };
    if mode.as_str() == "alone" {
        let (puts, stores) = alone(&rt, rt.alloc())?;
        let (reads, loads) = read_alone(&rt, rt.alloc())?;
        return println!(rt; "{puts} {stores} {reads} {loads}");
    }
    let readers = match mode.as_str() {
        "1" => 1,
        "3" => 3,
        "8" => 8,
        _ => return println!(rt; "no such mode"),
    };
    let pause = match words.next() {
        Some(_) => 1000,
        None => 0,
    };
    let Ok(figures) = timed(&rt, rt.alloc(), readers, pause) else {
        return println!(rt; "no memory");
    };
    let Figures {
        puts,
        whole,
        torn,
        none,
        nanos,
    } = figures;
    println!(rt; "{puts} {whole} {torn} {none} {nanos}")
}
DRIVER

print_machine
python3 - "$driver" <<'PY'
import subprocess, sys

driver = sys.argv[1]
SECONDS = 2
ROUNDS = 3000


def run(*words):
    return [int(one) for one in subprocess.run([driver, *words], check=True, capture_output=True, text=True).stdout.split()]


print(f"\n{'readers':>7} {'rests':>5} {'entries/s':>10} {'whole/s':>10} {'torn/s':>10} {'none begun/s':>13} {'a whole one, ns':>15}")
for rests in ((), ("rests",)):
    for readers in (1, 3, 8):
        *counts, nanos = run(str(readers), *rests)
        figures = [one / SECONDS for one in counts]
        whole = f"{nanos / counts[1]:.0f}" if counts[1] else "-"
        print(f"{readers:>7} {'yes' if rests else 'no':>5} {figures[0]:>10.0f} {figures[1]:>10.0f} {figures[2]:>10.0f} {figures[3]:>13.0f} {whole:>15}", flush=True)

print(f"\n{'put ns':>10} {'stores ns':>10} {'times':>6} {'reading ns':>10} {'loads ns':>10} {'times':>6}")
for _ in range(3):
    puts, stores, reads, loads = run("alone")
    print(
        f"{puts * 1000 / ROUNDS:>10.0f} {stores * 1000 / ROUNDS:>10.0f} {puts / stores:>6.2f}"
        f" {reads * 1000 / ROUNDS:>10.0f} {loads * 1000 / ROUNDS:>10.0f} {reads / loads:>6.2f}",
        flush=True,
    )
PY
