#!/usr/bin/env bash
# Measures the memory of a board on one thread, `plain_board::PlainBoard`, at the
# limits of sizes: 2^20 cells of nonleaf columns, 16 spokes, 100000 further puts.
#
# A driver program makes the board for some number of ranks, which share the cells
# evenly. It takes all of its memory when it is made, of which it touches a part
# then, so the greatest memory that the program held says too little. Each row has
# the least limit of the program's address space, in MB (10^6 bytes), with which the
# board is made, and beside it that of a board of two windows of three words and one
# put, which is what the program needs for itself; both are found by halving.
#
# Needs: rt, python3; 1.5 GB of memory.
# Takes: under a minute, and some minutes before it where the crates are not
# proved yet.
# Use: bench/board.sh

. "$(dirname "${BASH_SOURCE[0]}")/common.sh"

build_driver bench_board window_words plain_board <<'DRIVER'
//! Makes a board and tells whether memory was refused. The words are whole
//! numbers: leaders' windows, other windows, words of a leader's entry, last
//! entry.
#![tactic(auto)]

ghost use Rattle.std.specs.Prelude.{◌≡◌, ◌≤◌, ◌<◌, ◌+◌, ◌^◌, ℕ, nat_lt, replicate, if◌then◌else◌};
ghost use Rattle.std.proofs.lemmas.List.{length-replicate};

use plain_board::PlainBoard;
use std::{env, io};
use window_words::Meaning;

/// Leaders' windows of one width and others of three words; each word of an entry
/// is the entry's number.
#[derive(Drop)]
struct Wide {
    leaders: usize,
    followers: usize,
    width: usize,
    most: u64,
    ghost is_counted: { leaders + followers < 2 ^ 64 },
    ghost is_small: { most < 2 ^ 62 },
    ghost are_led: { leaders ≤ leaders + followers },
}

impl Meaning for Wide {
    ghost entry = { λ t w k. replicate (if nat_lt w t.leaders then t.width else 3) k };

    ghost count = { λ t. t.leaders + t.followers };

    ghost lead = { λ t. t.leaders };

    ghost wide = { λ t w. if nat_lt w t.leaders then t.width else 3 };

    ghost last = { λ t. t.most };

    fn windows(&self) -> usize {
        self.leaders + self.followers
    }

    fn leaders(&self) -> usize {
        self.leaders
    }

    fn width(&self, window: usize) -> usize {
        if window < self.leaders {
            self.width
        } else {
            3
        }
    }

    fn most(&self) -> u64 {
        self.most
    }

    ghost fits = { λ t w k _ _ _. length-replicate (if nat_lt w t.leaders then t.width else 3) k };

    ghost small = { λ t. t.is_small };

    ghost led = { λ t. t.are_led };
}

/// The number in a word, at most `most`.
fn number(word: Option<&str>, most: u32) -> u32
    ensures { result ≤ most }
{
    word.and_then(|text| text.parse().ok()).unwrap_or(0).min(most)
}

fn main(rt: HostRuntime) -> io::Result<()> {
    let mut words = env::args(&rt)?;
    let _program = words.next();
    let Some(leaders) = words.next() else {
        return Ok(());
    };
    let (followers, width, most) = (words.next(), words.next(), words.next());
    let meaning = Wide {
        leaders: number(Some(leaders.as_str()), 1000) as usize,
        followers: number(followers.as_deref(), 1000) as usize,
        width: number(width.as_deref(), 1_000_000_000) as usize,
        most: u64::from(number(most.as_deref(), 1_000_000_000)),
    };
    match PlainBoard::new(rt.alloc(), meaning) {
        Ok(_) => println!(rt; "made"),
        Err(_) => println!(rt; "refused"),
    }
}
DRIVER

print_machine
python3 - "$driver" <<'PY'
import resource, subprocess, sys

driver = sys.argv[1]
MB = 10**6
CELLS, SPOKES, MOST = 1 << 20, 16, 100_001


def is_made(words, limit):
    def narrow():
        resource.setrlimit(resource.RLIMIT_AS, (limit * MB, limit * MB))

    run = subprocess.run(
        [driver, *map(str, words)], preexec_fn=narrow, capture_output=True, text=True
    )
    return run.returncode == 0 and run.stdout.strip() == "made"


def least(words):
    low, high = 0, 8000
    if not is_made(words, high):
        sys.exit(f"no board for {words} in {high} MB")
    while high - low > 1:
        middle = (low + high) // 2
        if is_made(words, middle):
            high = middle
        else:
            low = middle
    return high


alone = least([1, 1, 3, 1])
print(f"{'ranks':>5} {'MB':>6} {'of the program itself':>22}")
for ranks in (1, 2, 4, 8, 16):
    print(f"{ranks:5} {least([ranks, SPOKES, 3 * CELLS // ranks, MOST]):6} {alone:22}")
PY
