//! Times both boards with the same lists.

use std::hint::black_box;
use std::process::ExitCode;
use std::time::Instant;

use crate::foreign;
use crate::lists::{self, List, Timed};
use crate::replay::replay;

const ROUNDS: usize = 31;
const WARM_UP: usize = 3;

struct Times {
    sorted: Vec<f64>,
}

impl Times {
    fn new(mut times: Vec<f64>) -> Times {
        times.sort_by(f64::total_cmp);
        Times { sorted: times }
    }

    fn median(&self) -> f64 {
        self.sorted[self.sorted.len() / 2]
    }

    fn min(&self) -> f64 {
        self.sorted[0]
    }

    fn max(&self) -> f64 {
        self.sorted[self.sorted.len() - 1]
    }
}

pub fn time() -> ExitCode {
    println!("plain: the board of this program; other: {}", foreign::NAME);
    println!("median ns (min to max) of {ROUNDS} rounds each, one after the other in turn");
    println!("a cycle is one of both gates; its time contains the other acts of the list");
    println!();
    println!(
        "{:<16} {:>8} {:>8} {:>7}  {:<26} {:<26} {:>11}",
        "kind", "acts", "cycles", "each", "plain", "other", "other/plain"
    );
    for Timed { name, list } in lists::timed() {
        let (each, count) = unit(&list);
        let (plain, other) = measure(&list, count);
        println!(
            "{name:<16} {:>8} {:>8} {each:>7}  {:<26} {:<26} {:>11.2}",
            list.acts,
            list.cycles,
            show(&plain),
            show(&other),
            other.median() / plain.median(),
        );
    }
    ExitCode::SUCCESS
}

/// What the time is divided by: acts, or cycles where an act can be many of them.
fn unit(list: &List) -> (&'static str, u64) {
    if list.cycles > list.acts {
        ("a cycle", list.cycles)
    } else {
        ("an act", list.acts)
    }
}

fn show(times: &Times) -> String {
    format!(
        "{:.2} ({:.2} to {:.2})",
        times.median(),
        times.min(),
        times.max()
    )
}

fn measure(list: &List, count: u64) -> (Times, Times) {
    let mut out = vec![0; list.room];
    let mut plain = Vec::new();
    let mut other = Vec::new();
    for round in 0..WARM_UP + ROUNDS {
        let first = ns(replay, list, &mut out) / count as f64;
        let second = ns(foreign::replay, list, &mut out) / count as f64;
        if round >= WARM_UP {
            plain.push(first);
            other.push(second);
        }
    }
    (Times::new(plain), Times::new(other))
}

fn ns(play: fn(&[u8], &mut [u8]) -> u32, list: &List, out: &mut [u8]) -> f64 {
    let start = Instant::now();
    let code = play(black_box(&list.bytes), black_box(out));
    let time = start.elapsed();
    assert_eq!(code, 0, "a list to be timed is played to its end");
    time.as_nanos() as f64
}

/// Plays one list by one board, so that its instructions can be counted from outside, and says by
/// what they are to be divided.
pub fn play(board: &str, kind: &str) -> ExitCode {
    let play = match board {
        "plain" => replay,
        "other" => foreign::replay,
        _ => return ExitCode::from(2),
    };
    let mut lists = lists::timed().into_iter().chain(lists::dear());
    let Some(Timed { list, .. }) = lists.find(|timed| timed.name == kind) else {
        return ExitCode::from(2);
    };
    let mut out = vec![0; list.room];
    ns(play, &list, &mut out);
    let (each, count) = unit(&list);
    println!("{count} {each}");
    ExitCode::SUCCESS
}
