//! The race: the least times of our program and of Rust's, and of the operations that ops.rs asks of both, as a table.
//!
//!     race PROGRAM ROWS LINES OPS
//!
//! The two programs get the same catalogue in turn, their rows thrown away, until neither has taken less of the processor's time than ever
//! before for fifteen rounds: on a machine with slow stretches a fixed number of rounds may all lie in one. Where a process lays its stack
//! changes the times of short loops, so the operations are those of five processes, fifteen runs each.
use std::fs::{self, File};
use std::process::{Command, Stdio};

const ROUNDS: usize = 15;
const PROCESSES: usize = 5;
const RUNS: &str = "15";

extern "C" {
    fn getrusage(who: i32, usage: &mut [i64; 18]) -> i32;
}
const RUSAGE_CHILDREN: i32 = -1;

/// The processor's time that all children took which have ended, in microseconds. On 64-bit Linux a `struct rusage` is eighteen numbers:
/// seconds and microseconds of the user's time, the same of the system's, and what is not asked here.
fn used() -> i64 {
    let mut usage = [0; 18];
    assert_eq!(unsafe { getrusage(RUSAGE_CHILDREN, &mut usage) }, 0);
    (usage[0] + usage[2]) * 1_000_000 + usage[1] + usage[3]
}

/// The time of a program on a file, in microseconds.
fn time(program: &str, lines: &str) -> i64 {
    let before = used();
    let status = Command::new(program).stdin(File::open(lines).expect(lines)).stdout(Stdio::null()).status().expect(program);
    assert!(status.success(), "{program} failed");
    used() - before
}

fn told(what: &str, ours: f64, rust: f64) {
    println!("{what:<42} {ours:>9.1} ns {rust:>9.1} ns {:>12.2}", ours / rust);
}

fn main() {
    let words: Vec<String> = std::env::args().skip(1).collect();
    let [program, rows, lines, ops] = &words[..] else { panic!("race PROGRAM ROWS LINES OPS") };

    let (mut ours, mut rust) = (i64::MAX, i64::MAX);
    let mut since = 0;
    while since < ROUNDS {
        let (a, b) = (time(program, lines), time(rows, lines));
        since = if a < ours || b < rust { 0 } else { since + 1 };
        (ours, rust) = (ours.min(a), rust.min(b));
    }
    let count = fs::read(lines).expect(lines).iter().filter(|&&byte| byte == b'\n').count() as f64;

    let mut least: Vec<(String, f64, f64)> = Vec::new();
    for _ in 0..PROCESSES {
        let output = Command::new(ops).args([RUNS, lines]).stderr(Stdio::inherit()).output().expect(ops);
        assert!(output.status.success(), "{ops} failed");
        for line in String::from_utf8(output.stdout).expect("text").lines() {
            let parts: Vec<&str> = line.split('\t').collect();
            let (what, a, b) = (parts[0], parts[1].parse().expect("a time"), parts[2].parse().expect("a time"));
            match least.iter_mut().find(|(name, _, _)| name == what) {
                Some((_, ours, rust)) => (*ours, *rust) = (ours.min(a), rust.min(b)),
                None => least.push((what.to_string(), a, b)),
            }
        }
    }

    println!("{:<42} {:>12} {:>12} {:>12}", "", "ours", "Rust", "ours / Rust");
    told("whole program, a line", ours as f64 * 1000.0 / count, rust as f64 * 1000.0 / count);
    for (what, ours, rust) in least {
        told(&what, ours, rust);
    }
}
