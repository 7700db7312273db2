// Compares the library with compare/paper.rs: makes up questions, asks both, and tells the first differences.
//
//     against short|long SEED [--count] -- BOX..
//
// BOX.. is the command that starts compare/box.c's program, which has the library behind it. Says nothing where all answers agree
// (with --count: how many questions of each kind there were, and with which results), and ends with status 0. Otherwise the first
// differences are told on standard error, each with the question and both answers, and the status is 1. questions.rs makes the
// questions up, ask.rs puts them to both sides.

mod ask;
mod paper;
mod questions;

use ask::Asker;
use paper::Division;
use std::process::exit;

fn usage() -> ! {
    eprintln!("against short|long SEED [--count] -- BOX..");
    exit(2)
}

fn main() {
    let words: Vec<String> = std::env::args().skip(1).collect();
    let Some(bar) = words.iter().position(|word| word == "--") else { usage() };
    let (own, command) = (&words[..bar], &words[bar + 1..]);
    if own.len() < 2 || command.is_empty() {
        usage()
    }
    let long = match own[0].as_str() {
        "short" => false,
        "long" => true,
        _ => usage(),
    };
    let Ok(seed) = own[1].parse::<u64>() else { usage() };
    let count = own[2..].iter().any(|word| word == "--count");

    let division = Division::lay_out();
    let mut asker = Asker::start(&division, command);
    questions::ask_all(&division, &mut asker, seed, long);
    exit(asker.finish(count))
}
