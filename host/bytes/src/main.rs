//! Bytes that nobody intended, lent to the C functions: see README.md.

mod call;
mod kinds;
mod sizes;

use std::process::{ExitCode, exit};
use std::sync::atomic::Ordering;
use std::thread;
use std::time::Duration;

use call::{BEGUN, Calls, ENDED};
use generator::Random;

/// A call that takes longer has not ended, for us.
const BOUND: Duration = Duration::from_secs(10);

/// Ends the program where one call takes longer than the bound.
fn watch(seed: u64) {
    loop {
        let before = (BEGUN.load(Ordering::SeqCst), ENDED.load(Ordering::SeqCst));
        thread::sleep(BOUND);
        let after = (BEGUN.load(Ordering::SeqCst), ENDED.load(Ordering::SeqCst));
        if before == after && before.0 != before.1 {
            println!("Call {} of seed {seed} did not end in {BOUND:?}.", before.0);
            exit(1);
        }
    }
}

fn run(seed: u64, rounds: u64) -> Calls {
    let mut calls = Calls::default();
    calls.now("sizes".to_string());
    sizes::sizes(&mut calls);
    println!("sizes: {} calls", calls.count);
    for number in 0..rounds {
        let mut random = Random::new(seed ^ 0xb17e5, number);
        calls.now(format!("round {number} of seed {seed}"));
        for _ in 0..8 {
            kinds::random_bytes(&mut calls, &mut random);
            kinds::same_slice(&mut calls, &mut random);
        }
        kinds::damaged(&mut calls, &mut random, seed, number);
        if number % 10 == 0 {
            kinds::rooms(&mut calls, seed, number);
        }
    }
    calls
}

fn main() -> ExitCode {
    let given: Vec<Option<u64>> = std::env::args().skip(1).map(|word| word.parse().ok()).collect();
    let [Some(seed), Some(rounds)] = given[..] else {
        eprintln!("bytes SEED ROUNDS");
        return ExitCode::from(2);
    };
    thread::spawn(move || watch(seed));
    let calls = run(seed, rounds);
    let numbers: Vec<String> = calls.refused.iter().enumerate().map(|(number, count)| format!("{number}: {count}")).collect();
    println!("answered (0) and refused (1 to 13): {}", numbers.join(", "));
    println!("seed {seed}: {} calls, the slowest {} microseconds, {} faults", calls.count, calls.slowest.as_micros(), calls.faults);
    if calls.faults == 0 { ExitCode::SUCCESS } else { ExitCode::FAILURE }
}
