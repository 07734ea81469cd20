//! `std_locks WORK THREADS ROUNDS`: the rounds of `lock_rounds`, with std's `RwLock` and `Mutex` in place of the proved locks.

use std::env;
use std::hint::black_box;
use std::process::ExitCode;
use std::sync::{Mutex, RwLock};
use std::thread;

/// What a thread does in its rounds.
#[derive(Clone, Copy)]
enum Work {
    /// It writes in one of so many rounds, and reads in the others. With 0 it only reads.
    Share { one_write_in: u64 },
    Jobs,
}

fn named(name: &str) -> Option<Work> {
    match name {
        "reads" => Some(Work::Share { one_write_in: 0 }),
        "reads95" => Some(Work::Share { one_write_in: 20 }),
        "reads50" => Some(Work::Share { one_write_in: 2 }),
        // There is no upgrade in std: who may write takes the lock for writing.
        "writes" | "upgrades" => Some(Work::Share { one_write_in: 1 }),
        "jobs" => Some(Work::Jobs),
        _ => None,
    }
}

fn play(work: Work, rounds: u64, shared: &RwLock<u64>, counter: &Mutex<u64>) {
    for round in 0..rounds {
        match work {
            Work::Share { one_write_in } if one_write_in == 0 || round % one_write_in != 0 => {
                black_box(*shared.read().unwrap());
            }
            Work::Share { .. } => *shared.write().unwrap() += 1,
            Work::Jobs => *counter.lock().unwrap() += 1,
        }
    }
}

fn plan() -> Option<(Work, u64, u64)> {
    let mut words = env::args().skip(1);
    let work = named(&words.next()?)?;
    let threads = words.next()?.parse().ok()?;
    let rounds = words.next()?.parse().ok()?;
    Some((work, threads, rounds))
}

fn main() -> ExitCode {
    let Some((work, threads, rounds)) = plan() else {
        eprintln!("std_locks reads|reads95|reads50|writes|upgrades|jobs THREADS ROUNDS");
        return ExitCode::from(2);
    };
    let (shared, counter) = (RwLock::new(0), Mutex::new(0));
    thread::scope(|scope| {
        for _ in 0..threads {
            scope.spawn(|| play(work, rounds, &shared, &counter));
        }
    });
    black_box((shared, counter));
    ExitCode::SUCCESS
}
