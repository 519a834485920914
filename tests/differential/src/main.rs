//! Compares the library with a second implementation of it, the model, over millions of calls on random input.

mod arguments;
mod cases;
mod compare;
mod laws;
mod make;
mod model;
mod operation;
mod progress;
mod random;
mod report;

use arguments::Arguments;
use operation::Table;
use progress::Progress;
use std::process::ExitCode;
use std::sync::atomic::{AtomicU64, Ordering};
use std::thread;

/// Cases come in rounds. A run ends with the round in which the calls asked for are reached, so that what is compared
/// depends on the seed alone and not on the threads.
const ROUND: u64 = 1000;

/// After so many differences a run ends early.
const ENOUGH: u64 = 10;

/// A call of the library takes less than 1 MB of stack.
const STACK: usize = 16 << 20;

fn main() -> ExitCode {
    let arguments = match Arguments::parse(std::env::args().skip(1)) {
        Ok(arguments) => arguments,
        Err(text) => {
            eprintln!("{text}");
            return ExitCode::from(2);
        }
    };
    let run = match arguments.case {
        Some(case) => one_case(&arguments, case),
        None => all_cases(&arguments),
    };
    let missing = if arguments.case.is_some() { Vec::new() } else { run.table.never_seen() };
    run.table.print();
    missing.iter().for_each(|text| println!("{text}"));
    println!("{} calls compared, {} differ (seed {})", run.table.calls(), run.differ, arguments.seed);
    if run.differ == 0 && missing.is_empty() {
        ExitCode::SUCCESS
    } else {
        ExitCode::FAILURE
    }
}

#[derive(Default)]
struct Run {
    table: Table,
    differ: u64,
}

impl Run {
    fn add(&mut self, other: &Run) {
        self.table.add(&other.table);
        self.differ += other.differ;
    }
}

fn one_case(arguments: &Arguments, case: u64) -> Run {
    let next = AtomicU64::new(case);
    round(arguments, &next, case + 1)
}

fn all_cases(arguments: &Arguments) -> Run {
    let mut run = Run::default();
    let mut progress = Progress::new(arguments.calls);
    let next = AtomicU64::new(0);
    let mut end = 0;
    while run.table.calls() < arguments.calls && run.differ < ENOUGH {
        end += ROUND;
        next.store(end - ROUND, Ordering::Relaxed);
        run.add(&round(arguments, &next, end));
        progress.show(run.table.calls());
    }
    progress.end();
    run
}

/// Runs the cases up to an end, each on whichever thread is free.
fn round(arguments: &Arguments, next: &AtomicU64, end: u64) -> Run {
    thread::scope(|scope| {
        let start = || {
            let work = || worker(arguments, next, end);
            thread::Builder::new().stack_size(STACK).spawn_scoped(scope, work).expect("a thread")
        };
        let workers: Vec<_> = (0..arguments.threads).map(|_| start()).collect();
        let mut run = Run::default();
        for worker in workers {
            run.add(&worker.join().expect("a thread's result"));
        }
        run
    })
}

fn worker(arguments: &Arguments, next: &AtomicU64, end: u64) -> Run {
    let mut run = Run::default();
    loop {
        let case = next.fetch_add(1, Ordering::Relaxed);
        if case >= end {
            return run;
        }
        // A case that stops, in a sum that wraps or an index out of range, is a difference like any other.
        match std::panic::catch_unwind(|| cases::run(arguments.seed, case)) {
            Ok(compare) => {
                run.table.add(&compare.table);
                run.differ += compare.differences.len() as u64;
                report::differences(arguments.seed, case, &compare.differences);
            }
            Err(_) => {
                run.differ += 1;
                println!("\nseed {} case {case} stopped on the way", arguments.seed);
            }
        }
    }
}
