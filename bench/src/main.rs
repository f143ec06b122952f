//! Runs the port and the Rust original on the same jobs, compares their answers, and measures.
//! Usage: bench time [BEGINNING]       compares the answers in each case, or in those whose names begin so, and prints for each:
//!                                     name, unit, units, the original's nanoseconds and the port's
//!        bench original|port NAME     one side's job in one case, for callgrind

mod cases;
mod job;
mod library;
mod writer;

/// The two sides of document 01's box.
#[path = "."]
mod document_01 {
    use crate::library::document_01 as library;
    use oracle as source;

    pub mod original;
    pub mod port;
}

/// The same files for the box of the present rules.
#[path = "."]
mod document_02 {
    use crate::library::document_02 as library;
    use present as source;

    pub mod original;
    pub mod port;
}

use std::time::{Duration, Instant};

use cases::{Case, Rules};
use job::{Answer, Job, Script, run};

/// For each case, and no fewer rounds than this.
const TIME: Duration = Duration::from_millis(1500);
const ROUNDS: usize = 15;

type Do = fn(&Job, &Script, &mut Answer);

/// The original's and the port's side of a box.
fn sides(rules: Rules) -> [Do; 2] {
    match rules {
        Rules::Document01 => [
            run::<document_01::original::Original>,
            run::<document_01::port::Port>,
        ],
        Rules::Document02 => [
            run::<document_02::original::Original>,
            run::<document_02::port::Port>,
        ],
    }
}

// Callgrind knows the two by these names.

#[unsafe(no_mangle)]
#[inline(never)]
extern "C" fn bench_original(case: &Case, answer: &mut Answer) {
    sides(case.rules)[0](&case.job, &case.script, answer);
}

#[unsafe(no_mangle)]
#[inline(never)]
extern "C" fn bench_port(case: &Case, answer: &mut Answer) {
    sides(case.rules)[1](&case.job, &case.script, answer);
}

type Run = extern "C" fn(&Case, &mut Answer);

/// The least time of a run so far, and this one's.
fn timed(run: Run, case: &Case, answer: &mut Answer, least: &mut Duration) {
    let begun = Instant::now();
    run(case, answer);
    *least = begun.elapsed().min(*least);
}

/// Once each: the answers are the same and tell something.
fn compare_job(case: &Case, job: &Job) {
    let [original, port] = sides(case.rules).map(|side| {
        let mut answer = Answer::to(job);
        side(job, &case.script, &mut answer);
        answer
    });
    assert!(original == port, "{}: answers differ", case.name);
    assert!(original.is_telling(), "{}: silence", case.name);
}

/// Requests alone answer little, so what then sounds is compared too.
fn compare(case: &Case) {
    compare_job(case, &case.job);
    if let Job::Play(_) = case.job {
        compare_job(case, &Job::Mono(2048));
    }
}

/// The least times of both. They take turns, so that what else runs on the machine meets both.
fn time(case: &Case) -> [Duration; 2] {
    let mut answer = Answer::to(&case.job);
    let mut least = [Duration::MAX; 2];
    let begun = Instant::now();
    for round in 0.. {
        if round >= ROUNDS && begun.elapsed() > TIME {
            break;
        }
        timed(bench_original, case, &mut answer, &mut least[0]);
        timed(bench_port, case, &mut answer, &mut least[1]);
    }
    least
}

fn main() {
    let mut words = std::env::args().skip(1);
    let command = words.next().unwrap_or_default();
    let name = words.next().unwrap_or_default();
    // a name may begin another, and one job is to be counted alone
    let is_asked = |case: &&Case| match command.as_str() {
        "time" => case.name.starts_with(&name),
        _ => case.name == name,
    };
    for case in cases::all().iter().filter(is_asked) {
        match command.as_str() {
            "time" => {
                compare(case);
                let [original, port] = time(case).map(|t| t.as_nanos());
                println!(
                    "{}\t{}\t{}\t{original}\t{port}",
                    case.name, case.unit, case.units
                );
            }
            "original" => bench_original(case, &mut Answer::to(&case.job)),
            "port" => bench_port(case, &mut Answer::to(&case.job)),
            _ => panic!("usage: bench time [BEGINNING] | original NAME | port NAME"),
        }
    }
}
