//! Compares S, an exact model and the port on texts. `oracle/run` builds and starts this.

#[cfg(any(without_s, not(port)))]
mod absent;
mod bench;
mod classes;
#[path = "../common/mod.rs"]
mod common;
mod compare;
mod division;
mod format;
mod model;
mod natural;
mod near;
mod original;
mod pages;
mod picks;
mod port;
mod runs;
mod sample;
mod scan;
mod texts;

use classes::Class;
use common::random;
use compare::Tally;
use runs::{Effort, RUNS};
use std::process::exit;
use std::time::Instant;

fn main() {
    let (effort, names) = arguments();
    match names.iter().map(String::as_str).collect::<Vec<_>>()[..] {
        ["bench"] => bench::bench(effort.seed),
        ["sample", "text"] => sample::text_sample(effort.seed),
        ["sample", "log10"] => sample::log10_sample(effort.seed),
        _ => compare_all(&effort, &names),
    }
}

/// Makes the runs named, and ends with the count.
fn compare_all(effort: &Effort, names: &[String]) -> ! {
    let all = names.iter().any(|name| name == "all");
    let unknown =
        names.iter().find(|name| *name != "all" && *name != "pages" && RUNS.iter().all(|(known, _)| known != name));
    if let Some(unknown) = unknown {
        usage(&format!("no run is called {unknown}"));
    }
    original::hide_panics_of_s();
    let mut total = Tally::default();
    measured("pages", &mut total, |tally| {
        tally.witnesses();
        tally.telling_texts();
    });
    for (name, run) in RUNS {
        if all || names.iter().any(|wanted| wanted == name) {
            measured(name, &mut total, |tally| run(tally, effort));
        }
    }
    report(&mut total, all);
    total.answers.close()
}

fn arguments() -> (Effort, Vec<String>) {
    let mut effort = Effort { times: 1, seed: 1, longest: 6 };
    let mut names = Vec::new();
    let mut arguments = std::env::args().skip(1);
    while let Some(argument) = arguments.next() {
        match argument.as_str() {
            "--effort" => effort.times = number(arguments.next()),
            "--seed" => effort.seed = number(arguments.next()),
            // below 3 nothing would be left of some runs
            "--longest" => effort.longest = number(arguments.next()).max(3) as usize,
            _ => names.push(argument),
        }
    }
    if names.is_empty() {
        usage("name a run");
    }
    (effort, names)
}

fn number(argument: Option<String>) -> u64 {
    argument.and_then(|argument| argument.parse().ok()).unwrap_or_else(|| usage("a number is wanting"))
}

fn usage(fault: &str) -> ! {
    let names: Vec<&str> = RUNS.iter().map(|(name, _)| *name).collect();
    eprintln!(
        "{fault}\nruns: all pages {}\nothers: bench, sample text, sample log10\noptions: --effort N, --seed N, --longest N",
        names.join(" ")
    );
    exit(2)
}

fn measured(name: &str, total: &mut Tally, run: impl FnOnce(&mut Tally)) {
    let (start, texts, compared, failed) = (Instant::now(), total.texts, total.compared(), total.answers.failed);
    run(total);
    println!(
        "{name}: {} texts, {} answers compared, {} failed, {:.1} s",
        total.texts - texts,
        total.compared() - compared,
        total.answers.failed - failed,
        start.elapsed().as_secs_f64()
    );
}

/// The classes met. After all runs, each must have been met: one that no longer occurs should leave the list.
fn report(total: &mut Tally, all: bool) {
    for class in Class::ALL {
        let count = total.in_class[class as usize];
        match &total.smallest[class as usize] {
            Some((text, reader, format)) => {
                let text = String::from_utf8_lossy(text);
                println!("class {class:?}: {count} differences, the shortest text `{text}` {reader:?} {format:?}");
            }
            None if all && cfg!(not(without_s)) => {
                total.answers.see(false, || format!("class {class:?} no longer occurs"));
            }
            None => {}
        }
    }
}
