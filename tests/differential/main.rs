//! Gives the same inputs to the library and to a second implementation of its rules. Compares every reply and all lent memory.
//!
//! Built with `rustc --edition 2021 -O -L FOLDER -l static=dagglehurst main.rs -o differential`; FOLDER holds the library.
//! `differential short` runs fixed cases. `differential long [SEED] [SECONDS]` goes on with others.

mod broken;
mod circle;
mod compare;
mod coverage;
mod exhaustive;
mod grids;
mod lent;
mod library;
mod lists;
mod memory;
mod meridian;
mod meridian_marks;
mod model;
mod model_text;
mod order;
mod order_marks;
mod order_rule;
mod paper;
mod pieces;
mod points;
mod random;
mod run;
mod signs;
mod texts;
mod ties;

use std::time::Duration;

fn main() {
    let arguments: Vec<String> = std::env::args().skip(1).collect();
    let number = |place: usize| arguments.get(place).map(|text| text.parse::<u64>().expect("SEED and SECONDS are whole numbers"));
    let bench = match arguments.first().map(String::as_str) {
        Some("short") => run::short(),
        Some("long") => {
            let seed = number(1).unwrap_or(run::SEED);
            run::long(seed, Duration::from_secs(number(2).unwrap_or(600)))
        }
        _ => {
            println!("usage: differential short | differential long [SEED] [SECONDS]");
            std::process::exit(2);
        }
    };
    let missing = bench.coverage.missing();
    for what in &missing {
        println!("differential: no case reached {what}");
    }
    if !missing.is_empty() {
        std::process::exit(1);
    }
    println!("differential: {} comparisons, all alike; every refusal reached", bench.comparisons);
}
