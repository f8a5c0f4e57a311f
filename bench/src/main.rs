//! Times the proved library's push, in both layouts of its tape, against the Rust module's, over the
//! areas of `areas.txt` or over a long run of such areas, and counts what a push does. First it
//! holds their records to each other.

#![deny(unsafe_code)]

mod areas;
mod callgrind;
mod capture;
mod counted;
mod counts;
mod entries;
mod loads;
mod long;
mod numbers;
mod progress;
mod pushers;
#[allow(unsafe_code)]
mod stores;
mod symbols;
mod table;
mod timing;
mod words;

use std::env;
use std::process::ExitCode;

use areas::areas;
use loads::{loads, packets};
use pushers::{Pushers, assert_alike};
use table::Row;
use timing::times;
use words::Command;

fn main() -> ExitCode {
    let words = env::args_os().skip(1);
    let words: Vec<String> = words.map(|word| word.to_string_lossy().into()).collect();
    match words::command(&words) {
        Ok(command) => {
            run(command);
            ExitCode::SUCCESS
        }
        Err(wrong) => {
            eprintln!("bench: {wrong}\n{}", words::USAGE);
            ExitCode::from(2)
        }
    }
}

/// Does what is asked for.
fn run(command: Command) {
    match command {
        Command::Table(size) => bench(size),
        Command::Counts => counts::print(),
        Command::Counted(pushes) => counted::push_first(pushes),
        Command::Long(count) => long::print(count),
    }
}

/// Times all over all loads, whose packets have at most `size` areas, and prints the table.
fn bench(size: usize) {
    let areas = areas();
    areas
        .iter()
        .for_each(|area| assert_alike(&area.name, area.input()));
    let count = areas.len();
    println!("{count} areas give the same records in the Rust and in both layouts of ours");
    println!("a packet has at most {size} of them");
    let loads = loads(&areas, size);
    let mut pushers = Pushers::with_room_for(&packets(&loads));
    println!("{}", table::HEAD);
    for load in &loads {
        println!("{}", Row::of(load, times(&load.packets, &mut pushers)));
    }
}

#[cfg(test)]
mod tests {
    use super::*;

    #[test]
    fn every_area_gives_the_same_records_in_all() {
        for area in areas() {
            assert_alike(&area.name, area.input());
        }
    }
}
