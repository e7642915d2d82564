//! The port's calls timed against the Rust that it replaces: the same sheets, the same process.

mod against;
mod calls;
mod greedy;
mod readme;
mod scan;
mod sheets;
mod table;
mod texts;
mod time;

use against::Archives;
use calls::{Measured, Timed};
use readme::Readme;
use std::env;
use std::process::ExitCode;
use time::AGAINST_RUST;

/// The tab size.
const TAB_SIZE: u32 = 2;

fn main() -> ExitCode {
    let arguments: Vec<_> = env::args().skip(1).collect();
    let arguments: Vec<_> = arguments.iter().map(String::as_str).collect();
    let done = match arguments[..] {
        // As `bench/against` calls it.
        ["against", places, only, ref objects @ ..] => {
            let places = places.parse().expect("a count of places");
            Archives::open(places, objects).map(|archives| archives.measure(only))
        }
        ["--table"] => {
            print!("{}", table::of(&measured("")));
            Ok(())
        }
        ["--table", only] => {
            print!("{}", table::of(&measured(only)));
            Ok(())
        }
        ["--readme"] => Readme::open().and_then(|readme| readme.with(&table::of(&measured("")))),
        _ => {
            against_rust(arguments.first().copied());
            Ok(())
        }
    };
    match done {
        Ok(()) => ExitCode::SUCCESS,
        Err(message) => {
            eprintln!("bench: {message}");
            ExitCode::FAILURE
        }
    }
}

/// The times of the sheets whose names have the word; says on the way which sheet is timed.
fn measured(only: &str) -> Vec<Measured> {
    let sheets = sheets::all().into_iter().filter(|named| named.name.contains(only));
    let timed = sheets.map(|named| {
        eprintln!("bench: {}", named.name);
        Measured::of(&named)
    });
    timed.collect()
}

/// Times the port against the Rust on the sheets and texts whose names have the word.
fn against_rust(only: Option<&str>) {
    println!("times in microseconds, of {} repeats", AGAINST_RUST.repeats);
    println!("ratios are port / Rust: of the medians, of the least");
    println!("halves: the slower half of the repeats by the faster, of the medians, of the least");
    let mut rows = Vec::new();
    for named in sheets::all() {
        if only.is_none_or(|only| named.name.contains(only)) {
            let row = Measured::of(&named);
            print(&row);
            rows.push(row);
        }
    }
    let of = |name: &str| rows.iter().find(|row| row.name == name);
    if let (Some(small), Some(full)) = (of("record-4KiB"), of("record-64KiB")) {
        println!("\ntime for a byte of record, record-64KiB / record-4KiB");
        for ((call, small_times), (_, full_times)) in small.calls().into_iter().zip(full.calls()) {
            let for_a_byte = |row: &Measured, times: Timed| times.port.median / row.record as f64;
            let growth = for_a_byte(full, full_times) / for_a_byte(small, small_times);
            println!("{call:18} {growth:6.2}");
        }
    }
    scan::measure(only);
}

/// Prints the times of a sheet.
fn print(row: &Measured) {
    let Measured { name, text, record, formatted, .. } = row;
    println!("\n{name}: text {text}, record {record}, formatted {formatted}");
    let head = ["median", "least", "greatest"].map(|name| format!("{name:>11}")).join(" ");
    println!("{:36} {head} {:>15}  {:>13}", "", "halves", "ratios");
    for (call, Timed { port, at_hand, decoded }) in row.calls() {
        let lines = [("port", port), ("Rust, tree at hand", at_hand), ("Rust, decoded", decoded)];
        for (at, (who, times)) in lines.into_iter().enumerate() {
            print!("{:36} {times}", format!("{call}: {who}"));
            print!(" {:8.2} {:6.2}", times.halves.median, times.halves.least);
            if at > 0 {
                print!("  {:6.2} {:6.2}", port.median / times.median, port.least / times.least);
            }
            println!();
        }
    }
}
