//! The times of `scan` against a greedy scanner in Rust, on the same texts at two lengths.

use crate::greedy;
use crate::texts::{all, Named};
use crate::time::{call, turns, Times, AGAINST_RUST};
use diverplume::record::limit;
use std::hint::black_box;

/// The lengths of the texts.
const LENGTHS: [usize; 2] = [4_096, limit::TEXT];

/// Times the texts whose names, with `scan-` before them, have the word, and prints the times.
pub fn measure(only: Option<&str>) {
    let is_taken =
        |text: &Named| only.is_none_or(|only| format!("scan-{}", text.name).contains(only));
    let [short, long] = LENGTHS.map(all);
    let texts: Vec<_> = short.iter().zip(&long).filter(|(text, _)| is_taken(text)).collect();
    if texts.is_empty() {
        return;
    }
    println!("\nscan: nanoseconds for a byte, the medians; ratios as above");
    println!("{:24} {:>6} {:>6} {:>8} {:>8}   ratios", "", "bytes", "tokens", "port", "Rust");
    for (short, long) in texts {
        let [of_short, of_long] = [short, long].map(for_a_byte);
        let growth = of_long / of_short;
        println!("{:24} longer / shorter, of the least: {growth:.2}", "");
    }
}

/// Times one text and prints its line. Gives the port's least nanoseconds for a byte.
fn for_a_byte(named_text: &Named) -> f64 {
    let (name, text) = (format!("scan-{}", named_text.name), &named_text.text[..]);
    let (mut output, mut of_greedy) = (vec![0; 4 * limit::TOKENS], vec![0; 4 * limit::TOKENS]);
    let written = diverplume::scan_into(text, &mut output).expect("a text with tokens");
    assert_eq!(greedy::scan(text, &mut of_greedy), Ok(written), "{name}");
    assert!(output == of_greedy, "{name}: the tokens differ");
    let mut calls = [
        call(|| {
            black_box(diverplume::scan_into(black_box(text), &mut output)).ok();
        }),
        call(|| {
            black_box(greedy::scan(black_box(text), &mut of_greedy)).ok();
        }),
    ];
    let times = turns(&mut calls, AGAINST_RUST);
    let [port, rust] = [0, 1].map(|at| Times::of(&times[at]));
    let [of_port, of_rust] = [port, rust].map(|times| times.median / text.len() as f64);
    println!(
        "{name:24} {:6} {:6} {of_port:8.2} {of_rust:8.2}  {:6.2} {:6.2}",
        text.len(),
        written / 4,
        port.median / rust.median,
        port.least / rust.least
    );
    port.least / text.len() as f64
}
