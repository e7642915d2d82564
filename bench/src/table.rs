//! The times as tables in Markdown. A cell has the least of the turns, and in brackets the median.

use crate::calls::{Measured, Timed};
use crate::time::{Halves, Plan, Times, AGAINST_RUST};
use std::fs;
use std::thread::available_parallelism;

/// The tables of these sheets: formatting, then lookups, and how they were taken.
pub fn of(rows: &[Measured]) -> String {
    let formatting = formatting(rows);
    let lookups = lookups(rows);
    format!("{formatting}\n{lookups}\n{}", taken(rows))
}

fn formatting(rows: &[Measured]) -> String {
    let head = [
        "sheet",
        "`get`, µs",
        "Rust's `get`, µs",
        "`get` / Rust's",
        "/ decode and `get`",
        "`check`, µs",
        "`check` / Rust's",
        "/ decode and `check`",
        "halves",
    ];
    table(&head, rows, |row| {
        let Measured { get, check, .. } = row;
        let at_hand = micros(get.at_hand);
        let mut cells = vec![micros(get.port), at_hand, by_at_hand(*get), by_decoded(*get)];
        cells.extend([micros(check.port), by_at_hand(*check), by_decoded(*check)]);
        cells.push(halves(&[*get, *check]));
        cells
    })
}

fn lookups(rows: &[Measured]) -> String {
    let head = [
        "sheet",
        "`comment_above`, µs",
        "Rust's, µs",
        "/ decode and it",
        "`doc_comment_above`, µs",
        "Rust's, µs",
        "/ decode and it",
        "halves",
    ];
    table(&head, rows, |row| {
        let calls = [row.comment_above, row.doc_comment_above];
        let each = |call: Timed| [micros(call.port), micros(call.at_hand), by_decoded(call)];
        let cells = calls.into_iter().flat_map(each);
        cells.chain([halves(&calls)]).collect()
    })
}

/// A table with a row for each sheet, its name first.
fn table(head: &[&str], rows: &[Measured], cells: impl Fn(&Measured) -> Vec<String>) -> String {
    let mut lines = format!("| {} |\n|{}\n", head.join(" | "), "---|".repeat(head.len()));
    for row in rows {
        lines += &format!("| `{}` | {} |\n", row.name, cells(row).join(" | "));
    }
    lines
}

fn micros(times: Times) -> String {
    let micro = |nanos: f64| digits(nanos / 1_000.0);
    format!("{} ({})", micro(times.least), micro(times.median))
}

fn by_at_hand(call: Timed) -> String {
    ratio(call.port, call.at_hand)
}

fn by_decoded(call: Timed) -> String {
    ratio(call.port, call.decoded)
}

fn ratio(port: Times, rust: Times) -> String {
    format!("{} ({})", digits(port.least / rust.least), digits(port.median / rust.median))
}

/// How far the halves of the turns are apart, for that time of these calls that moved most.
fn halves(calls: &[Timed]) -> String {
    let Halves { least, median } = apart(calls);
    format!("{least:.2} ({median:.2})")
}

fn apart(calls: &[Timed]) -> Halves {
    let times = calls.iter().flat_map(|call| [call.port, call.at_hand, call.decoded]);
    times.fold(Halves { least: 1.0, median: 1.0 }, |most, Times { halves, .. }| Halves {
        least: most.least.max(halves.least),
        median: most.median.max(halves.median),
    })
}

/// Three or more digits, in thousands.
fn digits(value: f64) -> String {
    match value {
        ..0.1 => format!("{value:.3}"),
        ..10.0 => format!("{value:.2}"),
        ..100.0 => format!("{value:.1}"),
        _ => thousands(&format!("{value:.0}")),
    }
}

/// The digits of a whole number with a comma before every three.
fn thousands(digits: &str) -> String {
    let behind = |at: usize| digits.len() - at;
    let comma = |at: usize| at > 0 && behind(at).is_multiple_of(3);
    let each = |(at, digit)| [comma(at).then_some(','), Some(digit)];
    digits.chars().enumerate().flat_map(each).flatten().collect()
}

/// How the times were taken, and how far a time moved by itself.
fn taken(rows: &[Measured]) -> String {
    let Plan { repeats, turn } = AGAINST_RUST;
    let calls = rows.iter().flat_map(Measured::calls);
    let halves: Vec<_> = calls.map(|(_, call)| apart(&[call])).collect();
    format!(
        "Of {repeats} turns of at least {} ms{}, by the processor's time of the thread. \
         The halves of the turns differ by a factor of {}, their medians by {}.\n",
        turn.as_millis(),
        machine(),
        middle_and_worst(halves.iter().map(|halves| halves.least)),
        middle_and_worst(halves.iter().map(|halves| halves.median))
    )
}

fn middle_and_worst(factors: impl Iterator<Item = f64>) -> String {
    let mut factors: Vec<_> = factors.collect();
    factors.sort_by(f64::total_cmp);
    let [middle, worst] = [factors.len() / 2, factors.len().saturating_sub(1)]
        .map(|at| factors.get(at).copied().unwrap_or(1.0));
    format!("{middle:.2} for the middle call and {worst:.2} for the worst")
}

/// The processor, where the system tells it.
fn machine() -> String {
    let told = fs::read_to_string("/proc/cpuinfo").unwrap_or_default();
    let name = told.lines().find_map(|line| line.strip_prefix("model name")?.split_once(": "));
    let count = available_parallelism().map_or(1, usize::from);
    name.map_or_else(String::new, |(_, name)| format!(" on {count} processors ({name})"))
}

#[cfg(test)]
mod tests {
    use super::{digits, thousands};

    #[test]
    fn numbers_have_three_digits_or_more() {
        let written = [0.0214, 0.466, 9.994, 34.06, 999.4, 42_165.3].map(digits);
        assert_eq!(written, ["0.021", "0.47", "9.99", "34.1", "999", "42,165"]);
        assert_eq!(
            ["1", "12", "123", "1234", "1234567"].map(thousands).join(" "),
            "1 12 123 1,234 1,234,567"
        );
    }
}
