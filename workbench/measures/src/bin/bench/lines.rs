//! The lines of the tables.

use crate::measure::{Measured, Spread, Who};

/// A ratio with two digits or more that count.
fn ratio_text(ratio: f64) -> String {
    let decimals = match ratio {
        _ if ratio < 0.1 => 4,
        _ if ratio < 10.0 => 2,
        _ => 1,
    };
    format!("{ratio:.decimals$}")
}

/// A time with one decimal and its unit.
fn time_text(seconds: f64) -> String {
    let (value, unit) = match seconds {
        _ if seconds < 1e-6 => (seconds * 1e9, "ns"),
        _ if seconds < 1e-3 => (seconds * 1e6, "us"),
        _ => (seconds * 1e3, "ms"),
    };
    format!("{value:.1} {unit}")
}

/// A column of times, empty where nothing was measured.
fn time_column(time: Option<f64>) -> String {
    format!("{:>9}", time.map_or(String::new(), time_text))
}

/// A column of ratios: the middle one, and the middle half.
fn ratio_column(spread: Option<Spread>) -> String {
    let text = spread.map_or(Default::default(), |spread| {
        let half = spread.quarters.map(ratio_text).join("-");
        [ratio_text(spread.middle), half]
    });
    format!("{:>6} {:<13}", text[0], text[1])
}

/// The head of a table with the given rivals.
pub fn head(rivals: &[Who]) {
    let mut line = format!("{:<8} {:>9}", "call", "library");
    for rival in rivals {
        line += &format!(
            " | {:>9} {:>6} {:<13}",
            rival.name(),
            "ratio",
            "middle half"
        );
    }
    if rivals.contains(&Who::Fast) {
        line += &format!(" | {:>6} {}", "best", "middle half");
    }
    println!("{}", line.trim_end());
}

/// The line of a call.
pub fn line(call: &str, measured: &Measured, rivals: &[Who]) -> String {
    let mut line = format!("{call:<8} {}", time_column(measured.time(Who::Library)));
    for &rival in rivals {
        let (time, ratio) = (measured.time(rival), measured.ratio(rival));
        line += &format!(" | {} {}", time_column(time), ratio_column(ratio));
    }
    if rivals.contains(&Who::Fast) {
        line += &format!(" | {}", ratio_column(measured.ratio_to_best()));
    }
    line
}

/// Prints the line of a call.
pub fn show(call: &str, measured: &Measured, rivals: &[Who]) {
    println!("{}", line(call, measured, rivals).trim_end());
}
