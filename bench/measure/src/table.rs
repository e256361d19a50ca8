//! Lines of tables in Markdown.
use crate::answer::Answer;
use crate::timing::Medians;
use std::time::Duration;

/// The head of a table: its first columns, and those of the times.
pub fn head(columns: &[&str]) {
    let times = [
        "ours median",
        "plain median",
        "ratio",
        "ratio of the shortest",
    ];
    let columns: Vec<&str> = columns.iter().chain(&times).copied().collect();
    println!("\n| {} |", columns.join(" | "));
    println!("|{}", "---|".repeat(columns.len()));
}

/// In microseconds or milliseconds, with three figures.
fn told(time: Duration) -> String {
    let micros = time.as_secs_f64() * 1e6;
    match micros {
        _ if micros < 10.0 => format!("{micros:.2} µs"),
        _ if micros < 100.0 => format!("{micros:.1} µs"),
        _ if micros < 1000.0 => format!("{micros:.0} µs"),
        _ if micros < 10_000.0 => format!("{:.2} ms", micros / 1e3),
        _ if micros < 100_000.0 => format!("{:.1} ms", micros / 1e3),
        _ => format!("{:.0} ms", micros / 1e3),
    }
}

fn times(medians: Medians) -> String {
    let (ours, plain) = (told(medians.ours), told(medians.plain));
    let (ratio, shortest) = (medians.ratio(), medians.ratio_of_shortest());
    format!("{ours} | {plain} | {ratio:.2} | {shortest:.2}")
}

pub fn compared(name: &str, medians: Medians) {
    println!("| {name} | {} |", times(medians));
}

pub fn grown(name: &str, answer: Answer, medians: Medians) {
    let Answer::Planned { rounds, looks } = answer else {
        unreachable!("a day that grows is planned");
    };
    println!("| {name} | {rounds} | {looks} | {} |", times(medians));
}
