// The figures as a table in Markdown.
use crate::desks::{RIVALS, Who};
use crate::timing::{Figures, Spread};

pub fn time(ns: f64) -> String {
    let (value, unit) = match ns {
        _ if ns < 1e3 => (ns, "ns"),
        _ if ns < 1e6 => (ns / 1e3, "µs"),
        _ => (ns / 1e6, "ms"),
    };
    match value {
        _ if value < 10.0 => format!("{value:.2} {unit}"),
        _ if value < 100.0 => format!("{value:.1} {unit}"),
        _ => format!("{value:.0} {unit}"),
    }
}

fn short(ratio: f64) -> String {
    match ratio {
        _ if ratio < 0.0095 => format!("{ratio:.1e}"),
        _ => format!("{ratio:.2}"),
    }
}

fn ratio(spread: &Spread) -> String {
    format!(
        "{} ({}..{})",
        short(spread.median),
        short(spread.quarter),
        short(spread.three)
    )
}

pub fn head(group: &str) {
    let mut names: Vec<String> = RIVALS.iter().map(|w| w.name().to_string()).collect();
    names.extend(RIVALS[1..].iter().map(|w| format!("desk / {}", w.name())));
    println!("\n| {group} | {} |", names.join(" | "));
    println!("|---|{}", "---|".repeat(names.len()));
}

pub fn line(figures: &Figures) {
    let mut cells: Vec<String> = RIVALS.iter().map(|w| time(figures.time(*w))).collect();
    cells.extend(RIVALS[1..].iter().map(|w| ratio(&figures.ratio(*w))));
    println!("| {} | {} |", figures.name, cells.join(" | "));
}

// What is to be reached, and by how much it is.
pub fn targets(all: &[Figures]) {
    let within: Vec<&Figures> = all
        .iter()
        .filter(|f| f.ratio(Who::Plain).median <= 1.2)
        .collect();
    println!(
        "\nWithin 1.2 of plain Rust: {} of {}.",
        within.len(),
        all.len()
    );
    let find = |group: &str, name: &str| {
        all.iter()
            .find(|f| f.group == group && f.name.ends_with(name))
    };
    for group in ["entering", "a cell"] {
        if let (Some(short), Some(long)) = (find(group, " of 100"), find(group, " of 16777216")) {
            println!(
                "{group}: at 16,777,216 threads {:.2} of what it takes at 100.",
                long.time(Who::Desk) / short.time(Who::Desk)
            );
        }
    }
    for part in all.iter().filter(|f| f.group == "a part of 1,024 cells") {
        if let Some(cell) = all
            .iter()
            .find(|f| f.group == "a cell" && f.name == part.name)
        {
            println!(
                "1,024 cells, {}: {:.1} times as fast as one by one.",
                part.name,
                1024.0 * cell.time(Who::Desk) / part.time(Who::Desk)
            );
        }
    }
}
