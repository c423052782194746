// The benchmark: the desk beside two rivals, answers compared and times told. `bench/run` builds and runs it.
mod calls;
mod cases;
mod compare;
mod desks;
mod memory;
mod plain;
mod program;
mod row;
mod runs;
mod table;
mod text;
mod timing;
mod wire;
mod written;

// Measures the cases whose group or name has some words in it, and prints a table.
fn table(rounds: usize, words: &str) {
    let mut cases = cases::all();
    cases.retain(|case| case.group.contains(words) || case.name.contains(words));
    let all = timing::measure(&cases, rounds);
    let mut group = "";
    for figures in &all {
        if figures.group != group {
            group = figures.group;
            table::head(group);
        }
        table::line(figures);
    }
    table::targets(&all);
}

fn contestant(name: &str) -> desks::Who {
    *desks::RIVALS
        .iter()
        .find(|w| w.name() == name)
        .expect("a contestant")
}

fn done(result: std::io::Result<()>) {
    if let Err(e) = result {
        eprintln!("{e}");
        std::process::exit(1);
    }
}

// Asks one contestant alone the calls of the cases that have some words in their name, for a profiler.
fn ask(who: &str, words: &str) {
    let who = contestant(who);
    for case in cases::all()
        .iter()
        .filter(|case| format!("{}: {}", case.group, case.name).contains(words))
    {
        println!(
            "{}: {}: {:.1} ns",
            case.group,
            case.name,
            timing::alone(case, who)
        );
    }
}

fn main() {
    let words: Vec<String> = std::env::args().skip(1).collect();
    match words.iter().map(String::as_str).collect::<Vec<_>>()[..] {
        ["compare"] => compare::compare(10_000, 200),
        ["table"] => table(15, ""),
        ["table", rounds, words] => table(rounds.parse().expect("how many rounds"), words),
        ["ask", who, words] => ask(who, words),
        ["memory", who] => memory::tell(contestant(who)),
        ["calls", path, lines] => done(text::write_calls(
            path,
            lines.parse().expect("how many lines"),
        )),
        ["program", desk, path, rounds] => {
            program::tell(desk, path, rounds.parse().expect("how many rounds"))
        }
        ["text", path] => done(text::answer(path)),
        ["copy", path] => done(text::copy(path)),
        _ => {
            eprintln!("bench/run says how this is run");
            std::process::exit(2);
        }
    }
}
