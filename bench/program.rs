// The program `desk` over a file of calls, beside the plain rival as a program, and what reading and writing alone take.
use crate::desks::Who;
use crate::table::time;
use crate::text::calls_in;
use crate::timing::{Case, alone};
use std::process::{Command, Stdio};

#[repr(C)]
#[derive(Default)]
struct Usage {
    user: [i64; 2],
    system: [i64; 2],
    others: [i64; 14],
}

unsafe extern "C" {
    fn getrusage(who: i32, usage: *mut Usage) -> i32;
}

// The time that processes that ended have had, in nanoseconds.
fn ended() -> f64 {
    const CHILDREN: i32 = -1;
    let mut usage = Usage::default();
    // C's `struct rusage` of Linux on 64 bits has just these fields.
    unsafe { getrusage(CHILDREN, &mut usage) };
    let seconds = usage.user[0] + usage.system[0];
    let micros = usage.user[1] + usage.system[1];
    1e9 * seconds as f64 + 1e3 * micros as f64
}

fn took(words: &[&str]) -> f64 {
    let before = ended();
    let mut command = Command::new(words[0]);
    let status = command.args(&words[1..]).stdout(Stdio::null()).status();
    assert!(status.is_ok_and(|s| s.success()), "{words:?} failed");
    ended() - before
}

// The median of several runs, turn by turn.
fn medians(commands: &[Vec<&str>], rounds: usize) -> Vec<f64> {
    let mut all = vec![vec![]; commands.len()];
    for _ in 0..rounds {
        for (times, words) in all.iter_mut().zip(commands) {
            times.push(took(words));
        }
    }
    let median = |mut times: Vec<f64>| {
        times.sort_by(f64::total_cmp);
        times[times.len() / 2]
    };
    all.into_iter().map(median).collect()
}

pub fn tell(desk: &str, path: &str, rounds: usize) {
    let me = std::env::current_exe().expect("its own path");
    let me = me.to_str().expect("a path in UTF-8");
    let commands = [
        vec![desk, path],
        vec![me, "text", path],
        vec![me, "copy", path],
    ];
    let names = [
        "the program `desk`",
        "the plain rival as a program",
        "copying the file by lines",
    ];
    let outputs = |words: &[&str]| {
        Command::new(words[0])
            .args(&words[1..])
            .output()
            .expect("it runs")
            .stdout
    };
    assert!(
        outputs(&commands[0]) == outputs(&commands[1]),
        "both print the same"
    );
    println!("\n| a file of 100,000 calls | processor time |\n|---|---|");
    for (name, median) in names.iter().zip(medians(&commands, rounds)) {
        println!("| {name} | {} |", time(median));
    }
    for who in [Who::Desk, Who::Plain] {
        let case = Case {
            group: "",
            name: String::new(),
            limits: [16, 16, 8],
            setup: vec![],
            before: vec![],
            calls: calls_in(path).expect("the file is there"),
            each: 1,
        };
        println!(
            "| its calls alone, as bytes, {} | {} |",
            who.name(),
            time(alone(&case, who))
        );
    }
}
