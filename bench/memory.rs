// What a contestant needs: the memory that it asks for, and the peak of a process that has it.
use crate::calls::*;
use crate::cases::of_length;
use crate::desks::{AnyDesk, Who, words_for};
use crate::wire::ROOM;

const LONGEST: u32 = 16_777_216;

// The most that the process has had, in bytes.
fn peak() -> usize {
    let status = std::fs::read_to_string("/proc/self/status").expect("Linux tells it");
    let line = status.lines().find(|line| line.starts_with("VmHWM:"));
    let words = line.and_then(|line| line.split_whitespace().nth(1));
    1024 * words
        .and_then(|kb| kb.parse::<usize>().ok())
        .expect("a number")
}

// A desk that can undo eight changes: rows of 16,777,216 threads are entered, and all is asked.
pub fn tell(who: Who) {
    let before = peak();
    let limits = [64, 64, 8];
    let mut desk = AnyDesk::open(who, limits);
    let mut answer = [0; ROOM];
    for n in 0..8 {
        desk.call(&thread(of_length(LONGEST - 4 * n)), &mut answer);
        desk.call(&treadle(of_length(LONGEST - 4 * n)), &mut answer);
        desk.call(&part(n, n, 1024), &mut answer);
        for question in questions() {
            desk.call(&question, &mut answer);
        }
    }
    let most = peak() - before;
    let asked = match &desk {
        AnyDesk::Plain(desk) => desk.bytes(),
        AnyDesk::Written(desk) => desk.bytes(),
        _ => 8 * words_for(limits),
    };
    println!(
        "| {} | {} | {} KiB |",
        who.name(),
        asked.div_ceil(8),
        most / 1024
    );
}
