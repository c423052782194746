// The contestants' answers compared, byte by byte: drafts and calls by chance.
use crate::calls::*;
use crate::desks::{AnyDesk, RIVALS};
use crate::wire::ROOM;

// A row by chance of about so many threads; now and then a number that is not there, or a repeat of none.
fn any_row(chance: &mut Chance, limit: u32, threads: u32, deep: u32) -> Row {
    let n = |chance: &mut Chance| {
        let beyond = u32::from(chance.once_in(400));
        chance.below(limit) + beyond * limit
    };
    if threads <= 1 || deep == 0 {
        return one(n(chance));
    }
    match chance.below(8) {
        0 => one(n(chance)),
        1 | 2 => {
            let from = n(chance);
            let by = chance.below(threads);
            let to = if chance.once_in(2) {
                from.saturating_sub(by)
            } else {
                from.max((from + by).min(limit - 1))
            };
            run(from, to)
        }
        3 => {
            let times_over = 1 + chance.below(threads.min(5));
            let repeat = if chance.once_in(300) { 0 } else { times_over };
            times(
                repeat,
                any_row(chance, limit, threads / times_over, deep - 1),
            )
        }
        4 => turned(any_row(chance, limit, threads, deep - 1)),
        _ => {
            let first = 1 + chance.below(threads - 1);
            let a = any_row(chance, limit, first, deep - 1);
            then(a, any_row(chance, limit, threads - first, deep - 1))
        }
    }
}

// A row that is very long, up to the most that is taken and a little more.
fn long_row(chance: &mut Chance, limit: u32) -> Row {
    let inner = any_row(chance, limit, 1 + chance.0 as u32 % 8, 3);
    let most = 24 - chance.below(8).min(6);
    let mut row = inner;
    let mut bits = 0;
    while bits < most {
        let more = 1 + chance.below(most - bits);
        row = times(1 << more, row);
        bits += more;
        if chance.once_in(3) {
            row = turned(row);
        }
    }
    if chance.once_in(2) {
        row = then(row, any_row(chance, limit, 4, 2));
    }
    row
}

// Bytes that are no call, mostly.
fn spoiled(chance: &mut Chance, mut call: Vec<u8>) -> Vec<u8> {
    match chance.below(4) {
        0 => call.truncate(chance.below(call.len() as u32 + 1) as usize),
        1 => call.push(chance.next() as u8),
        2 if !call.is_empty() => {
            let at = chance.below(call.len() as u32) as usize;
            call[at] = chance.next() as u8;
        }
        _ => {
            call = (0..chance.below(12))
                .map(|_| chance.next() as u8 % 10)
                .collect()
        }
    }
    call
}

// Rows at the limits of what can be read and taken.
fn edge_row(chance: &mut Chance) -> Row {
    let deep = [30, 31, 32, 253, 254, 255, 256][chance.below(7) as usize];
    let numbers = [127, 128, 129, 512, 513][chance.below(5) as usize];
    match chance.below(4) {
        0 => (0..deep).fold(one(0), |row, _| turned(row)),
        1 => (0..deep).fold(one(0), |row, _| then(row, one(0))),
        2 => halves(&vec![one(0); numbers]),
        _ => turned(halves(&vec![run(0, 0); numbers])),
    }
}

fn any_call(chance: &mut Chance, limits: [u32; 3], threads: u32) -> Vec<u8> {
    let [shafts, treadles, _] = limits;
    let place = |chance: &mut Chance| match chance.below(3) {
        0 => chance.next() as u32,
        _ => chance.below(200),
    };
    match chance.below(14) {
        0 => thread(any_row(chance, shafts, threads, 12)),
        1 => treadle(any_row(chance, treadles, threads, 12)),
        2..=4 => {
            let beyond = u32::from(chance.once_in(60));
            tie(
                chance.below(treadles) + beyond,
                chance.below(shafts) + beyond,
            )
        }
        5 | 6 => back(),
        7 => cell(place(chance), place(chance)),
        8 => part(place(chance), place(chance), chance.below(1030)),
        9 | 10 => floats(chance.below(5).min(chance.below(5))),
        11 => fewest(),
        12 => hangs(),
        _ if chance.once_in(8) => thread(edge_row(chance)),
        _ => spoiled(chance, part(1, 2, 3)),
    }
}

// Calls for a draft: two rows and ties first, then by chance.
fn any_calls(chance: &mut Chance, limits: [u32; 3], long: bool) -> Vec<Vec<u8>> {
    let [shafts, treadles, _] = limits;
    let threads = 1 + chance.below(64);
    let mut row = |limit| match long {
        true => long_row(chance, limit),
        false => any_row(chance, limit, threads, 12),
    };
    let mut calls = vec![thread(row(shafts)), treadle(row(treadles))];
    for _ in 0..chance.below(2 * shafts * treadles / 3 + 2) {
        calls.push(tie(chance.below(treadles), chance.below(shafts)));
    }
    for _ in 0..if long { 12 } else { 24 + chance.below(24) } {
        let call = any_call(chance, limits, threads);
        let spoil = chance.once_in(12);
        calls.push(if spoil { spoiled(chance, call) } else { call });
    }
    calls
}

// Asks every contestant; the first answer that differs is told, and ends the program.
fn ask_all(draft: usize, limits: [u32; 3], calls: &[Vec<u8>], kinds: &mut [u64; 6]) {
    let mut desks: Vec<AnyDesk> = RIVALS.iter().map(|w| AnyDesk::open(*w, limits)).collect();
    for (number, call) in calls.iter().enumerate() {
        let mut first: Option<Vec<u8>> = None;
        for (desk, who) in desks.iter_mut().zip(RIVALS) {
            let mut room = [0xee; ROOM];
            let length = desk.call(call, &mut room);
            assert!(room[length..].iter().all(|b| *b == 0xee));
            let answer = room[..length].to_vec();
            let expected = first.get_or_insert_with(|| answer.clone());
            if *expected != answer {
                println!("draft {draft}, limits {limits:?}, call {number}: {call:?}");
                println!("{}: {expected:?}", RIVALS[0].name());
                println!("{}: {answer:?}", who.name());
                std::process::exit(1);
            }
        }
        kinds[usize::from(first.unwrap()[0])] += 1;
    }
}

// So many short drafts and so many long ones.
pub fn compare(short: usize, long: usize) {
    let mut chance = Chance(7);
    let mut kinds = [0; 6];
    for draft in 0..short + long {
        let most = if draft < short { 64 } else { 12 };
        let most = 1 + chance.below(most);
        let undos = if chance.once_in(4) { 257 } else { 5 };
        let limits = [
            1 + chance.below(most),
            1 + chance.below(most),
            chance.below(undos),
        ];
        let calls = any_calls(&mut chance, limits, draft >= short);
        ask_all(draft, limits, &calls, &mut kinds);
    }
    let total: u64 = kinds.iter().sum();
    println!(
        "{short} drafts of up to 64 threads and {long} of up to 16,777,216: {total} answers of each of {} contestants, all alike",
        RIVALS.len()
    );
    println!(
        "refused {}, numbers {}, two numbers {}, cells {}, yes {}, over {}",
        kinds[0], kinds[1], kinds[2], kinds[3], kinds[4], kinds[5]
    );
}
