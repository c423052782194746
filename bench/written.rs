// A rival: every thread is written out, and what is asked is found by looking at the lists.
use crate::wire::{
    Answer, Call, MOST_CELLS, NOT_THERE, NOTHING_TO_UNDO, ROOM, number_at, read_call, unreadable,
    write_answer,
};
use std::collections::{BTreeSet, VecDeque};
use std::rc::Rc;

enum Row {
    One(u32),
    Then(Box<Row>, Box<Row>),
    Times(u32, Box<Row>),
    Turned(Box<Row>),
    Run(u32, u32),
}

// Reads a row, and counts its parts; None where a byte doesn't fit, and then `at` is its place.
struct Reader<'a> {
    bytes: &'a [u8],
    at: usize,
    parts: usize,
}

impl Reader<'_> {
    fn number(&mut self) -> Option<u32> {
        let n = number_at(self.bytes, self.at);
        self.at = if n.is_some() {
            self.at + 4
        } else {
            self.bytes.len()
        };
        n
    }

    fn row(&mut self, depth: usize) -> Option<Row> {
        let kind = *self.bytes.get(self.at)?;
        if depth > 255 || self.parts == 1024 || kind > 4 {
            return None;
        }
        self.at += 1;
        self.parts += 1;
        Some(match kind {
            0 => Row::One(self.number()?),
            1 => Row::Then(
                Box::new(self.row(depth + 1)?),
                Box::new(self.row(depth + 1)?),
            ),
            2 => Row::Times(self.number()?, Box::new(self.row(depth + 1)?)),
            3 => Row::Turned(Box::new(self.row(depth + 1)?)),
            _ => Row::Run(self.number()?, self.number()?),
        })
    }
}

impl Row {
    fn depth(&self) -> usize {
        1 + match self {
            Row::One(_) | Row::Run(..) => 0,
            Row::Then(a, b) => a.depth().max(b.depth()),
            Row::Times(_, a) | Row::Turned(a) => a.depth(),
        }
    }

    fn length(&self) -> u128 {
        match self {
            Row::One(_) => 1,
            Row::Run(a, b) => u128::from(a.abs_diff(*b)) + 1,
            Row::Then(a, b) => a.length() + b.length(),
            Row::Times(n, a) => u128::from(*n).saturating_mul(a.length()).min(1 << 64),
            Row::Turned(a) => a.length(),
        }
    }

    fn is_valid(&self, limit: u32) -> bool {
        match self {
            Row::One(n) => *n < limit,
            Row::Run(a, b) => *a < limit && *b < limit,
            Row::Then(a, b) => a.is_valid(limit) && b.is_valid(limit),
            Row::Times(n, a) => *n > 0 && a.is_valid(limit),
            Row::Turned(a) => a.is_valid(limit),
        }
    }

    // Writes its numbers behind those that there are.
    fn write_out(&self, list: &mut Vec<u8>) {
        let here = list.len();
        match self {
            Row::One(n) => list.push(*n as u8),
            Row::Run(a, b) if a <= b => list.extend((*a..=*b).map(|n| n as u8)),
            Row::Run(a, b) => list.extend((*b..=*a).rev().map(|n| n as u8)),
            Row::Then(a, b) => {
                a.write_out(list);
                b.write_out(list);
            }
            Row::Times(n, a) => {
                a.write_out(list);
                let round = list.len() - here;
                for _ in 1..*n {
                    list.extend_from_within(here..here + round);
                }
            }
            Row::Turned(a) => {
                a.write_out(list);
                list[here..].reverse();
            }
        }
    }
}

type Threads = Rc<Vec<u8>>;

// What is undone: a list that there was, or a tie.
enum Change {
    Threads(usize, Threads),
    Tie(usize, usize),
}

const THREADING: usize = 0;
const TREADLING: usize = 1;

pub struct Desk {
    shafts: usize,
    treadles: usize,
    undos: usize,
    lists: [Threads; 2],
    lifts: Vec<Vec<bool>>,
    log: VecDeque<Change>,
}

// How long a list goes on at the longest, round its end, where `on` says yes.
fn longest_round(list: &[u8], on: &[bool]) -> u32 {
    let (mut longest, mut run, mut front, mut broken) = (0, 0, 0, false);
    for &n in list {
        if on[n as usize] {
            run += 1;
        } else {
            if !broken {
                front = run;
                broken = true;
            }
            longest = longest.max(run);
            run = 0;
        }
    }
    if broken {
        longest.max(run + front)
    } else {
        run
    }
}

// The numbers that a list has, each once.
fn in_list(list: &[u8]) -> Vec<usize> {
    let mut there = [false; 64];
    for &n in list {
        there[n as usize] = true;
    }
    (0..64).filter(|&n| there[n]).collect()
}

impl Desk {
    pub fn open(shafts: u32, treadles: u32, undos: u32) -> Desk {
        Desk {
            shafts: shafts as usize,
            treadles: treadles as usize,
            undos: undos as usize,
            lists: [Rc::new(vec![0]), Rc::new(vec![0])],
            lifts: vec![vec![false; shafts as usize]; treadles as usize],
            log: VecDeque::new(),
        }
    }

    // How many bytes it has on the heap, but for what is remembered to be undone.
    pub fn bytes(&self) -> usize {
        self.lists.iter().map(|list| list.capacity()).sum::<usize>() + self.shafts * self.treadles
    }

    fn record(&mut self, change: Change) {
        self.log.push_back(change);
        if self.log.len() > self.undos {
            self.log.pop_front();
        }
    }

    fn enter(&mut self, which: usize, bytes: &[u8]) -> Answer {
        let mut reader = Reader {
            bytes,
            at: 1,
            parts: 0,
        };
        let row = match reader.row(1) {
            Some(row) if reader.at == bytes.len() => row,
            _ => return unreadable(reader.at),
        };
        let limit = [self.shafts, self.treadles][which] as u32;
        let length = row.length();
        if length > 16_777_216 || reader.parts > 256 || row.depth() > 32 || !row.is_valid(limit) {
            return NOT_THERE;
        }
        let mut list = Vec::with_capacity(length as usize);
        row.write_out(&mut list);
        let before = std::mem::replace(&mut self.lists[which], Rc::new(list));
        self.record(Change::Threads(which, before));
        Answer::Number(length as u32)
    }

    fn tie(&mut self, treadle: u32, shaft: u32) -> Answer {
        let (treadle, shaft) = (treadle as usize, shaft as usize);
        if treadle >= self.treadles || shaft >= self.shafts {
            return NOT_THERE;
        }
        let lifts = !self.lifts[treadle][shaft];
        self.lifts[treadle][shaft] = lifts;
        self.record(Change::Tie(treadle, shaft));
        Answer::Number(u32::from(lifts))
    }

    fn back(&mut self) -> Answer {
        match self.log.pop_back() {
            None => return NOTHING_TO_UNDO,
            Some(Change::Threads(which, list)) => self.lists[which] = list,
            Some(Change::Tie(treadle, shaft)) => self.lifts[treadle][shaft] ^= true,
        }
        Answer::Number(self.log.len() as u32)
    }

    fn is_over(&self, pick: u32, end: u32) -> bool {
        let [threading, treadling] = &self.lists;
        let treadle = treadling[pick as usize % treadling.len()];
        self.lifts[treadle as usize][threading[end as usize % threading.len()] as usize]
    }

    fn part(&self, pick: u32, end: u32, count: u32) -> Answer {
        if count > MOST_CELLS {
            return NOT_THERE;
        }
        let [threading, treadling] = &self.lists;
        let lifts = &self.lifts[treadling[pick as usize % treadling.len()] as usize];
        let ends = threading.iter().cycle();
        let mut cells = [0; 128];
        for (k, &shaft) in ends
            .skip(end as usize % threading.len())
            .take(count as usize)
            .enumerate()
        {
            cells[k / 8] |= u8::from(lifts[shaft as usize]) << (k % 8);
        }
        Answer::Cells(count, cells)
    }

    fn floats(&self, kind: u32) -> Answer {
        let (lines, crossed) = match kind {
            0 | 1 => (THREADING, TREADLING),
            2 | 3 => (TREADLING, THREADING),
            _ => return NOT_THERE,
        };
        let mut most = 0;
        for line in in_list(&self.lists[lines]) {
            let mut on = [false; 64];
            for (n, on) in on.iter_mut().enumerate() {
                *on = match kind {
                    0 | 1 => n < self.treadles && self.lifts[n][line] == (kind == 0),
                    _ => n < self.shafts && self.lifts[line][n] == (kind == 3),
                };
            }
            most = most.max(longest_round(&self.lists[crossed], &on));
        }
        Answer::Number(most)
    }

    fn fewest(&self) -> Answer {
        let (shafts, treadles) = (in_list(&self.lists[0]), in_list(&self.lists[1]));
        let lifts = |s: &usize, t: &usize| self.lifts[*t][*s];
        let ups: BTreeSet<Vec<bool>> = shafts
            .iter()
            .map(|s| treadles.iter().map(|t| lifts(s, t)).collect())
            .collect();
        let lefts: BTreeSet<Vec<bool>> = treadles
            .iter()
            .map(|t| shafts.iter().map(|s| lifts(s, t)).collect())
            .collect();
        Answer::Two(ups.len() as u32, lefts.len() as u32)
    }

    // What must lie over with one shaft or treadle, found by going from one to the next; treadles are counted from 64 on.
    fn over_with(&self, from: usize, shafts: &[usize], treadles: &[usize]) -> Vec<usize> {
        let mut found = vec![from];
        let mut at = 0;
        while let Some(&place) = found.get(at) {
            at += 1;
            let next: Vec<usize> = if place < 64 {
                let off = treadles.iter().filter(|t| !self.lifts[**t][place]);
                off.map(|t| 64 + t).collect()
            } else {
                let on = shafts.iter().filter(|s| self.lifts[place - 64][**s]);
                on.copied().collect()
            };
            for n in next {
                if !found.contains(&n) {
                    found.push(n);
                }
            }
        }
        found
    }

    fn hangs(&self) -> Answer {
        let (shafts, treadles) = (in_list(&self.lists[0]), in_list(&self.lists[1]));
        let places = shafts
            .iter()
            .copied()
            .chain(treadles.iter().map(|t| 64 + t));
        let layer = places
            .map(|place| self.over_with(place, &shafts, &treadles))
            .min_by_key(Vec::len)
            .filter(|layer| layer.len() < shafts.len() + treadles.len());
        let Some(layer) = layer else {
            return Answer::Together;
        };
        let set: u128 = layer.iter().map(|n| 1 << n).sum();
        Answer::Over {
            shafts: set as u64,
            treadles: (set >> 64) as u64,
        }
    }

    #[inline(never)]
    pub fn call(&mut self, bytes: &[u8], answer: &mut [u8; ROOM]) -> usize {
        let told = match read_call(bytes) {
            Ok(Call::Thread) => self.enter(THREADING, bytes),
            Ok(Call::Treadle) => self.enter(TREADLING, bytes),
            Ok(Call::Tie { treadle, shaft }) => self.tie(treadle, shaft),
            Ok(Call::Back) => self.back(),
            Ok(Call::Cell { pick, end }) => Answer::Number(u32::from(self.is_over(pick, end))),
            Ok(Call::Part { pick, end, count }) => self.part(pick, end, count),
            Ok(Call::Floats(kind)) => self.floats(kind),
            Ok(Call::Fewest) => self.fewest(),
            Ok(Call::Hangs) => self.hangs(),
            Err(place) => unreadable(place),
        };
        write_answer(&told, answer)
    }
}
