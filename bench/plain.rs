// A rival: the desk's own algorithms in plain Rust, over trees of rows, with no proofs.
use crate::row::{Row, new_row, number_in, numbers_from, read_row, used};
use crate::runs::longest_round;
use crate::wire::{
    Answer, Call, MOST_CELLS, NOT_THERE, NOTHING_TO_UNDO, ROOM, read_call, unreadable, write_answer,
};
use std::collections::VecDeque;

// What can be undone.
#[derive(Clone, Copy)]
enum Change {
    Row(usize),
    Tie(usize, u32),
}

const THREADING: usize = 0;
const TREADLING: usize = 1;

pub struct Desk {
    limits: [u32; 2],
    undos: usize,
    // Of threadings and of treadlings a ring, and which is the one there is.
    rows: [Vec<Row>; 2],
    slots: [usize; 2],
    ties: Vec<u64>,
    log: VecDeque<Change>,
    scratch: Row,
}

// Used shafts and treadles.
#[derive(Clone, Copy)]
struct InUse {
    shafts: u64,
    treadles: u64,
}

fn has(set: u64, n: usize) -> bool {
    set >> n & 1 == 1
}

fn members(set: u64) -> impl Iterator<Item = usize> {
    (0..64).filter(move |&n| has(set, n))
}

impl Desk {
    pub fn open(shafts: u32, treadles: u32, undos: u32) -> Desk {
        let ring = || (0..=undos).map(|_| new_row()).collect();
        Desk {
            limits: [shafts, treadles],
            undos: undos as usize,
            rows: [ring(), ring()],
            slots: [0, 0],
            ties: vec![0; treadles as usize],
            log: VecDeque::with_capacity(undos as usize + 1),
            scratch: Vec::with_capacity(1024),
        }
    }

    // How many bytes it has on the heap.
    pub fn bytes(&self) -> usize {
        let nodes: usize = self.rows.iter().flatten().map(Vec::capacity).sum();
        (nodes + self.scratch.capacity()) * 16 + self.ties.capacity() * 8 + self.log.capacity() * 16
    }

    fn row(&self, which: usize) -> &Row {
        &self.rows[which][self.slots[which]]
    }

    fn record(&mut self, change: Change) {
        self.log.push_front(change);
        self.log.truncate(self.undos);
    }

    fn enter(&mut self, which: usize, bytes: &[u8]) -> Answer {
        match read_row(bytes, self.limits[which], &mut self.scratch) {
            Ok(true) => {}
            Ok(false) => return NOT_THERE,
            Err(place) => return unreadable(place),
        }
        let length = self.scratch[0].length;
        let slot = (self.slots[which] + 1) % (self.undos + 1);
        let row = &mut self.rows[which][slot];
        row.clear();
        row.extend_from_slice(&self.scratch);
        self.slots[which] = slot;
        self.record(Change::Row(which));
        Answer::Number(length)
    }

    fn tie(&mut self, treadle: u32, shaft: u32) -> Answer {
        if shaft >= self.limits[THREADING] || treadle >= self.limits[TREADLING] {
            return NOT_THERE;
        }
        let treadle = treadle as usize;
        self.ties[treadle] ^= 1 << shaft;
        self.record(Change::Tie(treadle, shaft));
        Answer::Number((self.ties[treadle] >> shaft & 1) as u32)
    }

    fn back(&mut self) -> Answer {
        match self.log.pop_front() {
            None => return NOTHING_TO_UNDO,
            Some(Change::Row(which)) => {
                let slot = self.slots[which];
                self.slots[which] = if slot == 0 { self.undos } else { slot - 1 };
            }
            Some(Change::Tie(treadle, shaft)) => self.ties[treadle] ^= 1 << shaft,
        }
        Answer::Number(self.log.len() as u32)
    }

    fn lifted_at(&self, pick: u32) -> u64 {
        self.ties[number_in(self.row(TREADLING), pick) as usize]
    }

    fn cell(&self, pick: u32, end: u32) -> Answer {
        let shaft = number_in(self.row(THREADING), end);
        Answer::Number((self.lifted_at(pick) >> shaft & 1) as u32)
    }

    fn part(&self, pick: u32, end: u32, count: u32) -> Answer {
        if count > MOST_CELLS {
            return NOT_THERE;
        }
        let mut shafts = [0; MOST_CELLS as usize];
        let shafts = &mut shafts[..count as usize];
        numbers_from(self.row(THREADING), end, shafts);
        let lifted = self.lifted_at(pick);
        let mut cells = [0; 128];
        for (byte, eight) in cells.iter_mut().zip(shafts.chunks(8)) {
            for (k, shaft) in eight.iter().enumerate() {
                *byte |= ((lifted >> shaft & 1) as u8) << k;
            }
        }
        Answer::Cells(count, cells)
    }

    // The treadles that lift a shaft.
    fn lifting(&self, shaft: usize) -> u64 {
        let lifts = self.ties.iter().enumerate();
        lifts.fold(0, |set, (t, &lifted)| set | (lifted >> shaft & 1) << t)
    }

    // The numbers at which a line goes on.
    fn going_on(&self, kind: u32, line: usize, numbers: u64) -> u64 {
        match kind {
            0 => numbers & self.lifting(line),
            1 => numbers & !self.lifting(line),
            2 => numbers & !self.ties[line],
            _ => numbers & self.ties[line],
        }
    }

    fn floats(&self, kind: u32) -> Answer {
        let (lines, crossed) = match kind {
            0 | 1 => (self.row(THREADING), self.row(TREADLING)),
            2 | 3 => (self.row(TREADLING), self.row(THREADING)),
            _ => return NOT_THERE,
        };
        let numbers = used(crossed);
        let mut seen = [0; 64];
        let mut most = 0;
        for line in members(used(lines)) {
            let set = self.going_on(kind, line, numbers);
            if !seen.contains(&set) {
                seen[line] = set;
                most = most.max(longest_round(crossed, set));
            }
        }
        Answer::Number(most)
    }

    fn in_use(&self) -> InUse {
        InUse {
            shafts: used(self.row(THREADING)),
            treadles: used(self.row(TREADLING)),
        }
    }

    fn shafts_like(&self, used: InUse, shaft: usize) -> u64 {
        members(used.treadles).fold(used.shafts, |alike, t| {
            let lifted = self.ties[t];
            alike & if has(lifted, shaft) { lifted } else { !lifted }
        })
    }

    fn treadles_like(&self, used: InUse, treadle: usize) -> u64 {
        let lifted = self.ties[treadle] & used.shafts;
        let others = self.ties.iter().enumerate();
        others
            .filter(|(_, ties)| **ties & used.shafts == lifted)
            .fold(0, |alike, (t, _)| alike | 1 << t)
            & used.treadles
    }

    fn fewest(&self) -> Answer {
        let used = self.in_use();
        let (mut shafts, mut left) = (0, used.shafts);
        while left != 0 {
            left &= !self.shafts_like(used, left.trailing_zeros() as usize);
            shafts += 1;
        }
        let (mut treadles, mut left) = (0, used.treadles);
        while left != 0 {
            left &= !self.treadles_like(used, left.trailing_zeros() as usize);
            treadles += 1;
        }
        Answer::Two(shafts, treadles)
    }

    fn always_over(&self, used: InUse) -> Option<usize> {
        members(used.shafts).find(|&s| members(used.treadles).all(|t| has(self.ties[t], s)))
    }

    // What each shaft and treadle needs at once, in one line, the shafts first.
    fn needs(&self, used: InUse) -> [u128; 128] {
        let mut sets = [0; 128];
        for s in members(used.shafts) {
            let treadles = used.treadles & !self.lifting(s);
            sets[s] = u128::from(treadles) << 64 | 1 << s;
        }
        for t in members(used.treadles) {
            let shafts = used.shafts & self.ties[t];
            sets[64 + t] = 1 << (64 + t) | u128::from(shafts);
        }
        sets
    }

    fn hangs(&self) -> Answer {
        let used = self.in_use();
        if let Some(s) = self.always_over(used) {
            return Answer::Over {
                shafts: 1 << s,
                treadles: 0,
            };
        }
        let all = u128::from(used.treadles) << 64 | u128::from(used.shafts);
        let mut sets = self.needs(used);
        let places = || (0..128).filter(|&i| all >> i & 1 == 1);
        for way in places() {
            let by_way = sets[way];
            for set in &mut sets {
                if *set >> way & 1 == 1 {
                    *set |= by_way;
                }
            }
        }
        let smallest = places().map(|i| sets[i]).min_by_key(|set| set.count_ones());
        match smallest {
            Some(set) if set != all => Answer::Over {
                shafts: set as u64,
                treadles: (set >> 64) as u64,
            },
            _ => Answer::Together,
        }
    }

    #[inline(never)]
    pub fn call(&mut self, bytes: &[u8], answer: &mut [u8; ROOM]) -> usize {
        let told = match read_call(bytes) {
            Ok(Call::Thread) => self.enter(THREADING, bytes),
            Ok(Call::Treadle) => self.enter(TREADLING, bytes),
            Ok(Call::Tie { treadle, shaft }) => self.tie(treadle, shaft),
            Ok(Call::Back) => self.back(),
            Ok(Call::Cell { pick, end }) => self.cell(pick, end),
            Ok(Call::Part { pick, end, count }) => self.part(pick, end, count),
            Ok(Call::Floats(kind)) => self.floats(kind),
            Ok(Call::Fewest) => self.fewest(),
            Ok(Call::Hangs) => self.hangs(),
            Err(place) => unreadable(place),
        };
        write_answer(&told, answer)
    }
}
