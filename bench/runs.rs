// Runs of a row, for the plain rival: how long it goes on with numbers of a set.
use crate::row::{Node, Part};

#[derive(Clone, Copy)]
struct Runs {
    front: u32,
    back: u32,
    longest: u32,
    all: bool,
}

impl Runs {
    fn one(member: bool) -> Runs {
        let n = u32::from(member);
        Runs {
            front: n,
            back: n,
            longest: n,
            all: member,
        }
    }

    fn join(self, next: Runs) -> Runs {
        Runs {
            front: if self.all {
                self.front + next.front
            } else {
                self.front
            },
            back: if next.all {
                self.back + next.back
            } else {
                next.back
            },
            longest: self.longest.max(next.longest).max(self.back + next.front),
            all: self.all && next.all,
        }
    }

    fn repeat(self, n: u32) -> Runs {
        if self.all {
            let long = n * self.front;
            return Runs {
                front: long,
                back: long,
                longest: long,
                all: true,
            };
        }
        let seam = if n == 1 { 0 } else { self.back + self.front };
        Runs {
            longest: self.longest.max(seam),
            ..self
        }
    }

    fn turn(self) -> Runs {
        Runs {
            front: self.back,
            back: self.front,
            ..self
        }
    }

    // Of numbers that go up by one: each turn takes the last number of every run away.
    fn upward(from: u32, to: u32, set: u64) -> Runs {
        let numbers = to - from + 1;
        let mut width = numbers;
        let mut left = set & (u64::MAX << from & u64::MAX >> (63 - to));
        let mut found = Runs {
            front: 0,
            back: 0,
            longest: 0,
            all: false,
        };
        while left != 0 {
            width -= 1;
            found.front += (left >> from & 1) as u32;
            found.back += (left >> (from + width) & 1) as u32;
            found.longest += 1;
            left &= left >> 1;
        }
        found.all = found.front == numbers;
        found
    }

    fn of(row: &[Node], set: u64) -> Runs {
        match row[0].part {
            Part::One(n) => Runs::one(set >> n & 1 == 1),
            Part::Then(second) => {
                Runs::of(&row[1..], set).join(Runs::of(&row[second as usize..], set))
            }
            Part::Times(n) => Runs::of(&row[1..], set).repeat(n),
            Part::Turned => Runs::of(&row[1..], set).turn(),
            Part::Run(from, to) if from <= to => Runs::upward(from, to, set),
            Part::Run(from, to) => Runs::upward(to, from, set).turn(),
        }
    }
}

// How long the row goes on with numbers of the set at the longest, round its end.
pub fn longest_round(row: &[Node], set: u64) -> u32 {
    let found = Runs::of(row, set);
    if found.all {
        found.front
    } else {
        found.longest.max(found.back + found.front)
    }
}
