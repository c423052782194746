// Rows as trees, for the plain rival: the nodes of a tree stand in one list, each before the rows in it, and know how long they are.
use crate::wire::number_at;

// What can be read, and what is taken.
const MOST_READ: usize = 1024;
const DEEPEST_READ: u32 = 255;
const MOST_PARTS: usize = 256;
const DEEPEST: u32 = 32;
const LONGEST: u32 = 16_777_216;
const TOO_LONG: u32 = LONGEST + 1;

#[derive(Clone, Copy)]
pub enum Part {
    One(u32),
    // The second row stands so many nodes behind.
    Then(u32),
    Times(u32),
    Turned,
    Run(u32, u32),
}

#[derive(Clone, Copy)]
pub struct Node {
    pub length: u32,
    pub part: Part,
}

pub type Row = Vec<Node>;

// The row of one number, 0.
pub fn new_row() -> Row {
    vec![Node {
        length: 1,
        part: Part::One(0),
    }]
}

// Reads a row, stores it and checks it on the way.
struct Reader<'a> {
    bytes: &'a [u8],
    at: usize,
    nodes: &'a mut Row,
    limit: u32,
    valid: bool,
}

// What is found about a row while it is read.
struct Found {
    length: u32,
    depth: u32,
}

impl Reader<'_> {
    fn number(&mut self) -> Option<u32> {
        let n = number_at(self.bytes, self.at);
        self.at = if n.is_some() {
            self.at + 4
        } else {
            self.bytes.len()
        };
        n
    }

    fn run(&mut self, from: u32, to: u32, part: Part) -> Found {
        self.valid &= from < self.limit && to < self.limit;
        let length = from.abs_diff(to).min(LONGEST) + 1;
        self.nodes.push(Node { length, part });
        Found { length, depth: 1 }
    }

    // None where a byte doesn't fit, and then `at` is its place.
    fn row(&mut self, deep: u32) -> Option<Found> {
        let kind = *self.bytes.get(self.at)?;
        if deep == 0 || self.nodes.len() == MOST_READ {
            return None;
        }
        let here = self.nodes.len();
        match kind {
            0 => {
                self.at += 1;
                let n = self.number()?;
                Some(self.run(n, n, Part::One(n)))
            }
            1 => {
                self.at += 1;
                self.nodes.push(Node {
                    length: 0,
                    part: Part::Then(0),
                });
                let first = self.row(deep - 1)?;
                let second_at = (self.nodes.len() - here) as u32;
                let second = self.row(deep - 1)?;
                let length = (first.length + second.length).min(TOO_LONG);
                self.nodes[here] = Node {
                    length,
                    part: Part::Then(second_at),
                };
                Some(Found {
                    length,
                    depth: 1 + first.depth.max(second.depth),
                })
            }
            2 | 3 => self.one_inside(kind, here, deep),
            4 => {
                self.at += 1;
                let from = self.number()?;
                let to = self.number()?;
                Some(self.run(from, to, Part::Run(from, to)))
            }
            _ => None,
        }
    }

    // A row so many times, or turned.
    fn one_inside(&mut self, kind: u8, here: usize, deep: u32) -> Option<Found> {
        self.at += 1;
        let (part, times) = if kind == 2 {
            let n = self.number()?;
            (Part::Times(n), n)
        } else {
            (Part::Turned, 1)
        };
        self.valid &= times > 0;
        self.nodes.push(Node { length: 0, part });
        let inner = self.row(deep - 1)?;
        let length = (u64::from(times) * u64::from(inner.length)).min(u64::from(TOO_LONG)) as u32;
        self.nodes[here].length = length;
        Some(Found {
            length,
            depth: 1 + inner.depth,
        })
    }
}

// The row that the bytes after the first are, into a list of nodes: whether it may be taken. Or the place of the first byte that doesn't fit.
pub fn read_row(bytes: &[u8], limit: u32, nodes: &mut Row) -> Result<bool, usize> {
    nodes.clear();
    let mut reader = Reader {
        bytes,
        at: 1,
        nodes,
        limit,
        valid: true,
    };
    match reader.row(DEEPEST_READ) {
        Some(found) if reader.at == bytes.len() => Ok(reader.valid
            && reader.nodes.len() <= MOST_PARTS
            && found.depth <= DEEPEST
            && found.length <= LONGEST),
        _ => Err(reader.at),
    }
}

fn in_run(from: u32, to: u32, i: u32) -> u32 {
    if from <= to { from + i } else { from - i }
}

// The number at a place, round the row's end.
pub fn number_in(row: &[Node], i: u32) -> u32 {
    let mut row = row;
    let mut i = i % row[0].length;
    loop {
        match row[0].part {
            Part::One(n) => return n,
            Part::Then(second) => {
                let n = row[1].length;
                if i < n {
                    row = &row[1..];
                } else {
                    i -= n;
                    row = &row[second as usize..];
                }
            }
            Part::Times(_) => {
                row = &row[1..];
                i %= row[0].length;
            }
            Part::Turned => {
                row = &row[1..];
                i = row[0].length - 1 - i;
            }
            Part::Run(from, to) => return in_run(from, to, i),
        }
    }
}

fn along_run(a: u32, b: u32, from: u32, out: &mut [u32]) {
    for (k, n) in out.iter_mut().enumerate() {
        *n = in_run(a, b, from + k as u32);
    }
}

// The numbers from a place on. Going back, places are counted from the row's end.
fn along(row: &[Node], back: bool, from: u32, out: &mut [u32]) {
    if out.is_empty() {
        return;
    }
    match row[0].part {
        Part::One(n) => out.fill(n),
        Part::Then(second) => {
            let (first, second) = (&row[1..], &row[second as usize..]);
            let (near, far) = if back {
                (second, first)
            } else {
                (first, second)
            };
            let n = near[0].length;
            let share = (n.saturating_sub(from) as usize).min(out.len());
            let (here, there) = out.split_at_mut(share);
            along(near, back, from.min(n), here);
            along(far, back, from.saturating_sub(n), there);
        }
        Part::Times(_) => around(&row[1..], back, from, out),
        Part::Turned => along(&row[1..], !back, from, out),
        Part::Run(a, b) if back => along_run(b, a, from, out),
        Part::Run(a, b) => along_run(a, b, from, out),
    }
}

// The same round and round: one round is found, and the others are copied.
fn around(row: &[Node], back: bool, from: u32, out: &mut [u32]) {
    let n = row[0].length;
    let at = from % n;
    let round = (n as usize).min(out.len());
    let (first, behind) = out[..round].split_at_mut(((n - at) as usize).min(round));
    along(row, back, at, first);
    along(row, back, 0, behind);
    let mut done = round;
    while done < out.len() {
        let more = done.min(out.len() - done);
        out.copy_within(..more, done);
        done += more;
    }
}

// The numbers from a place on, round the row's end as often as it takes.
pub fn numbers_from(row: &[Node], from: u32, out: &mut [u32]) {
    around(row, false, from, out)
}

// Which numbers a row has, as bits.
pub fn used(row: &[Node]) -> u64 {
    match row[0].part {
        Part::One(n) => 1 << n,
        Part::Then(second) => used(&row[1..]) | used(&row[second as usize..]),
        Part::Times(_) | Part::Turned => used(&row[1..]),
        Part::Run(a, b) => u64::MAX << a.min(b) & u64::MAX >> (63 - a.max(b)),
    }
}
