// Calls and rows as bytes, and chance.

// A row as its bytes.
pub type Row = Vec<u8>;

fn with(kind: u8, numbers: &[u32]) -> Vec<u8> {
    let mut bytes = vec![kind];
    for n in numbers {
        bytes.extend(n.to_le_bytes());
    }
    bytes
}

pub fn one(n: u32) -> Row {
    with(0, &[n])
}

pub fn then(a: Row, b: Row) -> Row {
    [vec![1], a, b].concat()
}

pub fn times(n: u32, a: Row) -> Row {
    [with(2, &[n]), a].concat()
}

pub fn turned(a: Row) -> Row {
    [vec![3], a].concat()
}

pub fn run(from: u32, to: u32) -> Row {
    with(4, &[from, to])
}

// Rows joined in halves.
pub fn halves(rows: &[Row]) -> Row {
    match rows {
        [row] => row.clone(),
        _ => {
            let (first, second) = rows.split_at(rows.len().div_ceil(2));
            then(halves(first), halves(second))
        }
    }
}

pub fn thread(row: Row) -> Vec<u8> {
    [vec![0], row].concat()
}

pub fn treadle(row: Row) -> Vec<u8> {
    [vec![1], row].concat()
}

pub fn tie(treadle: u32, shaft: u32) -> Vec<u8> {
    with(2, &[treadle, shaft])
}

pub fn back() -> Vec<u8> {
    vec![3]
}

pub fn cell(pick: u32, end: u32) -> Vec<u8> {
    with(4, &[pick, end])
}

pub fn part(pick: u32, end: u32, count: u32) -> Vec<u8> {
    with(5, &[pick, end, count])
}

pub fn floats(kind: u32) -> Vec<u8> {
    with(6, &[kind])
}

pub fn fewest() -> Vec<u8> {
    vec![7]
}

pub fn hangs() -> Vec<u8> {
    vec![8]
}

// All that is told of cloth.
pub fn questions() -> Vec<Vec<u8>> {
    vec![
        floats(0),
        floats(1),
        floats(2),
        floats(3),
        fewest(),
        hangs(),
    ]
}

// Numbers by chance, the same in each run.
pub struct Chance(pub u64);

impl Chance {
    pub fn next(&mut self) -> u64 {
        self.0 = self.0.wrapping_add(0x9e37_79b9_7f4a_7c15);
        let mut z = self.0;
        z = (z ^ z >> 30).wrapping_mul(0xbf58_476d_1ce4_e5b9);
        z = (z ^ z >> 27).wrapping_mul(0x94d0_49bb_1331_11eb);
        z ^ z >> 31
    }

    pub fn below(&mut self, n: u32) -> u32 {
        (self.next() % u64::from(n)) as u32
    }

    // Whether something is the case that is once in n times.
    pub fn once_in(&mut self, n: u32) -> bool {
        self.below(n) == 0
    }
}
