// The plain rival as a program: lines of text in, lines of answers out, as docs/TEXT.md has them.
use crate::calls::{self, halves, one, run, times, turned};
use crate::plain::Desk;
use crate::wire::ROOM;
use std::io::{BufRead, BufReader, BufWriter, Write};

// Goes along a line.
struct Reader<'a> {
    line: &'a [u8],
}

impl<'a> Reader<'a> {
    fn skip_blanks(&mut self) {
        let blanks = self
            .line
            .iter()
            .take_while(|b| b" \t\r".contains(b))
            .count();
        self.line = &self.line[blanks..];
    }

    fn take(&mut self, byte: u8) -> bool {
        self.skip_blanks();
        let there = self.line.first() == Some(&byte);
        self.line = &self.line[usize::from(there)..];
        there
    }

    fn word(&mut self) -> &'a [u8] {
        self.skip_blanks();
        let (word, rest) = self.line.split_at(
            self.line
                .iter()
                .take_while(|b| b.is_ascii_lowercase())
                .count(),
        );
        self.line = rest;
        word
    }

    fn number(&mut self) -> Option<u32> {
        self.skip_blanks();
        let (digits, rest) = self
            .line
            .split_at(self.line.iter().take_while(|b| b.is_ascii_digit()).count());
        self.line = rest;
        std::str::from_utf8(digits).ok()?.parse().ok()
    }

    fn item(&mut self, deep: u32) -> Option<Vec<u8>> {
        let deep = deep.checked_sub(1)?;
        if self.take(b'(') {
            let row = self.row(deep)?;
            return self.take(b')').then_some(row);
        }
        if self.take(b'~') {
            return Some(turned(self.item(deep)?));
        }
        let n = self.number()?;
        if self.line.first() == Some(&b'-') {
            self.line = &self.line[1..];
            return Some(run(n, self.number()?));
        }
        if self.take(b'x') {
            return Some(times(n, self.item(deep)?));
        }
        Some(one(n))
    }

    fn row(&mut self, deep: u32) -> Option<Vec<u8>> {
        let mut items = vec![self.item(deep)?];
        loop {
            self.skip_blanks();
            match self.line.first() {
                None | Some(b')') => return Some(halves(&items)),
                _ => items.push(self.item(deep)?),
            }
        }
    }

    // The calls that a line says; none where it can't be read.
    fn calls(&mut self) -> Option<Vec<Vec<u8>>> {
        let calls = match self.word() {
            b"" if self.line.is_empty() || self.line[0] == b'#' => return Some(vec![]),
            b"thread" => vec![calls::thread(self.row(255)?)],
            b"treadle" => vec![calls::treadle(self.row(255)?)],
            b"tie" => self.ties()?,
            b"back" => vec![calls::back()],
            b"cell" => vec![calls::cell(self.number()?, self.number()?)],
            b"part" => vec![calls::part(self.number()?, self.number()?, self.number()?)],
            b"floats" => vec![calls::floats(self.number()?)],
            b"fewest" => vec![calls::fewest()],
            b"hangs" => vec![calls::hangs()],
            _ => return None,
        };
        self.skip_blanks();
        self.line.is_empty().then_some(calls)
    }

    fn ties(&mut self) -> Option<Vec<Vec<u8>>> {
        let treadle = self.number()?;
        if !self.take(b':') {
            return None;
        }
        let mut ties = vec![calls::tie(treadle, self.number()?)];
        self.skip_blanks();
        while !self.line.is_empty() {
            ties.push(calls::tie(treadle, self.number()?));
            self.skip_blanks();
        }
        Some(ties)
    }
}

fn number(bytes: &[u8], at: usize) -> u32 {
    u32::from_le_bytes(bytes[at..at + 4].try_into().unwrap())
}

fn put_set(out: &mut Vec<u8>, word: &str, set: &[u8]) {
    let members: Vec<String> = (0..64)
        .filter(|n| set[n / 8] >> (n % 8) & 1 == 1)
        .map(|n| n.to_string())
        .collect();
    if !members.is_empty() {
        let _ = write!(out, " {word} {}", members.join(" "));
    }
}

// An answer as a line.
fn put_answer(out: &mut Vec<u8>, answer: &[u8]) {
    let _ = match answer[0] {
        0 => write!(
            out,
            "refused {} at {}",
            number(answer, 1),
            number(answer, 5)
        ),
        1 => write!(out, "{}", number(answer, 1)),
        2 => write!(out, "{} {}", number(answer, 1), number(answer, 5)),
        3 => {
            let cells = 0..number(answer, 1) as usize;
            out.extend(cells.map(|n| {
                if answer[5 + n / 8] >> (n % 8) & 1 == 1 {
                    b'|'
                } else {
                    b'-'
                }
            }));
            Ok(())
        }
        4 => write!(out, "yes"),
        _ => {
            out.extend(b"over:");
            put_set(out, "shafts", &answer[1..9]);
            put_set(out, "treadles", &answer[9..17]);
            Ok(())
        }
    };
    out.push(b'\n');
}

// Answers a file of calls on standard output.
pub fn answer(path: &str) -> std::io::Result<()> {
    let mut input = BufReader::new(std::fs::File::open(path)?);
    let mut out = BufWriter::new(std::io::stdout());
    let mut desk = Desk::open(16, 16, 8);
    let (mut line, mut text, mut room) = (vec![], vec![], [0; ROOM]);
    for number in 1.. {
        line.clear();
        if input.read_until(b'\n', &mut line)? == 0 {
            break;
        }
        text.clear();
        let line = line.strip_suffix(b"\n").unwrap_or(&line);
        match (Reader { line }).calls() {
            Some(calls) => {
                for call in calls {
                    let length = desk.call(&call, &mut room);
                    put_answer(&mut text, &room[..length]);
                }
            }
            None => text.extend(format!("refused 1 at {number}\n").bytes()),
        }
        out.write_all(&text)?;
    }
    out.flush()
}

// The calls of a file, as bytes.
pub fn calls_in(path: &str) -> std::io::Result<Vec<Vec<u8>>> {
    let text = std::fs::read(path)?;
    let lines = text.split(|b| *b == b'\n');
    Ok(lines
        .filter_map(|line| Reader { line }.calls())
        .flatten()
        .collect())
}

// Copies a file by lines, and does nothing else: what reading and writing alone take.
pub fn copy(path: &str) -> std::io::Result<()> {
    let mut input = BufReader::new(std::fs::File::open(path)?);
    let mut out = BufWriter::new(std::io::stdout());
    let mut line = vec![];
    while input.read_until(b'\n', &mut line)? > 0 {
        out.write_all(&line)?;
        line.clear();
    }
    out.flush()
}

// A file of calls by chance: mostly cells, parts of a pick and ties, and now and then all that is told.
pub fn write_calls(path: &str, lines: usize) -> std::io::Result<()> {
    let mut out = BufWriter::new(std::fs::File::create(path)?);
    let chance = &mut calls::Chance(5);
    writeln!(
        out,
        "thread 600 x (0-15 14-1)\ntreadle 40 x (0-15 14-1) 3 x ~(2 4 7-9)"
    )?;
    for _ in 2..lines {
        let (a, b) = (chance.below(16), chance.below(16));
        let (pick, end) = (chance.below(100_000), chance.below(100_000));
        match chance.below(100) {
            0..40 => writeln!(out, "cell {pick} {end}")?,
            40..60 => writeln!(out, "part {pick} {end} 64")?,
            60..80 => writeln!(out, "tie {a}: {b}")?,
            80..85 => writeln!(out, "back")?,
            85..88 => writeln!(out, "thread {} x ({a} {b}-{a} 3 x (0-{b} 7-0))", 1 + pick)?,
            88..91 => writeln!(out, "treadle {} x (0-{a} {b}) ~({a}-{b} 2 5 9)", 1 + pick)?,
            91..97 => writeln!(out, "floats {}", a % 4)?,
            97 | 98 => writeln!(out, "fewest")?,
            _ => writeln!(out, "hangs")?,
        }
    }
    out.flush()
}
