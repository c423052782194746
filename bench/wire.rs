// Calls read from bytes and answers written as bytes, for the rivals. A row is left as the bytes that follow.

pub const ROOM: usize = 160;
pub const MOST_CELLS: u32 = 1024;

#[derive(Clone, Copy)]
pub enum Call {
    Thread,
    Treadle,
    Tie { treadle: u32, shaft: u32 },
    Back,
    Cell { pick: u32, end: u32 },
    Part { pick: u32, end: u32, count: u32 },
    Floats(u32),
    Fewest,
    Hangs,
}

pub enum Answer {
    Refused(u32, u32),
    Number(u32),
    Two(u32, u32),
    Cells(u32, [u8; 128]),
    Together,
    Over { shafts: u64, treadles: u64 },
}

pub const NOT_THERE: Answer = Answer::Refused(2, 0);
pub const NOTHING_TO_UNDO: Answer = Answer::Refused(6, 0);

pub fn unreadable(place: usize) -> Answer {
    Answer::Refused(1, place as u32)
}

// The number at a place, if all its bytes are there.
pub fn number_at(bytes: &[u8], at: usize) -> Option<u32> {
    let four = bytes.get(at..)?.first_chunk()?;
    Some(u32::from_le_bytes(*four))
}

// The call that bytes are; of a row only that there is to be one. Else the place of the first byte that doesn't fit.
pub fn read_call(bytes: &[u8]) -> Result<Call, usize> {
    let Some(&kind) = bytes.first() else {
        return Err(0);
    };
    let number = |n: usize| number_at(bytes, 1 + 4 * n).ok_or(bytes.len());
    let (call, numbers) = match kind {
        0 => return Ok(Call::Thread),
        1 => return Ok(Call::Treadle),
        2 => (
            Call::Tie {
                treadle: number(0)?,
                shaft: number(1)?,
            },
            2,
        ),
        3 => (Call::Back, 0),
        4 => (
            Call::Cell {
                pick: number(0)?,
                end: number(1)?,
            },
            2,
        ),
        5 => (
            Call::Part {
                pick: number(0)?,
                end: number(1)?,
                count: number(2)?,
            },
            3,
        ),
        6 => (Call::Floats(number(0)?), 1),
        7 => (Call::Fewest, 0),
        8 => (Call::Hangs, 0),
        _ => return Err(0),
    };
    let end = 1 + 4 * numbers;
    if bytes.len() > end {
        return Err(end);
    }
    Ok(call)
}

fn put(out: &mut [u8; ROOM], kind: u8, numbers: &[u32]) -> usize {
    out[0] = kind;
    for (four, n) in out[1..].chunks_exact_mut(4).zip(numbers) {
        four.copy_from_slice(&n.to_le_bytes());
    }
    1 + 4 * numbers.len()
}

// Writes an answer to the front, and returns how many bytes it has.
pub fn write_answer(answer: &Answer, out: &mut [u8; ROOM]) -> usize {
    match answer {
        Answer::Refused(number, place) => put(out, 0, &[*number, *place]),
        Answer::Number(n) => put(out, 1, &[*n]),
        Answer::Two(m, n) => put(out, 2, &[*m, *n]),
        Answer::Cells(count, bits) => {
            let size = (*count as usize).div_ceil(8);
            let at = put(out, 3, &[*count]);
            out[at..at + size].copy_from_slice(&bits[..size]);
            at + size
        }
        Answer::Together => put(out, 4, &[]),
        Answer::Over { shafts, treadles } => {
            out[0] = 5;
            out[1..9].copy_from_slice(&shafts.to_le_bytes());
            out[9..17].copy_from_slice(&treadles.to_le_bytes());
            17
        }
    }
}
