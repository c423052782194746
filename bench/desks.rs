// The contestants, which all answer the same calls: the desk, another desk's library, the plain rival and the one that writes out.
use crate::wire::ROOM;
use crate::{plain, written};

#[repr(C)]
pub struct Room {
    bytes: [u8; ROOM],
}

mod kept {
    unsafe extern "C" {
        pub fn desk_open(words: *mut u64, n: usize, shafts: u32, treadles: u32, undos: u32) -> u64;
        pub fn desk_call(
            words: *mut u64,
            n: usize,
            bytes: *const u8,
            length: usize,
            answer: *mut super::Room,
        ) -> usize;
    }
}

#[cfg(against)]
mod other {
    unsafe extern "C" {
        pub fn other_open(words: *mut u64, n: usize, shafts: u32, treadles: u32, undos: u32)
        -> u64;
        pub fn other_call(
            words: *mut u64,
            n: usize,
            bytes: *const u8,
            length: usize,
            answer: *mut super::Room,
        ) -> usize;
    }
}

pub trait Answers {
    fn answer(&mut self, bytes: &[u8], answer: &mut [u8; ROOM]) -> usize;
}

// As many words as any desk asks for at the most: README.md has the bound.
fn most_words(treadles: u32, undos: u32) -> usize {
    (undos as usize + 1) * (1024 + treadles as usize) + 32_768
}

// How many words the desk asks for: the fewest in which it can be opened.
pub fn words_for(limits: [u32; 3]) -> usize {
    let [shafts, treadles, undos] = limits;
    let mut words = vec![0; most_words(treadles, undos)];
    let (mut few, mut enough) = (0, words.len());
    while few + 1 < enough {
        let n = few.midpoint(enough);
        let opened = unsafe { kept::desk_open(words.as_mut_ptr(), n, shafts, treadles, undos) };
        if opened == 0 {
            enough = n;
        } else {
            few = n;
        }
    }
    enough
}

pub struct Lent {
    words: Vec<u64>,
}

impl Lent {
    fn open(shafts: u32, treadles: u32, undos: u32) -> Lent {
        let mut words = vec![0; most_words(treadles, undos)];
        // The words are lent for the call alone.
        let opened =
            unsafe { kept::desk_open(words.as_mut_ptr(), words.len(), shafts, treadles, undos) };
        assert_eq!(opened, 0);
        Lent { words }
    }
}

impl Answers for Lent {
    #[inline(always)]
    fn answer(&mut self, bytes: &[u8], answer: &mut [u8; ROOM]) -> usize {
        // The words are a desk's, as opening and calls left them; a `Room` is just its bytes.
        unsafe {
            kept::desk_call(
                self.words.as_mut_ptr(),
                self.words.len(),
                bytes.as_ptr(),
                bytes.len(),
                answer.as_mut_ptr().cast(),
            )
        }
    }
}

#[cfg(against)]
pub struct Other {
    words: Vec<u64>,
}

#[cfg(against)]
impl Other {
    fn open(shafts: u32, treadles: u32, undos: u32) -> Other {
        let mut words = vec![0; most_words(treadles, undos)];
        let opened =
            unsafe { other::other_open(words.as_mut_ptr(), words.len(), shafts, treadles, undos) };
        assert_eq!(opened, 0);
        Other { words }
    }
}

#[cfg(against)]
impl Answers for Other {
    #[inline(always)]
    fn answer(&mut self, bytes: &[u8], answer: &mut [u8; ROOM]) -> usize {
        unsafe {
            other::other_call(
                self.words.as_mut_ptr(),
                self.words.len(),
                bytes.as_ptr(),
                bytes.len(),
                answer.as_mut_ptr().cast(),
            )
        }
    }
}

impl Answers for plain::Desk {
    #[inline(always)]
    fn answer(&mut self, bytes: &[u8], answer: &mut [u8; ROOM]) -> usize {
        self.call(bytes, answer)
    }
}

impl Answers for written::Desk {
    #[inline(always)]
    fn answer(&mut self, bytes: &[u8], answer: &mut [u8; ROOM]) -> usize {
        self.call(bytes, answer)
    }
}

// Who may answer, in the order of the table.
#[derive(Clone, Copy, PartialEq)]
pub enum Who {
    Desk,
    Plain,
    Written,
    Other,
}

pub const RIVALS: &[Who] = if cfg!(against) {
    &[Who::Desk, Who::Plain, Who::Written, Who::Other]
} else {
    &[Who::Desk, Who::Plain, Who::Written]
};

impl Who {
    pub fn name(self) -> &'static str {
        match self {
            Who::Desk => "desk",
            Who::Plain => "plain Rust",
            Who::Written => "written out",
            Who::Other => "other desk",
        }
    }
}

pub enum AnyDesk {
    Desk(Lent),
    Plain(plain::Desk),
    Written(written::Desk),
    #[cfg(against)]
    Other(Other),
}

impl AnyDesk {
    pub fn open(who: Who, limits: [u32; 3]) -> AnyDesk {
        let [shafts, treadles, undos] = limits;
        match who {
            Who::Desk => AnyDesk::Desk(Lent::open(shafts, treadles, undos)),
            Who::Plain => AnyDesk::Plain(plain::Desk::open(shafts, treadles, undos)),
            Who::Written => AnyDesk::Written(written::Desk::open(shafts, treadles, undos)),
            #[cfg(against)]
            Who::Other => AnyDesk::Other(Other::open(shafts, treadles, undos)),
            #[cfg(not(against))]
            Who::Other => unreachable!("no other library is linked"),
        }
    }

    pub fn call(&mut self, bytes: &[u8], answer: &mut [u8; ROOM]) -> usize {
        match self {
            AnyDesk::Desk(d) => d.answer(bytes, answer),
            AnyDesk::Plain(d) => d.answer(bytes, answer),
            AnyDesk::Written(d) => d.answer(bytes, answer),
            #[cfg(against)]
            AnyDesk::Other(d) => d.answer(bytes, answer),
        }
    }
}
