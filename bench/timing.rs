// How long calls take: the contestants turn by turn, in several rounds.
use crate::desks::{Answers, AnyDesk, RIVALS, Who};
use crate::wire::ROOM;
use std::hint::black_box;
use std::time::Duration;

// Calls one behind the other.
#[derive(Default)]
pub struct Calls {
    bytes: Vec<u8>,
    ends: Vec<usize>,
}

impl Calls {
    pub fn of(calls: &[Vec<u8>]) -> Calls {
        let mut all = Calls::default();
        for call in calls {
            all.bytes.extend(call);
            all.ends.push(all.bytes.len());
        }
        all
    }

    fn ask<D: Answers>(&self, desk: &mut D) {
        let mut answer = [0; ROOM];
        let mut at = 0;
        for &end in &self.ends {
            black_box(desk.answer(&self.bytes[at..end], &mut answer));
            black_box(&mut answer);
            at = end;
        }
    }
}

// What is measured: `calls`, each time after `before`, on a desk that `setup` was entered into. One pass is so many of what the table tells.
pub struct Case {
    pub group: &'static str,
    pub name: String,
    pub limits: [u32; 3],
    pub setup: Vec<Vec<u8>>,
    pub before: Vec<Vec<u8>>,
    pub calls: Vec<Vec<u8>>,
    pub each: usize,
}

// Nanoseconds for each, of every contestant in every round.
pub struct Figures {
    pub group: &'static str,
    pub name: String,
    pub rounds: Vec<Vec<f64>>,
}

// Passes are made until they took so long, some times over, and the best counts. Who takes very long for one pass is measured in the first round alone.
const BLOCK: Duration = Duration::from_micros(700);
const BLOCKS: usize = 3;
const SLOW: f64 = 2e9;

#[repr(C)]
struct Clock {
    seconds: i64,
    nanoseconds: i64,
}

unsafe extern "C" {
    fn clock_gettime(which: i32, clock: *mut Clock) -> i32;
}

// How long this thread has run: what other processes take does not count.
fn now() -> Duration {
    const THREAD: i32 = 3;
    let mut clock = Clock {
        seconds: 0,
        nanoseconds: 0,
    };
    // C's `struct timespec` of Linux on 64 bits has just these two fields.
    unsafe { clock_gettime(THREAD, &mut clock) };
    Duration::new(clock.seconds as u64, clock.nanoseconds as u32)
}

// What a look at the clock takes.
fn clock_cost() -> Duration {
    let looks = (0..100).map(|_| {
        let start = now();
        now() - start
    });
    looks.min().unwrap_or_default()
}

fn pass<D: Answers>(desk: &mut D, before: &Calls, calls: &Calls, again: u32) -> Duration {
    before.ask(desk);
    let start = now();
    for _ in 0..again {
        calls.ask(desk);
    }
    now() - start
}

// One contestant at one case.
struct Runner {
    desk: AnyDesk,
    before: Calls,
    calls: Calls,
    part: f64,
    // How often the calls are asked between two looks at the clock.
    again: u32,
    clock_cost: Duration,
}

impl Runner {
    fn new(case: &Case, who: Who) -> Runner {
        let mut desk = AnyDesk::open(who, case.limits);
        let mut answer = [0; ROOM];
        for call in &case.setup {
            desk.call(call, &mut answer);
            assert_ne!(answer[0], 0, "{}: refused at setup", case.name);
        }
        // Of a long list the one that writes out is asked the first tenth.
        let part = if who == Who::Written && case.calls.len() > 5000 {
            10
        } else {
            1
        };
        let mut runner = Runner {
            desk,
            before: Calls::of(&case.before),
            calls: Calls::of(&case.calls[..case.calls.len() / part]),
            part: part as f64,
            again: 1,
            clock_cost: clock_cost(),
        };
        let once = runner.pass().as_nanos().max(1);
        if case.before.is_empty() {
            runner.again = 1 + (BLOCK.as_nanos() / 4 / once) as u32;
        }
        runner
    }

    fn pass(&mut self) -> Duration {
        let (before, calls, again) = (&self.before, &self.calls, self.again);
        let took = match &mut self.desk {
            AnyDesk::Desk(d) => pass(d, before, calls, again),
            AnyDesk::Plain(d) => pass(d, before, calls, again),
            AnyDesk::Written(d) => pass(d, before, calls, again),
            #[cfg(against)]
            AnyDesk::Other(d) => pass(d, before, calls, again),
        };
        took.saturating_sub(self.clock_cost)
    }

    // Passes until they took long enough; what the calls took once, in the best of some blocks.
    fn block(&mut self) -> f64 {
        let mut best = f64::INFINITY;
        for _ in 0..BLOCKS {
            let (mut took, mut passes) = (Duration::ZERO, 0);
            while took < BLOCK {
                took += self.pass();
                passes += self.again;
            }
            best = best.min(took.as_nanos() as f64 / f64::from(passes));
            if best > 100.0 * BLOCK.as_nanos() as f64 {
                break;
            }
        }
        best * self.part
    }
}

// One contestant alone, for a while.
pub fn alone(case: &Case, who: Who) -> f64 {
    let mut runner = Runner::new(case, who);
    let blocks = (0..60).map(|_| runner.block());
    spread(blocks.collect()).median / case.each as f64
}

// All cases round by round, so that a time in which the machine is slow doesn't fall on one of them alone.
pub fn measure(cases: &[Case], rounds: usize) -> Vec<Figures> {
    let mut took = vec![vec![0.0; RIVALS.len()]; cases.len()];
    let mut all: Vec<Figures> = cases.iter().map(Figures::none).collect();
    for round in 0..rounds {
        for ((case, took), figures) in cases.iter().zip(&mut took).zip(&mut all) {
            for k in 0..RIVALS.len() {
                let turn = (k + round) % RIVALS.len();
                if took[turn] < SLOW {
                    took[turn] = Runner::new(case, RIVALS[turn]).block();
                }
            }
            let each = took.iter().map(|pass| pass / case.each as f64);
            figures.rounds.push(each.collect());
        }
        eprint!("\rround {} of {rounds}", round + 1);
    }
    eprintln!();
    all
}

// The median, and the quarters below and above it.
pub struct Spread {
    pub quarter: f64,
    pub median: f64,
    pub three: f64,
}

fn spread(mut values: Vec<f64>) -> Spread {
    values.sort_by(f64::total_cmp);
    let at = |part: f64| values[((values.len() - 1) as f64 * part).round() as usize];
    Spread {
        quarter: at(0.25),
        median: at(0.5),
        three: at(0.75),
    }
}

impl Figures {
    fn none(case: &Case) -> Figures {
        Figures {
            group: case.group,
            name: case.name.clone(),
            rounds: vec![],
        }
    }

    pub fn time(&self, who: Who) -> f64 {
        let k = RIVALS.iter().position(|w| *w == who).unwrap();
        spread(self.rounds.iter().map(|round| round[k]).collect()).median
    }

    // How many times as long as another the desk takes, round by round.
    pub fn ratio(&self, who: Who) -> Spread {
        let k = RIVALS.iter().position(|w| *w == who).unwrap();
        spread(
            self.rounds
                .iter()
                .map(|round| round[0] / round[k])
                .collect(),
        )
    }
}
