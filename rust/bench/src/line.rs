//! A line of the table: a state, what is done in it again and again, and what it has to cost at most.
use crate::{
    side::{Old, Port, Side},
    state::{State, LONG, PART, SHORT},
    timing::{self, Times},
};
use doqtarbu::{
    register::{EBR1, FLMCR1, FLMCR2, FLPWCR, PSU, SWE},
    Call, Instant,
};
use std::{hint::black_box, time::Instant as Clock};

#[derive(Clone, Copy, PartialEq)]
pub enum Operation {
    /// A write to a register that keeps a bit and opens no pulse.
    WriteRegister,
    /// A million writes to registers that open no pulse, out of a list in memory.
    Replay,
    /// A data write that is latched.
    Latch,
    /// A byte read that is served from the array.
    Read8,
    /// A write to a register that keeps nothing: it only settles. The pages are opened before.
    Settle,
    /// The same as the first settling, which opens the pages; every byte changes.
    SettleFirst,
    Peek,
    CellCharge,
    BlankPage,
    Image,
    WriteSnapshot,
    ReadSnapshot,
}

#[derive(Clone, Copy)]
pub enum Goal {
    None,
    /// Port to original, at most.
    Ratio(f64),
    /// Nanoseconds of the port, at most.
    Nanos(f64),
}

pub struct Line {
    pub name: String,
    pub state: State,
    pub operation: Operation,
    pub goal: Goal,
    /// The family of lines that differ in their pages, and the pages of this one.
    pub growth: Option<(&'static str, usize)>,
}

/// The writes of a replay.
const REPLAYED: usize = 1_000_000;

/// Addresses inside block 4, and none twice in a page.
fn address(i: usize) -> u16 {
    0x1000 + (i * 0xe03) as u16
}

impl Operation {
    /// How often it is done between two looks at the clock.
    fn batch(self) -> usize {
        match self {
            Operation::WriteRegister | Operation::Latch | Operation::Read8 => 1_000,
            Operation::Peek | Operation::CellCharge | Operation::BlankPage => 8,
            _ => 1,
        }
    }

    /// Done as often as a batch has it. The answer is made of what was read, for both sides to agree on.
    fn run(self, side: &mut impl Side, now: u128, given: &Given) -> u64 {
        let mut sum = 0u64;
        let mut add = |value: u64| sum = sum.rotate_left(7) ^ value;
        for i in 0..self.batch() {
            match self {
                Operation::WriteRegister => side.write_register(
                    black_box(FLPWCR),
                    black_box((i % 2 * 0x80) as u8),
                    now + i as u128,
                ),
                Operation::Replay => side.replay(black_box(&given.writes)),
                Operation::Latch => {
                    side.write8(black_box(i as u16), black_box(i as u8), now + i as u128)
                }
                Operation::Read8 => {
                    add(side.read8(black_box((i * 49) as u16), now + i as u128).into())
                }
                Operation::Settle => side.write_register(black_box(FLMCR2), 0, now),
                Operation::SettleFirst => side.write_register(black_box(FLMCR2), 0, now + LONG),
                Operation::Peek => add(side.peek(black_box(address(i)), now + PART).into()),
                Operation::CellCharge => {
                    black_box(side.cell_charge(black_box(address(i)), i as u8 % 8, now + PART));
                }
                Operation::BlankPage => {
                    add(side.blank_page(black_box(address(i)), now + LONG).into())
                }
                Operation::Image => side.image(black_box(now + PART)),
                Operation::WriteSnapshot => side.write_snapshot(),
                Operation::ReadSnapshot => side.read_snapshot(black_box(&given.snapshot), now),
            }
        }
        sum
    }

    /// Whether it is so short that what the other side left in the caches would be timed: it is done once before the clock starts.
    fn looks_at_little(self) -> bool {
        matches!(self, Operation::Peek | Operation::CellCharge | Operation::BlankPage)
    }

    /// Whether the pulse's pages are opened before the line begins.
    fn finds_opened(self) -> bool {
        use Operation::{BlankPage, CellCharge, Image, Peek, Settle};
        matches!(self, Settle | Peek | CellCharge | BlankPage | Image)
    }
}

/// What the calls of a line are given.
struct Given {
    /// A snapshot to read.
    snapshot: Vec<u8>,
    /// Writes to replay.
    writes: Vec<u64>,
}

/// Writes as a program has them that sets a pulse up and gives it up again, each a microsecond after the last.
fn writes(start: u128) -> Vec<u64> {
    const ROUND: [(u16, u8); 8] = [
        (FLMCR1, SWE),
        (EBR1, 0x10),
        (FLPWCR, 0x80),
        (FLMCR1, SWE | PSU),
        (FLMCR1, SWE),
        (FLPWCR, 0),
        (EBR1, 0),
        (FLMCR1, 0),
    ];
    let mut at = start;
    let mut list = Vec::with_capacity(3 * REPLAYED);
    for i in 0..REPLAYED {
        at += Instant::from_micros(1).0;
        let (address, value) = ROUND[i % ROUND.len()];
        list.extend(replay::words(Call::WriteRegister { address, value }, Instant(at)));
    }
    list
}

/// A side in the middle of a line.
struct Runner<S> {
    side: S,
    now: u128,
    sum: u64,
}

impl<S: Side> Runner<S> {
    fn new(mut side: S, line: &Line) -> Self {
        let mut now = line.state.prepare(&mut side);
        if line.operation.finds_opened() {
            now += SHORT;
            side.write_register(FLMCR2, 0, now);
        }
        Runner { side, now, sum: 0 }
    }

    /// One batch, of which only what the line is about is timed: nanoseconds of a call.
    fn round(&mut self, line: &Line, given: &Given) -> f64 {
        match line.operation {
            Operation::SettleFirst | Operation::Replay => {
                self.now = line.state.prepare(&mut self.side)
            }
            Operation::ReadSnapshot => self.side.let_go(),
            _ => self.now += SHORT,
        }
        if line.operation.looks_at_little() {
            black_box(line.operation.run(&mut self.side, black_box(self.now), given));
        }
        let start = Clock::now();
        let sum = black_box(line.operation.run(&mut self.side, black_box(self.now), given));
        let time = start.elapsed();
        if line.operation == Operation::Replay {
            self.now += Instant::from_micros(REPLAYED as u64).0;
        }
        self.sum = self.sum.rotate_left(1) ^ sum;
        time.as_nanos() as f64 / line.operation.batch() as f64
    }
}

impl Line {
    /// Times both sides; an error says in what they differ.
    pub fn measure(&self) -> Result<Times, String> {
        let mut port = Runner::new(Port::new(), self);
        let mut old = Runner::new(Old::new(), self);
        port.side.write_snapshot();
        let snapshot = port.side.last_snapshot().to_vec();
        let writes = match self.operation {
            Operation::Replay => writes(port.now),
            _ => Vec::new(),
        };
        let given = Given { snapshot, writes };
        let snapshot = &given.snapshot;
        let mut copy = vec![0u8; snapshot.len()];
        let mut copy_round = || {
            let start = Clock::now();
            black_box(&mut copy[..]).copy_from_slice(black_box(snapshot));
            start.elapsed().as_nanos() as f64
        };
        let copied = matches!(self.operation, Operation::WriteSnapshot | Operation::ReadSnapshot);
        let times = timing::smallest(
            || port.round(self, &given),
            || old.round(self, &given),
            || if copied { copy_round() } else { 0.0 },
        );
        self.agree(&mut port, &mut old)?;
        Ok(Times { bytes: snapshot.len(), ..times })
    }

    /// That both sides did the same: what was read, the words of the last call, the image, the snapshot.
    fn agree(&self, port: &mut Runner<Port>, old: &mut Runner<Old>) -> Result<(), String> {
        let differ = |what: &str| Err(format!("{}: the sides differ in {what}", self.name));
        if (port.now, port.sum) != (old.now, old.sum) {
            return differ("what was read");
        }
        if port.side.words() != old.side.words() {
            return differ("the event words of the last call");
        }
        if self.operation == Operation::CellCharge {
            for i in 0..self.operation.batch() {
                let (address, bit, at) = (address(i), i as u8 % 8, port.now + PART);
                let charge = port.side.cell_charge(address, bit, at);
                if Some(charge) != old.side.charge_by_snapshot(address, bit, at) {
                    return differ("the charge of a cell");
                }
            }
        }
        let at = port.now + LONG;
        if self.operation != Operation::Image {
            port.side.image(at);
            old.side.image(at);
        }
        if port.side.last_image() != old.side.last_image() {
            return differ("the image");
        }
        port.side.write_snapshot();
        old.side.write_snapshot();
        if port.side.last_snapshot() != old.side.last_snapshot() {
            return differ("the snapshot");
        }
        Ok(())
    }
}
