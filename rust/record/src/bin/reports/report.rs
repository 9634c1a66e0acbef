//! A run of `wipe` on the original: the history, then the report.
use crate::history::{lines, Line, Reader, What};
use crate::options::Options;
use crate::sentences;
use crate::view::{blank_pages, block, charged, pixels, PAGE};
use original::{Event, Original};
use record::call::{Call, ARRAY, BLOCKS};
use record::snapshot;

const ROW_PAGES: usize = 32;

/// A complaint ends the run unless it is to go on.
struct Stopped;

struct Run<'a> {
    options: &'a Options<'a>,
    chip: Original,
    printed: String,
    made: usize,
    refused: usize,
    left_out: usize,
    /// Of each block: the pulses completed and interrupted.
    ended: [(usize, usize); BLOCKS.len()],
    /// The time of the last call made.
    last: u128,
}

/// What a run gives: all that it prints, complaints too, and the chip after the last call.
pub struct Outcome {
    pub printed: String,
    pub chip: Original,
}

/// A chip with nothing in it.
pub fn fresh() -> Original {
    Original::new(&[0xff; ARRAY]).expect("firmware of its length")
}

pub fn run(options: &Options, chip: Original, history: &[u8]) -> Outcome {
    let mut run = Run {
        options,
        chip,
        printed: String::new(),
        made: 0,
        refused: 0,
        left_out: 0,
        ended: Default::default(),
        last: 0,
    };
    if let Ok(()) = run.history(history) {
        run.report(options.at.unwrap_or(run.last));
    }
    Outcome { printed: run.printed, chip: run.chip }
}

impl Run<'_> {
    /// The refusal that a time has by itself, 0 for none. The original refuses nothing, but it knows the last settling.
    fn untimely(&self, at: u128) -> u8 {
        match at {
            _ if at >> 64 == u128::from(u64::MAX) => 5,
            _ if at < snapshot::since(&snapshot::of(&self.chip)) => 6,
            _ => 0,
        }
    }

    fn complain(&mut self, complaint: &str) -> Result<(), Stopped> {
        self.printed += complaint;
        if self.options.go_on {
            Ok(())
        } else {
            Err(Stopped)
        }
    }

    fn history(&mut self, history: &[u8]) -> Result<(), Stopped> {
        let mut reader = Reader::default();
        for (number, line) in (1..).zip(lines(history)) {
            match reader.line(line) {
                Ok(None) => {}
                Ok(Some(line)) => self.line(number, line)?,
                Err(mistake) => {
                    self.left_out += 1;
                    self.complain(&sentences::mistaken(number, &mistake, self.options.go_on))?;
                }
            }
        }
        Ok(())
    }

    fn line(&mut self, number: usize, Line { at, what }: Line) -> Result<(), Stopped> {
        match (what, self.untimely(at)) {
            (What::Call(call), 0) => self.call(number, call, at),
            (What::Call(_), refusal) => {
                self.refused += 1;
                self.complain(&sentences::call_refused(number, refusal))?;
            }
            (look, 0) => self.look(number, look, at),
            (_, refusal) => self.complain(&sentences::look_refused(number, refusal))?,
        }
        Ok(())
    }

    fn call(&mut self, number: usize, call: Call, at: u128) {
        let mut events: Vec<Event> = Vec::new();
        let value = call.run(&mut self.chip, at, &mut events);
        self.made += 1;
        self.last = at;
        let mut told: String = events.iter().map(|event| self.event(event)).collect();
        told += &match call {
            Call::Read8(address) => sentences::byte_read(number, address, value),
            Call::Read16(address) => sentences::word_read(number, address, value),
            _ => String::new(),
        };
        if self.options.events {
            self.printed += &told;
        }
    }

    /// Counts an event, and gives it in words.
    fn event(&mut self, event: &Event) -> String {
        let at = event.time().raw();
        let (address, length, completed) = match *event {
            Event::NvByte { address, value, .. } => {
                return sentences::byte_becomes(at, address, value)
            }
            Event::NvCommit { address, length, .. } => (address, length, true),
            Event::NvInterrupted { address, length, .. } => (address, length, false),
            other => panic!("the flash gives no such event: {other:?}"),
        };
        let ended = &mut self.ended[block(address)];
        if completed {
            ended.0 += 1;
        } else {
            ended.1 += 1;
        }
        sentences::pulse_ends(at, address, address + (length - 1), completed)
    }

    fn look(&mut self, number: usize, look: What, at: u128) {
        let blank = blank_pages(&self.chip.image(at)[..]);
        self.printed += &match look {
            What::LookByte(address) => {
                let value = self.chip.peek(address, at);
                sentences::byte_seen(number, address, value, blank[usize::from(address) / PAGE])
            }
            What::LookCell(address, bit) => {
                let charge = snapshot::charge(&snapshot::settled(&self.chip, at), address, bit);
                sentences::charge_seen(number, address, bit, charge)
            }
            _ => sentences::pages_seen(number, blank.iter().filter(|blank| !**blank).count()),
        };
    }

    fn report(&mut self, at: u128) {
        let refusal = self.untimely(at);
        if refusal != 0 {
            self.printed += &sentences::report_refused(refusal);
            return;
        }
        let blank = blank_pages(&self.chip.image(at)[..]);
        let settled = snapshot::settled(&self.chip, at);
        self.counts();
        self.pages(&blank);
        if self.options.map {
            self.map(&blank, &settled);
        }
        let (first, last) = self.options.judged.unwrap_or((0, ARRAY as u16 - 1));
        if self.options.judged.is_some() {
            self.printed += &sentences::only_judged(first, last);
        }
        let judged = &blank[usize::from(first) / PAGE..=usize::from(last) / PAGE];
        self.printed += &sentences::verdict(judged.iter().filter(|blank| !**blank).count());
        if let Some(name) = self.options.picture {
            self.printed += &sentences::picture(name, &pixels(&settled));
        }
    }

    /// Of calls, lines and pulses.
    fn counts(&mut self) {
        self.printed += &sentences::calls_made(self.made);
        self.printed += &sentences::calls_refused(self.refused);
        if self.left_out != 0 {
            self.printed += &sentences::lines_left_out(self.left_out);
        }
        for (block, (completed, interrupted)) in self.ended.iter().enumerate() {
            self.printed += &sentences::block_pulses(block, *completed, *interrupted);
        }
    }

    fn pages(&mut self, blank: &[bool]) {
        for (block, (_, first, end)) in BLOCKS.into_iter().enumerate() {
            let pages = &blank[usize::from(first) / PAGE..usize::from(end) / PAGE];
            let blank = pages.iter().filter(|blank| **blank).count();
            let legible = pages.len() - blank;
            self.printed += &sentences::block_pages(block, first, end - 1, blank, legible);
        }
        for (page, _) in blank.iter().enumerate().filter(|(_, blank)| !**blank) {
            self.printed += &sentences::legible_page((page * PAGE) as u16);
        }
    }

    fn map(&mut self, blank: &[bool], settled: &[u8]) {
        let sign = |page| sentences::map_sign(blank[page], charged(settled, page));
        self.printed += &sentences::map_heading();
        for row in (0..blank.len()).step_by(ROW_PAGES) {
            let signs: String = (row..row + ROW_PAGES).map(sign).collect();
            self.printed += &sentences::map_row((row * PAGE) as u16, &signs);
        }
    }
}
