//! Histories from a seed. A history is made as it runs, since what is worth doing next depends on the state: a pulse that is
//! to charge has to wait for its ready instant, a read that is to fall just before recovery has to know when that is.
use crate::forge::{limits, LATEST};
use crate::history::{Start, Step, What};
use crate::rng::Rng;
use crate::view::View;
use doqtarbu::register::{E, EBR1, ESU, EV, FENR, FLMCR1, FLMCR2, FLPWCR, P, PSU, PV, SWE};
use doqtarbu::{Call, EVENT_WORDS, FULL};
use std::collections::VecDeque;

/// An instant that is known only when its step is reached.
#[derive(Clone, Copy)]
enum When {
    /// So many raw units after the step before.
    Plus(u128),
    /// So many raw units from an instant of the state, but not before the step before.
    From(fn(&View) -> u128, i128),
    /// Just this, before the step before or not.
    Exactly(u128),
}

pub struct Generator {
    rng: Rng,
    start: Start,
    /// The history's own habits: how many steps, whether it may open the large blocks, how it lets time pass.
    length: usize,
    large: bool,
    made: usize,
    now: u128,
    planned: VecDeque<(When, What)>,
}

const fn micros(n: u64) -> u128 {
    ((n as u128) << 64) / 1_000_000
}

fn pulse_ready(v: &View) -> u128 {
    v.pulse().map_or(v.ready, |pulse| pulse.ready)
}

fn normal_from(v: &View) -> u128 {
    v.ready.max(v.recovery)
}

fn latch_from(v: &View) -> u128 {
    v.swe_ready.max(v.recovery)
}

fn due(v: &View) -> u128 {
    v.pending.map_or(v.verify_ready, |(_, at)| at)
}

impl Generator {
    pub fn new(seed: u64) -> Generator {
        let mut rng = Rng::new(seed);
        let start = match rng.below(8) {
            0 | 1 => Start::Fill(0xff),
            2 => Start::Fill(0x00),
            3 => Start::Fill(rng.byte()),
            4 | 5 => Start::Random(rng.word()),
            _ => Start::Restored(rng.word()),
        };
        let large = rng.one_in(40);
        let length = if large { 20 + rng.below(30) } else { 40 + rng.below(160) } as usize;
        Generator { rng, start, length, large, made: 0, now: 0, planned: VecDeque::new() }
    }

    pub fn start(&self) -> Start {
        self.start
    }

    /// The start was accepted from this instant on.
    pub fn started(&mut self, at: u128) {
        self.now = at;
        if at == 0 && self.rng.one_in(12) {
            // Some histories run in the last second that is not refused.
            self.now = LATEST - micros(1_000_000) / 2;
        }
    }

    /// The next step in this state, or the end.
    pub fn next(&mut self, view: &View) -> Option<Step> {
        if self.made >= self.length {
            return None;
        }
        while self.planned.is_empty() {
            self.plan(view);
        }
        let (when, what) = self.planned.pop_front()?;
        let at = match when {
            When::Plus(more) => self.now.saturating_add(more),
            When::From(instant, more) => instant(view).saturating_add_signed(more).max(self.now),
            When::Exactly(at) => at,
        };
        // Refused times are asked for by name; a time that ran past the end by itself stays just inside.
        let at = if matches!(when, When::Exactly(_)) { at } else { at.min(LATEST) };
        if !matches!(when, When::Exactly(_)) && !matches!(what, What::Look(..)) {
            self.now = at;
        }
        self.made += 1;
        Some(Step { at, what })
    }

    fn call(&mut self, when: When, call: Call) {
        self.planned.push_back((when, What::Call(call, EVENT_WORDS)));
    }

    fn write(&mut self, when: When, address: u16, value: u8) {
        self.call(when, Call::WriteRegister { address, value });
    }

    /// A little time, or none.
    fn soon(&mut self) -> When {
        let rng = &mut self.rng;
        When::Plus(match rng.below(8) {
            0 | 1 => 0,
            2 => 1,
            3 => micros(rng.below(10)),
            4 => micros(rng.below(200)),
            _ => rng.spread(56),
        })
    }

    /// Around an instant of the state: mostly to the unit.
    fn around(&mut self, instant: fn(&View) -> u128) -> When {
        let rng = &mut self.rng;
        let more = match rng.below(8) {
            0 | 1 => -1,
            2 | 3 => 0,
            4 => 1,
            5 => rng.spread(50) as i128,
            6 => -(rng.spread(50) as i128),
            _ => 2,
        };
        When::From(instant, more)
    }

    /// An exposure: around the lengths at which a cell of the address crosses a limit, or any.
    fn exposure(&mut self, program: bool) -> u128 {
        let rng = &mut self.rng;
        let rate = if program { 100 } else { 7 };
        let cell = rng.below(393_216) as usize;
        let limit = rng.pick(&limits(cell));
        let more = u128::from(rng.below(3));
        match rng.below(10) {
            0 => 1,
            1 => u128::from(FULL) / rate + more,
            2 => u128::from(limit) / rate + more,
            3 => (u128::from(FULL - limit) / rate).saturating_sub(1) + more,
            4 => rng.spread(70),
            5 => micros(200),
            6 => micros(10_000),
            _ => rng.spread(60),
        }
    }

    fn address(&mut self) -> u16 {
        self.rng.below(0xc000) as u16
    }

    fn plan(&mut self, view: &View) {
        if view.pulse().is_some() {
            return self.plan_in_pulse(view);
        }
        match self.rng.below(100) {
            0..=17 => self.program(),
            18..=33 => self.erase(),
            34..=49 => self.verify(),
            50..=57 => self.latch(),
            58..=65 => self.read_at_edge(),
            66..=72 => self.environment(view),
            73..=79 => self.any_write(),
            80..=84 => self.look(view),
            85..=89 => self.refused(view),
            90..=93 => self.restore(view),
            94 => {
                let when = self.soon();
                self.call(when, Call::Reset);
            }
            95 => {
                let when = self.soon();
                self.call(when, Call::PowerOff);
                if self.rng.one_in(2) {
                    let when = self.soon();
                    self.call(when, Call::Environment { mode: 0, module: true, oscillator: true });
                }
            }
            96 => {
                let when = self.soon();
                self.call(when, Call::Protect);
            }
            97 => {
                let long = self.rng.spread(75);
                let address = self.address();
                self.call(When::Plus(long), Call::Read8 { address });
            }
            _ => self.enable(),
        }
    }

    /// Enabled, powered and with SWE, so that something can happen.
    fn enable(&mut self) {
        if self.rng.one_in(3) {
            let when = self.soon();
            self.call(when, Call::Environment { mode: 0, module: true, oscillator: true });
        }
        let when = self.soon();
        self.write(when, FENR, 0x80);
        if self.rng.one_in(10) {
            // Error is left only by a reset.
            let when = self.soon();
            self.call(when, Call::Reset);
            self.write(When::Plus(0), FENR, 0x80);
        }
        let when = self.soon();
        self.write(when, FLMCR1, SWE);
    }

    fn latch(&mut self) {
        self.enable();
        let address = self.address();
        let many = if self.rng.one_in(10) { 64 } else { self.rng.below(6) + 1 };
        for i in 0..many {
            let rng = &mut self.rng;
            let value = match rng.below(4) {
                0 => 0x00,
                1 => rng.byte(),
                2 => !(1 << rng.below(8)),
                _ => rng.byte() & rng.byte(),
            };
            // Mostly in one page, of which the last written counts.
            let address = match rng.below(12) {
                0 => rng.below(0xc000) as u16,
                _ => address & !127 | rng.below(128) as u16,
            };
            let when = if i == 0 { self.around(latch_from) } else { When::Plus(0) };
            self.call(when, Call::Write8 { address, value });
        }
    }

    fn program(&mut self) {
        self.latch();
        let when = self.soon();
        self.write(when, FLMCR1, SWE | PSU);
        let when = self.soon();
        self.write(when, FLMCR1, SWE | PSU | P);
    }

    fn erase(&mut self) {
        self.enable();
        let rng = &mut self.rng;
        let value = match rng.below(12) {
            0 => rng.byte(),
            1 => 1 << rng.below(8),
            _ if self.large => 16 << rng.below(2),
            _ => 1 << rng.below(4),
        };
        // Blocks 4 and 5 open most of the chip, which makes every later step dear.
        let value = if self.large || !matches!(value, 16 | 32) { value } else { 8 };
        let when = self.soon();
        self.write(when, EBR1, value);
        let when = self.soon();
        self.write(when, FLMCR1, SWE | ESU);
        let when = self.soon();
        self.write(when, FLMCR1, SWE | ESU | E);
    }

    fn verify(&mut self) {
        self.enable();
        let bit = self.rng.pick(&[PV, EV]);
        let when = self.soon();
        self.write(when, FLMCR1, SWE | bit);
        for _ in 0..=self.rng.below(3) {
            let address = self.address();
            let when = self.around(|v| v.swe_ready);
            self.call(when, Call::Write8 { address, value: 0xff });
            let mut when = self.around(due);
            if self.rng.one_in(4) {
                self.write(when, FLMCR2, 0);
                when = self.around(due);
            }
            if self.rng.one_in(6) {
                let when = self.soon();
                self.any_environment(when);
            }
            let call = match self.rng.below(3) {
                0 => Call::Read16 { address: address.min(0xbffe) },
                _ => Call::Read8 { address },
            };
            self.call(when, call);
        }
        let when = self.soon();
        let after = self.rng.pick(&[0, SWE, SWE | EV, SWE | PV, SWE | PV | EV]);
        self.write(when, FLMCR1, after);
    }

    fn read_at_edge(&mut self) {
        // Something that raises recovery or ready, then a read around its end.
        match self.rng.below(4) {
            0 => self.write(When::Plus(0), FLMCR1, 0),
            1 => {
                let when = self.soon();
                self.write(when, FLPWCR, 0);
                let mode = self.rng.pick(&[1, 3, 4, 5]);
                self.call(
                    When::Plus(0),
                    Call::Environment { mode, module: true, oscillator: true },
                );
                let when = self.soon();
                self.call(when, Call::Environment { mode: 0, module: true, oscillator: true });
            }
            2 => {
                self.enable();
                let when = self.soon();
                self.write(when, FLMCR1, 0);
            }
            _ => {}
        }
        for _ in 0..=self.rng.below(2) {
            let address = self.address().min(0xbffe);
            let word = self.rng.one_in(2);
            let call = if word { Call::Read16 { address } } else { Call::Read8 { address } };
            let when = self.around(normal_from);
            self.call(when, call);
        }
    }

    fn any_environment(&mut self, when: When) {
        let rng = &mut self.rng;
        let mode = rng.below(6) as u8;
        let (module, oscillator) = (!rng.one_in(4), !rng.one_in(4));
        self.call(when, Call::Environment { mode, module, oscillator });
    }

    fn environment(&mut self, view: &View) {
        let when = self.soon();
        match self.rng.below(3) {
            0 => self.any_environment(when),
            1 => {
                let (mode, module, oscillator) = (view.mode, view.module, view.oscillator);
                self.call(when, Call::Environment { mode, module, oscillator });
            }
            _ => {
                let mode = self.rng.pick(&[0, 1, 2]);
                self.call(when, Call::Environment { mode, module: true, oscillator: true });
            }
        }
    }

    fn any_write(&mut self) {
        let when = self.soon();
        let rng = &mut self.rng;
        let address = match rng.below(12) {
            0 => rng.word() as u16,
            1 => 0xf020 + rng.below(16) as u16,
            2 | 3 => FENR,
            4 => FLMCR2,
            5 | 6 => FLPWCR,
            7 | 8 => EBR1,
            _ => FLMCR1,
        };
        let value = match rng.below(3) {
            0 => SWE | 1 << rng.below(8),
            1 => 1 << rng.below(8),
            _ => rng.byte(),
        };
        // The large blocks only where the history is made for them.
        let value =
            if address == EBR1 && !self.large && matches!(value, 16 | 32) { 3 } else { value };
        self.write(when, address, value);
    }

    fn look(&mut self, view: &View) {
        let rng = &mut self.rng;
        let bit = if rng.one_in(12) { 8 + rng.below(248) } else { rng.below(8) } as u8;
        let (start, length) = view.pulse().map_or((0, 0), |pulse| (pulse.start, pulse.length));
        let address = match rng.below(8) {
            0 => rng.word() as u16,
            1 => 0xc000,
            2 | 3 => rng.below(0xc000) as u16,
            _ if length > 0 => (start as u64 + rng.below(length as u64)) as u16,
            _ => rng.below(0xc000) as u16,
        };
        let when = match rng.below(6) {
            0 => When::From(pulse_ready, rng.below(3) as i128 - 1),
            1 => When::Exactly(u128::from(rng.word()) << 64),
            2 => When::Exactly(u128::from(u64::MAX) << 64),
            _ => {
                let program = rng.one_in(2);
                When::Plus(self.exposure(program))
            }
        };
        self.planned.push_back((when, What::Look(address, bit)));
    }

    fn refused(&mut self, view: &View) {
        let last = u128::from(u64::MAX) << 64;
        let before = view.pulse_since.saturating_sub(1 + self.rng.spread(60));
        let when = match self.rng.below(4) {
            0 => When::Exactly(last | u128::from(self.rng.word())),
            1 => When::Exactly(before),
            2 => When::Exactly(view.pulse_since.saturating_sub(1)),
            _ => self.soon(),
        };
        let rng = &mut self.rng;
        let past = if rng.one_in(3) { rng.word() as u16 } else { 0xbfff + rng.below(2) as u16 };
        let value = rng.byte();
        let call = match rng.below(10) {
            0 => Call::WriteRegister { address: FLMCR2, value },
            1 | 2 => Call::Write8 { address: past, value },
            3 | 4 => Call::Read8 { address: past },
            5 | 6 => Call::Read16 { address: past },
            7 => Call::Environment { mode: 5 + value % 3, module: true, oscillator: true },
            8 => Call::Protect,
            _ => Call::Reset,
        };
        self.call(when, call);
    }

    fn restore(&mut self, view: &View) {
        let fields = view.fields;
        let rng = &mut self.rng;
        let mut changes = Vec::new();
        for _ in 0..rng.below(3) {
            let place = match rng.below(4) {
                0 => rng.below(fields as u64 + 256) as usize,
                1 => 49_152 + rng.below(12) as usize,
                _ => fields + rng.below(275) as usize,
            };
            let byte = match rng.below(3) {
                0 => rng.below(4) as u8,
                1 => 1 << rng.below(8),
                _ => rng.byte(),
            };
            changes.push((place, byte));
        }
        let cut = match rng.below(6) {
            0 => 1 + rng.below(300) as i64,
            1 => rng.below(fields as u64) as i64,
            2 => -(1 + rng.below(20) as i64),
            _ => 0,
        };
        let when = match rng.below(6) {
            0 => When::Exactly(view.pulse_since.saturating_sub(1)),
            1 => When::Exactly(u128::from(u64::MAX) << 64),
            _ => self.soon(),
        };
        self.planned.push_back((when, What::Restore(changes, cut)));
    }

    /// Some steps in a pulse, and then mostly its end.
    fn plan_in_pulse(&mut self, view: &View) {
        let Some(pulse) = view.pulse() else { return };
        // A restored state may be ready only long after, or never.
        let edge = self.around(pulse_ready);
        let exposure = self.exposure(pulse.program);
        let charge = if view.pulse_since >= pulse.ready {
            When::Plus(exposure)
        } else {
            When::From(pulse_ready, exposure as i128)
        };
        match self.rng.below(24) {
            0 | 1 => self.write(edge, FLMCR2, 0),
            2 | 3 => self.write(charge, FLMCR2, 0),
            4 => {
                let address = self.address();
                self.call(charge, Call::Write8 { address, value: 0 });
            }
            5 => {
                self.write(charge, FENR, 0);
                if self.rng.one_in(2) {
                    let when = self.soon();
                    self.write(when, FLMCR1, 0);
                }
                let when = self.soon();
                self.write(when, FENR, 0x80);
            }
            6 => {
                let small = 1 << self.rng.below(4);
                let value = if self.large { 1 << self.rng.below(8) } else { small };
                self.write(charge, EBR1, value);
            }
            kind @ 7..=13 => self.disturb(kind, view, charge),
            14 | 15 => self.look(view),
            16 => self.room(view, charge),
            17 => self.refused(view),
            18 => self.restore(view),
            19 => self.any_write(),
            _ => self.close(pulse.program, charge),
        }
    }

    /// What comes from outside while a pulse is open: the environment, reads, protection, reset, power-off.
    fn disturb(&mut self, kind: u64, view: &View, when: When) {
        let call = match kind {
            7 => return self.any_environment(when),
            8 => {
                let (mode, module, oscillator) = (view.mode, view.module, view.oscillator);
                Call::Environment { mode, module, oscillator }
            }
            9 => {
                let mode = self.rng.pick(&[0, 1, 2]);
                Call::Environment { mode, module: true, oscillator: true }
            }
            10 => Call::Read8 { address: self.address() },
            11 => Call::Read16 { address: self.address().min(0xbffe) },
            12 => Call::Protect,
            _ => self.rng.pick(&[Call::Reset, Call::PowerOff]),
        };
        self.call(when, call);
    }

    /// A call that settles, lent a word too few or fewer, and then just enough.
    fn room(&mut self, view: &View, when: When) {
        let words = view.words();
        let few = if self.rng.one_in(3) { 0 } else { words.saturating_sub(1) };
        let call = match self.rng.below(5) {
            0 => Call::Reset,
            1 => Call::Protect,
            2 => Call::Read16 { address: 0xbffe },
            3 => Call::Write8 { address: 0, value: 0 },
            _ => Call::WriteRegister { address: FLMCR2, value: 0 },
        };
        self.planned.push_back((when, What::Call(call, few)));
        self.planned.push_back((When::Plus(0), What::Call(call, words)));
    }

    fn close(&mut self, program: bool, when: When) {
        let setup = if program { PSU } else { ESU };
        let value = match self.rng.below(6) {
            0 => 0,
            1 => SWE,
            2 => self.rng.byte(),
            _ => SWE | setup,
        };
        self.write(when, FLMCR1, value);
        if self.rng.one_in(2) {
            let when = self.soon();
            self.write(when, FLMCR1, SWE);
        }
    }
}
