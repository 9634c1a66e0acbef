//! What the histories reached, counted from the states and answers alone, whoever made the histories.
use crate::history::{Start, Step, What};
use crate::pair::Came;
use crate::view::View;
use doqtarbu::register::{EBR1, EV, FENR, FLMCR1, PV, SWE};
use doqtarbu::{Call, Event, FULL};

macro_rules! reached {
    ($($name:ident $text:literal)*) => {
        /// The situations that are counted.
        #[derive(Clone, Copy, Debug, PartialEq, Eq)]
        enum R { $($name),* }
        /// Their descriptions.
        const TEXTS: &[&str] = &[$($text),*];
    };
}

reached! {
    FillFf "firmware all FF"
    Fill00 "firmware all 00"
    Random "firmware random"
    Restored "begun from a random accepted snapshot"
    RestoredPending "the same, with a sense pending"
    WriteRegister "write_register answered"
    Write8 "write8 answered"
    Read8 "read8 answered"
    Read16 "read16 answered"
    Protect "protect answered"
    Reset "reset answered"
    PowerOff "power_off answered"
    Environment "environment answered"
    Look "looks answered: image, peek, cell charge, blank page"
    LookInPulse "looks answered while a pulse charges"
    Refused4 "refused by 4: place"
    Refused5 "refused by 5: whole seconds 2^64-1"
    Refused6 "refused by 6: before the last settling"
    Refused7 "refused by 7: too few event words"
    RoomK "event room of k words, refused"
    RoomK1 "event room of k+1 words, taken"
    ReadBack "snapshot read back in a history"
    Refused9 "snapshot refused by 9"
    Refused10 "snapshot refused by 10"
    Refused11 "snapshot refused by 11"
    Refused12 "snapshot refused by 12"
    LateTime "answered in the last second that is not refused"
    ProgramOpened "program pulse opened"
    EraseOpened "erase pulse opened"
    EraseNone "erase pulse opened over no block"
    ProgramCharged "program pulse charged"
    Charged0 "erase pulse charged: block 0"
    Charged1 "erase pulse charged: block 1"
    Charged2 "erase pulse charged: block 2"
    Charged3 "erase pulse charged: block 3"
    Charged4 "erase pulse charged: block 4"
    Charged5 "erase pulse charged: block 5"
    OneUnit "exposed for one raw unit"
    PastFull "exposed for longer than a cell's whole charge takes"
    ProgramBefore "program pulse settled one unit before its ready"
    ProgramAt "program pulse settled at its ready"
    ProgramAfter "program pulse settled one unit after its ready"
    EraseBefore "erase pulse settled one unit before its ready"
    EraseAt "erase pulse settled at its ready"
    EraseAfter "erase pulse settled one unit after its ready"
    ReadyBefore "read one unit before ready"
    ReadyAt "read at ready"
    ReadyAfter "read one unit after ready"
    RecoveryBefore "read one unit before recovery"
    RecoveryAt "read at recovery"
    RecoveryAfter "read one unit after recovery"
    SweBefore "data write one unit before SWE-ready"
    SweAt "data write at SWE-ready"
    LatchBefore "data write one unit before recovery"
    LatchAt "data write at recovery"
    PvPending "program verify sense pending"
    EvPending "erase verify sense pending"
    PvSensed "program verify sensed"
    EvSensed "erase verify sensed"
    SenseBefore "settled one unit before a pending sense is due"
    SenseAt "settled when a pending sense is due"
    SenseAfter "settled one unit after a pending sense is due"
    SenseDropped "pending sense dropped without sensing"
    SenseStopped "pending sense past due, supply Stopped"
    SensedRead "read answered from the sensed bytes"
    UnservedRead "read answered FF without a pulse"
    ServedRead "read answered from the stored array"
    ByteTrips "protection tripped by a byte read"
    WordTrips "protection tripped by a word read"
    ProtectTrips "protection tripped by protect"
    ProtectIdle "protect without a pulse"
    ErrorKept "control written while error is set"
    Retargeted "erase retargeted in a pulse"
    Disabled "F02B cleared in a pulse"
    Enabled "F02B set in a pulse"
    IgnoredInPulse "register write ignored in a pulse, not enabled"
    SupplyInPulse "supply changed in a pulse"
    ModeInPulse "mode changed in a pulse, supply still Normal"
    OscillatorInPulse "oscillator stopped in a pulse"
    ModuleInPulse "module lost in a pulse"
    SameInPulse "unchanged environment in a pulse"
    OscillatorStarts "oscillator started"
    SupplyReturns "supply back from Reduced or Stopped"
    ResetInPulse "reset in a pulse"
    OffInPulse "power-off in a pulse"
    TwoBits "erase write with more than one bit"
    Reserved "erase write of 64 or 128"
    WithoutSwe "erase write without SWE"
    ByteProgrammed "byte event of a program pulse"
    ByteErased "byte event of an erase pulse"
    Completed "completed event"
    Interrupted "interrupted event"
    Pages0 "snapshot with no page"
    Pages1 "snapshot with 1 page"
    Pages2 "snapshot with 2 to 8 pages"
    Pages9 "snapshot with 9 to 223 pages"
    Pages224 "snapshot with 224 to 383 pages"
    Pages384 "snapshot with 384 pages"
}

#[derive(Clone)]
pub struct Reach {
    /// Steps made, and answers by situation.
    pub steps: u64,
    pub calls: u64,
    counts: Vec<u64>,
}

impl Default for Reach {
    fn default() -> Self {
        Reach { steps: 0, calls: 0, counts: vec![0; TEXTS.len()] }
    }
}

impl Reach {
    fn hit(&mut self, what: R, when: bool) {
        self.counts[what as usize] += u64::from(when);
    }

    /// Counts where a number lies: one below an edge, at it, or one above.
    fn edge(&mut self, at: u128, edge: u128, [below, here, above]: [R; 3]) {
        self.hit(below, edge.checked_sub(1) == Some(at));
        self.hit(here, at == edge);
        self.hit(above, edge.checked_add(1) == Some(at));
    }

    pub fn add(&mut self, other: &Reach) {
        self.steps += other.steps;
        self.calls += other.calls;
        for (count, more) in self.counts.iter_mut().zip(&other.counts) {
            *count += more;
        }
    }

    /// What was never reached.
    pub fn missing(&self) -> Vec<&'static str> {
        let zero = TEXTS.iter().zip(&self.counts).filter(|(_, count)| **count == 0);
        zero.map(|(text, _)| *text).collect()
    }

    /// A line for each situation.
    pub fn table(&self) -> String {
        let line = |(text, count): (&&str, &u64)| format!("{count:>10}  {text}\n");
        TEXTS.iter().zip(&self.counts).map(line).collect()
    }

    pub fn start(&mut self, start: Start, view: &View) {
        self.hit(R::FillFf, start == Start::Fill(0xff));
        self.hit(R::Fill00, start == Start::Fill(0));
        self.hit(R::Random, matches!(start, Start::Random(_)));
        let restored = matches!(start, Start::Restored(_));
        self.hit(R::Restored, restored);
        self.hit(R::RestoredPending, restored && view.pending.is_some());
    }

    /// Counts one step between two states.
    pub fn step(&mut self, before: &View, step: &Step, came: &Came, after: &View) {
        self.steps += 1;
        let pages = [
            (R::Pages0, 0..1),
            (R::Pages1, 1..2),
            (R::Pages2, 2..9),
            (R::Pages9, 9..224),
            (R::Pages224, 224..384),
            (R::Pages384, 384..385),
        ];
        for (what, range) in pages {
            self.hit(what, range.contains(&after.pages));
        }
        match (&step.what, came) {
            (What::Restore(..), Came::Restored) => self.hit(R::ReadBack, true),
            (What::Restore(..), Came::Refused(number)) => {
                self.hit(R::Refused9, *number == 9);
                self.hit(R::Refused10, *number == 10);
                self.hit(R::Refused11, *number == 11);
                self.hit(R::Refused12, *number == 12);
            }
            (What::Look(..), Came::Looked) => {
                self.hit(R::Look, true);
                self.hit(R::LookInPulse, before.pulse().is_some_and(|p| step.at > p.ready));
            }
            (What::Call(call, room), came) => {
                self.calls += 1;
                self.call(before, *call, *room, step.at, came, after);
            }
            _ => {}
        }
    }

    fn call(&mut self, v: &View, call: Call, room: usize, at: u128, came: &Came, after: &View) {
        let words = match came {
            Came::Refused(number) => {
                self.hit(R::Refused4, *number == 4);
                self.hit(R::Refused5, *number == 5);
                self.hit(R::Refused6, *number == 6);
                self.hit(R::Refused7, *number == 7);
                self.hit(R::RoomK, *number == 7 && room + 1 == v.words());
                return;
            }
            Came::Answered { words, .. } => words,
            _ => return,
        };
        let settles = v.settles(call, at);
        self.hit(R::LateTime, at >> 64 == u128::from(u64::MAX) - 1);
        self.hit(R::RoomK1, settles && v.words() > 0 && room == v.words());
        self.kinds(v, call, at, after);
        if settles {
            self.settled(v, at, words);
            self.sensed(v, at, after);
        }
        let opened = after.pulse().filter(|pulse| Some(*pulse) != v.pulse());
        self.hit(R::ProgramOpened, opened.is_some_and(|p| p.program));
        self.hit(R::EraseOpened, opened.is_some_and(|p| !p.program && p.length > 0));
        self.hit(R::EraseNone, opened.is_some_and(|p| p.length == 0));
        if v.pulse().is_some() {
            self.in_pulse(v, call, after);
        }
    }

    fn settled(&mut self, v: &View, at: u128, words: &[u64]) {
        let Some(pulse) = v.pulse() else { return };
        if pulse.program {
            self.edge(at, pulse.ready, [R::ProgramBefore, R::ProgramAt, R::ProgramAfter]);
        } else {
            self.edge(at, pulse.ready, [R::EraseBefore, R::EraseAt, R::EraseAfter]);
        }
        let exposed = at.saturating_sub(pulse.ready.max(v.pulse_since));
        let blocks = [R::Charged0, R::Charged1, R::Charged2, R::Charged3, R::Charged4, R::Charged5];
        if exposed > 0 && pulse.program {
            self.hit(R::ProgramCharged, true);
        } else if exposed > 0 && pulse.length > 0 {
            self.hit(blocks[v.erase.trailing_zeros() as usize], true);
        }
        let rate = if pulse.program { 100 } else { 7 };
        self.hit(R::OneUnit, exposed == 1 && pulse.length > 0);
        self.hit(R::PastFull, exposed > u128::from(FULL) / rate && pulse.length > 0);
        for word in words {
            match Event::from_word(*word) {
                Some(Event::Byte { .. }) if pulse.program => self.hit(R::ByteProgrammed, true),
                Some(Event::Byte { .. }) => self.hit(R::ByteErased, true),
                Some(Event::Completed { .. }) => self.hit(R::Completed, true),
                _ => self.hit(R::Interrupted, true),
            }
        }
    }

    fn sensed(&mut self, v: &View, at: u128, after: &View) {
        let Some((_, due)) = v.pending else { return };
        if v.verifying() && v.supply != 2 {
            self.edge(at, due, [R::SenseBefore, R::SenseAt, R::SenseAfter]);
        }
        let senses = at >= due && v.supply != 2;
        self.hit(R::PvSensed, senses && v.control & 15 == PV);
        self.hit(R::EvSensed, senses && v.control & 15 == EV);
        self.hit(R::SenseStopped, at >= due && v.supply == 2);
        let dropped = after.pending.is_none() && !(senses && v.verifying());
        self.hit(R::SenseDropped, dropped);
    }

    fn kinds(&mut self, v: &View, call: Call, at: u128, after: &View) {
        match call {
            Call::WriteRegister { address, value } => {
                self.hit(R::WriteRegister, true);
                self.hit(R::ErrorKept, address == FLMCR1 && v.enabled && v.error && after.error);
                if address == EBR1 && v.enabled {
                    let swe = v.control & SWE != 0;
                    self.hit(R::TwoBits, swe && value.count_ones() > 1);
                    self.hit(R::Reserved, swe && matches!(value, 64 | 128));
                    self.hit(R::WithoutSwe, !swe && value != 0);
                }
            }
            Call::Write8 { .. } => {
                self.hit(R::Write8, true);
                self.data_write(v, at, after);
            }
            Call::Read8 { .. } => {
                self.hit(R::Read8, true);
                self.read(v, at);
            }
            Call::Read16 { .. } => {
                self.hit(R::Read16, true);
                self.read(v, at);
            }
            Call::Protect => self.hit(R::Protect, true),
            Call::Reset => self.hit(R::Reset, true),
            Call::PowerOff => self.hit(R::PowerOff, true),
            Call::Environment { oscillator, .. } => {
                self.hit(R::Environment, true);
                self.hit(R::OscillatorStarts, oscillator && !v.oscillator);
                self.hit(R::SupplyReturns, v.supply != 0 && after.supply < v.supply);
            }
        }
        self.hit(R::ProtectIdle, call == Call::Protect && v.pulse().is_none());
    }

    fn data_write(&mut self, v: &View, at: u128, after: &View) {
        let on = v.control & SWE != 0 && v.supply == 0 && v.oscillator;
        if on && v.control & 15 == 0 {
            let later = v.recovery.max(v.swe_ready);
            let swe = v.swe_ready == later;
            let edges = if swe { [R::SweBefore, R::SweAt] } else { [R::LatchBefore, R::LatchAt] };
            self.hit(edges[0], later.checked_sub(1) == Some(at));
            self.hit(edges[1], at == later);
        }
        let pending = after.pending.is_some() && after.pending != v.pending;
        self.hit(R::PvPending, pending && v.control & 15 == PV);
        self.hit(R::EvPending, pending && v.control & 15 == EV);
    }

    fn read(&mut self, v: &View, at: u128) {
        if v.control & 0x3f == 0 && v.supply != 2 {
            if v.ready > v.recovery {
                self.edge(at, v.ready, [R::ReadyBefore, R::ReadyAt, R::ReadyAfter]);
            } else {
                self.edge(at, v.recovery, [R::RecoveryBefore, R::RecoveryAt, R::RecoveryAfter]);
            }
        }
        let normal = v.normal(at);
        let idle = !normal && v.pulse().is_none();
        let sensed = idle && v.supply != 2 && at >= v.ready && v.verifying();
        self.hit(R::ServedRead, normal);
        self.hit(R::SensedRead, sensed);
        self.hit(R::UnservedRead, idle && !sensed);
    }

    fn in_pulse(&mut self, v: &View, call: Call, after: &View) {
        self.hit(R::Retargeted, v.retargets(call));
        match call {
            Call::WriteRegister { address: FENR, .. } => {
                self.hit(R::Disabled, v.enabled && !after.enabled);
                self.hit(R::Enabled, !v.enabled && after.enabled);
            }
            Call::WriteRegister { .. } => self.hit(R::IgnoredInPulse, !v.enabled),
            Call::Read8 { .. } => self.hit(R::ByteTrips, true),
            Call::Read16 { .. } => self.hit(R::WordTrips, true),
            Call::Protect => self.hit(R::ProtectTrips, true),
            Call::Reset => self.hit(R::ResetInPulse, true),
            Call::PowerOff => self.hit(R::OffInPulse, true),
            Call::Environment { mode, module, oscillator } => {
                self.hit(R::SupplyInPulse, after.supply != v.supply);
                self.hit(R::ModeInPulse, after.supply == v.supply && mode != v.mode);
                self.hit(R::OscillatorInPulse, !oscillator && v.oscillator);
                self.hit(R::ModuleInPulse, !module && v.module);
                let new = (mode, module, oscillator);
                let old = (v.mode, v.module, v.oscillator);
                self.hit(R::SameInPulse, new == old && after.supply == v.supply);
            }
            _ => {}
        }
    }
}
