//! Wrong versions of the port, to show that the comparison catches them. Each is the port with one fault put around it: what goes
//! in, what comes out, or the state in between is changed as a wrong program would have it.
use crate::forge::{limits, LATEST};
use crate::view::{offset, View, PAGE_SPAN};
use doqtarbu::register::{EBR1, FLMCR1, P, PSU, PV, SWE};
use doqtarbu::{Call, Instant, Lent, ARRAY_BYTES, FULL, SNAPSHOT_BYTES};

macro_rules! wrongs {
    ($($name:ident $word:literal $text:literal)*) => {
        /// The wrong versions.
        #[derive(Clone, Copy, Debug, PartialEq, Eq)]
        pub enum Wrong { $(#[doc = $text] $name),* }
        impl Wrong {
            pub const ALL: &'static [Wrong] = &[$(Wrong::$name),*];
            /// The word by which it is asked for.
            pub fn word(self) -> &'static str {
                match self { $(Wrong::$name => $word),* }
            }
            /// What is wrong with it.
            pub fn text(self) -> &'static str {
                match self { $(Wrong::$name => $text),* }
            }
        }
    };
}

wrongs! {
    SetupCounts "setup-counts" "setup time counts as exposure: PSU's ready is the instant of the write"
    ReadyLate "ready-late" "PSU's ready comes one raw unit late"
    RecoveryLowered "recovery-lowered" "a falling PSU sets recovery, where it should only raise it"
    Rate99 "rate-99" "programming adds 99 L"
    EraseToOne "erase-to-one" "erasing leaves at least 1"
    ErrorCleared "error-cleared" "a write to F020 clears error"
    OpenedFromNew "opened-from-new" "a page that a settling opens gets the first charges of the bytes after it"
    LimitItself "limit-itself" "a charge that a pulse moved to the normal limit itself senses 1"
    VerifyNormal "verify-normal" "program verify senses by the normal limit"
    EventsFalling "events-falling" "byte events in falling address"
    AllCompleted "all-completed" "every pulse ends completed"
    TwoBits "two-bits" "an erase value with two bits is stored"
    LowFirst "low-first" "a word is low byte first"
    LatchKept "latch-kept" "reset keeps the latch"
    ReadEarly "read-early" "a read is served one raw unit before recovery"
    SlotsByAddress "slots-by-address" "a snapshot's pages are in the order of their addresses"
    SettlesUnchanged "settles-unchanged" "an unchanged environment settles"
    RefusedCounts "refused-counts" "a refused call leaves its count as it was"
}

/// The state through its snapshot, changed in place. A state with erase 64 or more does not read back and stays as it is.
fn edit(lent: &mut Lent, change: impl FnOnce(&mut [u8], &View)) {
    let mut bytes = vec![0; SNAPSHOT_BYTES];
    let mut length = 0;
    assert_eq!(lent.write_snapshot(&mut bytes, &mut length), 0);
    bytes.truncate(length as usize);
    let view = View::of(&bytes);
    change(&mut bytes, &view);
    lent.read_snapshot(&bytes, Instant(LATEST));
}

fn put(bytes: &mut [u8], at: usize, value: u128) {
    bytes[at..at + 16].copy_from_slice(&value.to_le_bytes());
}

const fn micros(n: u64) -> u128 {
    ((n as u128) << 64) / 1_000_000
}

impl Wrong {
    /// The call as the wrong version makes it.
    pub fn call(
        self,
        lent: &mut Lent,
        v: &View,
        call: Call,
        at: u128,
        value: &mut u16,
        count: &mut u64,
    ) -> u32 {
        let before = (self.needs_charges() && v.pulse().is_some())
            .then(|| (lent.array.clone(), lent.charges.clone()));
        if self == Wrong::ReadEarly && early(v, call, at) {
            // Served as from a chip whose recovery is over; nothing is kept.
            let mut copy = lent.clone();
            edit(&mut copy, |b, w| put(b, w.fields + offset::RECOVERY, at));
            return copy.call(call, Instant(at), value, count);
        }
        let mut latch = [0; 128];
        if self == Wrong::LatchKept {
            edit(lent, |b, w| latch.copy_from_slice(&b[w.fields + offset::LATCH..][..128]));
        }
        let held = *count;
        let number = lent.call(call, Instant(at), value, count);
        if number != 0 {
            if self == Wrong::RefusedCounts {
                *count = held;
            }
            return number;
        }
        self.after_write(lent, v, call, at);
        match self {
            Wrong::LowFirst if matches!(call, Call::Read16 { .. }) => *value = value.swap_bytes(),
            Wrong::LatchKept if call == Call::Reset => {
                edit(lent, |b, w| b[w.fields + offset::LATCH..][..128].copy_from_slice(&latch));
            }
            Wrong::SettlesUnchanged if matches!(call, Call::Environment { .. }) => {
                edit(lent, |b, w| put(b, w.fields + offset::PULSE_SINCE, at));
            }
            _ => self.events(&mut lent.events[..*count as usize]),
        }
        if let Some((array, charges)) = before {
            self.after_pulse(lent, v, &array, &charges);
        }
        number
    }

    /// What goes wrong with the event words.
    fn events(self, words: &mut [u64]) {
        if self == Wrong::EventsFalling {
            let bytes = words.iter().take_while(|word| **word >> 32 == 1).count();
            words[..bytes].reverse();
        }
        if self == Wrong::AllCompleted {
            words.iter_mut().filter(|word| **word >> 32 == 3).for_each(|word| *word -= 1 << 32);
        }
    }

    fn needs_charges(self) -> bool {
        use Wrong::*;
        matches!(self, Rate99 | EraseToOne | OpenedFromNew | LimitItself)
    }

    /// What goes wrong with a register write or a sense.
    fn after_write(self, lent: &mut Lent, v: &View, call: Call, at: u128) {
        if self == Wrong::VerifyNormal {
            let due = v.pending.is_some_and(|(_, due)| at >= due) && v.supply != 2;
            if due && v.control & 15 == PV && v.settles(call, at) {
                edit(lent, |b, w| {
                    let (address, _) = v.pending.expect("it is due");
                    let bytes = normal_bytes(b, w, address);
                    let sensed = b.len() - 4;
                    b[sensed..].copy_from_slice(&bytes);
                });
            }
        }
        let Call::WriteRegister { address, value } = call else { return };
        if !v.enabled {
            return;
        }
        let rises = address == FLMCR1 && value & SWE != 0 && value & PSU & !v.control != 0;
        let falls = address == FLMCR1 && v.control & PSU != 0 && value & PSU == 0;
        edit(lent, |b, w| match self {
            Wrong::SetupCounts if rises => put(b, w.fields + offset::PROGRAM_READY, at),
            Wrong::ReadyLate if rises => {
                put(b, w.fields + offset::PROGRAM_READY, at + micros(50) + 1);
            }
            Wrong::RecoveryLowered if falls && v.recovery > at + micros(100) => {
                put(b, w.fields + offset::RECOVERY, at + micros(5));
            }
            Wrong::ErrorCleared if address == FLMCR1 => b[w.fields + offset::ERROR] = 0,
            Wrong::TwoBits if address == EBR1 && v.control & SWE != 0 && value < 64 => {
                b[w.fields + offset::ERASE] = value;
            }
            _ => {}
        });
    }

    /// What goes wrong with the cells of a pulse.
    fn after_pulse(self, lent: &mut Lent, v: &View, array: &[u8], charges: &[u64]) {
        let program = v.control & P != 0;
        edit(lent, |b, w| {
            for slot in 0..w.pages {
                let at = ARRAY_BYTES + 4 + slot * PAGE_SPAN;
                let page = usize::from(u16::from_le_bytes([b[at], b[at + 1]]));
                for cell in 0..1024 {
                    let place = at + 2 + 8 * cell;
                    let new = u64::from_le_bytes(b[place..place + 8].try_into().expect("8 bytes"));
                    let bit = |bytes: &[u8]| bytes[page + cell / 8] >> (cell % 8) & 1;
                    let first = |bit| if bit == 1 { 0 } else { FULL };
                    let opened = slot >= v.pages;
                    let old = if opened { first(bit(array)) } else { charges[1024 * slot + cell] };
                    let wrong = match self {
                        Wrong::Rate99 if program && new > old && new < FULL => {
                            old + (new - old) / 100 * 99
                        }
                        Wrong::EraseToOne if new == 0 && old > 0 => 1,
                        Wrong::OpenedFromNew if opened && bit(b) != bit(array) => first(bit(b)),
                        _ => new,
                    };
                    b[place..place + 8].copy_from_slice(&wrong.to_le_bytes());
                    let moved = slot >= v.pages || new != old;
                    if self == Wrong::LimitItself && moved && new == limits(8 * page + cell)[0] {
                        b[page + cell / 8] |= 1 << (cell % 8);
                    }
                }
            }
        });
    }

    /// What goes wrong with the snapshot that is written.
    pub fn snapshot(self, bytes: &mut [u8]) {
        if self == Wrong::SlotsByAddress {
            let view = View::of(bytes);
            let span = ARRAY_BYTES + 4..view.fields;
            let mut pages: Vec<Vec<u8>> =
                bytes[span.clone()].chunks(PAGE_SPAN).map(Vec::from).collect();
            pages.sort_by_key(|page| u16::from_le_bytes([page[0], page[1]]));
            bytes[span].copy_from_slice(&pages.concat());
        }
    }
}

/// Whether it is a read that would be served one raw unit later.
fn early(v: &View, call: Call, at: u128) -> bool {
    let read = matches!(call, Call::Read8 { .. } | Call::Read16 { .. });
    let reading = v.control & 0x3f == 0 && v.supply != 2 && at >= v.ready;
    read && reading && v.recovery == at + 1
}

/// Four bytes as they are sensed normally.
fn normal_bytes(b: &[u8], v: &View, address: u16) -> [u8; 4] {
    let mut out = [0; 4];
    for (lane, byte) in out.iter_mut().enumerate() {
        let at = usize::from(address) + lane;
        let slot = (0..v.pages).find(|slot| {
            let p = ARRAY_BYTES + 4 + slot * PAGE_SPAN;
            usize::from(u16::from_le_bytes([b[p], b[p + 1]])) == at / 128 * 128
        });
        for bit in 0..8 {
            let charge = match slot {
                Some(slot) => {
                    let p = ARRAY_BYTES + 4 + slot * PAGE_SPAN + 2 + 8 * (at % 128 * 8 + bit);
                    u64::from_le_bytes(b[p..p + 8].try_into().expect("8 bytes"))
                }
                None if b[at] >> bit & 1 == 1 => 0,
                None => FULL,
            };
            *byte |= u8::from(charge < limits(8 * at + bit)[0]) << bit;
        }
    }
    out
}
