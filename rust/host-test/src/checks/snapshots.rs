//! Snapshots: what they hold, that they restore it, and every way in which one can be damaged.
use super::*;
use crate::chip::{MARK, MARK_BYTE};
use crate::format::{judge, walk, Field, Kind};

/// After everything that `chips` does.
const LATER: u128 = 10 << 64;

/// A chip that was left in the middle of something, and how many pages it has opened.
struct Left {
    chip: Chip,
    pages: usize,
    pending: bool,
}

/// Opens the page of an address by programming a byte of it for 200 µs.
fn open_page(chip: &mut Chip, address: u16, at: u128) -> Check {
    let start = program(chip, &[(address, 0x5a)], at)?;
    control(chip, SWE | PSU, start + micros(200))?;
    control(chip, 0, start + micros(250))?;
    Ok(())
}

/// No page; three pages in falling address, under a fourth's pulse; a block erased, with a sense
/// pending.
fn chips() -> Result<Vec<Left>, String> {
    let none = Left { chip: fresh(0xc3)?, pages: 0, pending: false };
    let mut falling = fresh(0xff)?;
    for (i, address) in [0x8000, 0x1480, 0x0100].into_iter().enumerate() {
        open_page(&mut falling, address, micros(1000) * (i as u128 + 1))?;
    }
    program(&mut falling, &[(0xbf80, 0)], micros(5000))?;
    let falling = Left { chip: falling, pages: 3, pending: false };
    let mut erased = fresh(0)?;
    let start = erase(&mut erased, 2, 0)?;
    control(&mut erased, SWE | ESU, start + micros(10_000))?;
    control(&mut erased, SWE, start + micros(10_020))?;
    control(&mut erased, SWE | EV, start + micros(10_040))?;
    done(&mut erased, Ask::Write8(0x0406, 0xff), start + micros(10_060))?;
    let erased = Left { chip: erased, pages: 8, pending: true };
    Ok(vec![none, falling, erased])
}

fn written(chip: &Chip) -> Result<Vec<u8>, String> {
    let mut out = vec![MARK_BYTE; 49_412 + 384 * 8_194 + 18];
    let (refusal, length) = chip.write_snapshot(&mut out);
    same("flash_write_snapshot", refusal, 0)?;
    let length = length.and_then(|n| usize::try_from(n).ok()).unwrap_or(usize::MAX);
    holds("the length is inside", length <= out.len())?;
    holds("output past it stays", out[length..].iter().all(|b| *b == MARK_BYTE))?;
    out.truncate(length);
    Ok(out)
}

pub fn holds_the_state() -> Check {
    for Left { mut chip, pages, pending } in chips()? {
        let bytes = written(&chip)?;
        same("length", bytes.len(), 49_412 + 8_194 * pages + 18 * usize::from(pending))?;
        let (read, number) = walk(&bytes);
        same("fields", number, 0)?;
        same("pages", read.pages.len(), pages)?;
        same("pending", read.pending.is_some(), pending)?;
        holds("bytes are the array", bytes[..ARRAY_BYTES] == chip.array[..])?;
        for (name, address) in [("control", FLMCR1), ("erase", EBR1)] {
            answers(&mut chip, Ask::Register(address), 0, read.value(&bytes, name) as u64)?;
        }
        for (name, address) in [("error", FLMCR2), ("power_down_disabled", FLPWCR)] {
            answers(&mut chip, Ask::Register(address), 0, (read.value(&bytes, name) as u64) << 7)?;
        }
        // Charges as looking at the last settling has them; slot order is the order of opening.
        let since = read.value(&bytes, "pulse_since");
        let charges: Vec<&Field> =
            read.fields.iter().filter(|field| field.kind == Kind::Charge).collect();
        for (slot, address) in read.pages.iter().enumerate() {
            for j in [0, 1, 7, 8, 500, 1023] {
                let field = charges[slot * 1024 + j];
                let mut value = [0; 8];
                value.copy_from_slice(&bytes[field.start..field.end]);
                let cell = Ask::CellCharge(address + j as u16 / 8, j as u8 % 8);
                answers(&mut chip, cell, since, u64::from_le_bytes(value))?;
            }
        }
    }
    let order: Vec<u16> = walk(&written(&chips()?[1].chip)?).0.pages;
    same("pages in slot order", order, vec![0x8000, 0x1480, 0x0100])
}

pub fn restores() -> Check {
    for Left { chip, pages, .. } in chips()? {
        let bytes = written(&chip)?;
        let mut other = Chip::unmade();
        same("flash_read_snapshot", other.read_snapshot(&bytes, LATER), 0)?;
        holds("record", other.record == chip.record)?;
        holds("array", other.array == chip.array)?;
        let used = pages * 1024;
        holds("charges in use", other.charges[..used] == chip.charges[..used])?;
        holds("slots not in use", other.charges[used..].iter().all(|q| *q == MARK))?;
        holds("writes back", written(&other)? == bytes)?;
    }
    Ok(())
}

/// The same calls on the original and on what was restored, one after the other.
pub fn answers_alike() -> Check {
    for Left { chip, .. } in chips()? {
        let bytes = written(&chip)?;
        let (mut one, mut two) = (chip.clone(), Chip::unmade());
        same("flash_read_snapshot", two.read_snapshot(&bytes, LATER), 0)?;
        let asks = [
            Ask::Image(ARRAY_BYTES),
            Ask::BlankPage(0x0400),
            Ask::CellCharge(0x0406, 3),
            Ask::Read8(0x0406),
            Ask::Read16(0xbf80),
            Ask::WriteRegister(FLMCR1, SWE),
            Ask::Write8(0x2000, 0),
            Ask::WriteRegister(FLMCR1, SWE | PSU),
            Ask::WriteRegister(FLMCR1, SWE | PSU | P),
            Ask::Peek(0x2000),
            Ask::WriteRegister(FLMCR1, SWE | PSU),
            Ask::Reset,
            Ask::Image(ARRAY_BYTES),
            Ask::PowerOff,
        ];
        for (i, ask) in asks.into_iter().enumerate() {
            let at = LATER + micros(1000) * i as u128;
            let (want, got) = (one.ask(ask, at), two.ask(ask, at));
            same(ask, got, want)?;
            same("refusal", got.refusal, 0)?;
            let n = got.count as usize;
            holds((ask, "events"), two.events[..n] == one.events[..n])?;
            holds((ask, "record"), two.record == one.record)?;
            holds((ask, "array"), two.array == one.array)?;
        }
        holds("snapshots at the end", written(&one)? == written(&two)?)?;
    }
    Ok(())
}

/// Memory that reads damaged snapshots, and how often each number came.
struct Taker {
    chip: Chip,
    before: Chip,
    seen: [usize; 13],
}

impl Taker {
    fn new() -> Result<Self, String> {
        let chip = chips()?.remove(1).chip;
        Ok(Taker { before: chip.clone(), chip, seen: [0; 13] })
    }

    /// Demands the number that the format gives; nothing may change on a refusal, and what is taken
    /// must write back.
    fn reads(&mut self, what: impl Debug, bytes: &[u8], at: u128) -> Check {
        let want = judge(bytes, at);
        same(&what, self.chip.read_snapshot(bytes, at), want)?;
        self.seen[want as usize] += 1;
        if want == 0 {
            holds((&what, "writes back"), written(&self.chip)? == bytes)?;
            self.chip = self.before.clone();
        }
        unchanged(&self.chip, &self.before).map_err(|why| format!("{what:?}: {why}"))
    }
}

/// Values that a field of a kind can be damaged with.
fn damages(field: Field, bytes: &[u8]) -> Vec<Vec<u8>> {
    let old = &bytes[field.start..field.end];
    let mut swapped = old.to_vec();
    swapped.reverse();
    let mut list = vec![vec![0; old.len()], vec![0xff; old.len()], swapped];
    match field.kind {
        Kind::Any => {
            for at in [0, old.len() - 1] {
                for bit in 0..8 {
                    let mut other = old.to_vec();
                    other[at] ^= 1 << bit;
                    list.push(other);
                }
            }
        }
        Kind::Most(_) => list.extend((0..=255).map(|byte| vec![byte])),
        Kind::Count => {
            let n = u32::from_le_bytes(old.try_into().expect("four bytes"));
            let counts = [n.wrapping_sub(1), n + 1, 384, 385, 0x8000_0000 | n, n << 24 | n];
            list.extend(counts.map(|n| n.to_le_bytes().to_vec()));
        }
        Kind::Address => {
            let n = u16::from_le_bytes(old.try_into().expect("two bytes"));
            let others = [n + 1, n + 64, n ^ 0x80, 0xbf80, 0xc000, 0xff80, 0x8000, 0x1480, 0x0400];
            list.extend(others.map(|n| n.to_le_bytes().to_vec()));
        }
        Kind::Charge => {
            let others = [FULL - 1, FULL, FULL + 1, FULL.swap_bytes(), u64::MAX];
            list.extend(others.map(|q| q.to_le_bytes().to_vec()));
        }
    }
    list
}

/// Every field, but of a page's charges only some, where each is tried in many ways.
fn tried(fields: &[Field]) -> impl Iterator<Item = Field> + '_ {
    let mut charges = 0;
    fields.iter().copied().filter(move |field| {
        charges += usize::from(field.kind == Kind::Charge);
        field.kind != Kind::Charge || matches!(charges % 1024, 1 | 2 | 511 | 0)
    })
}

pub fn damaged_fields() -> Check {
    let mut taker = Taker::new()?;
    for left in chips()? {
        let bytes = written(&left.chip)?;
        for field in tried(&walk(&bytes).0.fields) {
            for damage in damages(field, &bytes) {
                let mut other = bytes.clone();
                other[field.start..field.end].copy_from_slice(&damage);
                taker.reads((left.pages, field.name, field.start, &damage), &other, LATER)?;
            }
        }
    }
    for number in [0, 9, 10, 11, 12] {
        holds(("came about", number), taker.seen[number] > 0)?;
    }
    Ok(())
}

/// Each charge of every page, just over FULL.
pub fn damaged_charges() -> Check {
    let mut taker = Taker::new()?;
    let mut charges = 0;
    for left in chips()? {
        let mut bytes = written(&left.chip)?;
        for field in walk(&bytes).0.fields.iter().filter(|field| field.kind == Kind::Charge) {
            let place = field.start..field.end;
            let good = bytes[place.clone()].to_vec();
            bytes[place.clone()].copy_from_slice(&(FULL + 1).to_le_bytes());
            taker.reads((left.pages, field.start), &bytes, LATER)?;
            bytes[place].copy_from_slice(&good);
            charges += 1;
        }
    }
    same("all were 10", (charges, taker.seen[10]), (11 * 1024, 11 * 1024))
}

/// At every boundary of fields, a byte before it and a byte after it.
pub fn cuts() -> Check {
    let mut taker = Taker::new()?;
    for left in chips()? {
        let bytes = written(&left.chip)?;
        for field in walk(&bytes).0.fields {
            for cut in [field.start, field.start + 1, field.end - 1] {
                let chip = &mut taker.chip;
                same((left.pages, field.name, cut), chip.read_snapshot(&bytes[..cut], LATER), 9)?;
            }
        }
        unchanged(&taker.chip, &taker.before)?;
        for field in tried(&walk(&bytes).0.fields) {
            taker.reads((field.name, "cut"), &bytes[..field.start], LATER)?;
        }
    }
    same("all were 9", taker.seen[9], taker.seen.iter().sum())
}

/// A field that is damaged and an end that comes before it, in it or after it.
pub fn two_damages() -> Check {
    let mut taker = Taker::new()?;
    for left in chips()? {
        let bytes = written(&left.chip)?;
        let fields: Vec<Field> = tried(&walk(&bytes).0.fields).collect();
        for damaged in fields.iter().filter(|field| field.kind != Kind::Any) {
            let mut other = bytes.clone();
            other[damaged.start..damaged.end].fill(0xff);
            for end in fields.iter().map(|field| field.end).chain([damaged.end - 1, damaged.start])
            {
                taker.reads((damaged.name, damaged.start, end), &other[..end], LATER)?;
            }
        }
    }
    holds("9 and 10 came about", taker.seen[9] > 0 && taker.seen[10] > 0)
}

pub fn left_over() -> Check {
    let mut taker = Taker::new()?;
    for left in chips()? {
        let mut bytes = written(&left.chip)?;
        for more in [1, 17, 8_176] {
            bytes.resize(bytes.len() + more, 0);
            taker.reads(("left over", more), &bytes, LATER)?;
        }
    }
    same("all were 11", taker.seen[11], 9)
}

pub fn order() -> Check {
    let left = chips()?.remove(1);
    let bytes = written(&left.chip)?;
    let since = walk(&bytes).0.value(&bytes, "pulse_since");
    let last = u128::from(u64::MAX) << 64;
    let mut taker = Taker::new()?;
    taker.reads("at the last settling", &bytes, since)?;
    taker.reads("before it: 12", &bytes, since - 1)?;
    taker.reads("just before the last second", &bytes, last - 1)?;
    same("12", taker.seen[12], 1)?;
    same("taken", taker.seen[0], 2)?;
    let mut spoilt = bytes.clone();
    spoilt.push(0);
    let control = walk(&bytes).0.fields.iter().find(|f| f.name == "control").map(|f| f.start);
    spoilt[control.expect("a field's name")] = 0x80;
    taker.reads("11 before 12", &spoilt, LATER)?;
    same("11", taker.seen[11], 1)?;
    same("5 before 9", taker.chip.read_snapshot(&bytes[..9], last), 5)?;
    let mut short = taker.chip.clone();
    short.charges.pop();
    let before = short.clone();
    same("2 before 5", short.read_snapshot(&bytes[..9], last), 2)?;
    unchanged(&short, &before)?;
    // A record that is no state is no refusal: reading makes another.
    let mut unmade = Chip::unmade();
    same("3 is skipped", unmade.read_snapshot(&bytes, since), 0)?;
    holds("record", unmade.record == left.chip.record)
}

pub fn room() -> Check {
    for Left { chip, .. } in chips()? {
        let length = written(&chip)?.len();
        for room in [0, 1, ARRAY_BYTES, length - 1] {
            let mut out = vec![MARK_BYTE; room];
            same(("8", room), chip.write_snapshot(&mut out), (8, None))?;
            holds("output stays", out.iter().all(|b| *b == MARK_BYTE))?;
        }
        let mut out = vec![MARK_BYTE; length];
        same("just enough", chip.write_snapshot(&mut out), (0, Some(length as u64)))?;
        let mut short = chip.clone();
        short.array.pop();
        same("2 before 8", short.write_snapshot(&mut []), (2, None))?;
        let mut spoilt = chip.clone();
        spoilt.record.fill(0xff);
        same("3 before 8", spoilt.write_snapshot(&mut []), (3, None))?;
    }
    Ok(())
}

/// On a chip and on records with a byte changed: what reading a snapshot of it would be refused by 12
/// for is answered 0, and what else is wrong with a record is 3.
pub fn validate() -> Check {
    let mut chip = chips()?.remove(1).chip;
    let since = walk(&written(&chip)?).0.value(&written(&chip)?, "pulse_since");
    answers(&mut chip, Ask::Validate, since, 1)?;
    answers(&mut chip, Ask::Validate, since - 1, 0)?;
    refused(&mut chip, Ask::Validate, u128::from(u64::MAX) << 64, 5)?;
    let mut wiped = chip.clone();
    done(&mut wiped, Ask::Reset, LATER)?;
    enable(&mut wiped, LATER)?;
    for (value, valid) in [(1, 1), (32, 1), (64, 0), (128, 0)] {
        done(&mut wiped, Ask::WriteRegister(EBR1, value), LATER)?;
        answers(&mut wiped, Ask::Validate, LATER, valid)?;
        let number = if valid == 1 { 0 } else { 12 };
        let bytes = written(&wiped)?;
        same(("erase", value), Chip::unmade().read_snapshot(&bytes, LATER), number)?;
    }
    let mut answered_0 = 0;
    for i in 0..chip.record.len() {
        for value in [0x80, 0xff] {
            let mut other = chip.clone();
            other.record[i] = value;
            let good = other.ask(Ask::Register(FENR), LATER).refusal == 0;
            let reply = other.ask(Ask::Validate, LATER);
            match (reply.refusal, reply.value) {
                (0, Some(1)) => holds((i, "1 of a good record"), good)?,
                (0, Some(0)) => answered_0 += usize::from(!good),
                (3, None) => holds((i, "3 of a bad record"), !good)?,
                _ => return Err(format!("byte {i} = {value:x}: {reply:?}")),
            }
        }
    }
    holds("some bad record is answered 0", answered_0 > 0)?;
    chip.record.pop();
    refused(&mut chip, Ask::Validate, LATER, 2)
}
