//! The differences that docs/DIFFERENCES.md lists and that a call can show, by their smallest inputs. All lie outside document 01's domain.
use compare::view::View;
use doqtarbu::register::{E, EBR1, ESU, FENR, FLMCR1, FLMCR2, P, PSU, SWE};
use doqtarbu::{Flash, Instant, Lent, Refusal, ARRAY_BYTES, FULL, PAGE_BYTES};
use original::{refusal_number, Original};
use std::panic::catch_unwind;

const LAST: u128 = (u64::MAX as u128) << 64;
const SECOND: u128 = 1 << 64;

fn both() -> (Flash, Original) {
    let firmware = [0xff; ARRAY_BYTES];
    (Flash::new(&firmware).unwrap(), Original::new(&firmware).unwrap())
}

fn snapshot(chip: &Original) -> Vec<u8> {
    let mut out = Vec::new();
    chip.write_snapshot(&mut out);
    out
}

#[test]
fn last_second() {
    let (mut port, mut original) = both();
    assert_eq!(port.reset(Instant(LAST)), Err(Refusal::LastSecond));
    original.reset(LAST, &mut ());
    assert_eq!(View::of(&snapshot(&original)).recovery, LAST);
    // A wait that would pass the last instant is an error there, and only after the settling.
    original.write_register(FENR, 0x80, u128::MAX, &mut ()).unwrap();
    assert!(original.write_register(FLMCR1, SWE, u128::MAX, &mut ()).is_err());
    assert_eq!(View::of(&snapshot(&original)).pulse_since, u128::MAX);
}

#[test]
fn before_the_last_settling() {
    let (mut port, mut original) = both();
    port.reset(Instant(SECOND)).unwrap();
    original.reset(SECOND, &mut ());
    assert_eq!(port.reset(Instant(0)), Err(Refusal::BeforeSettling));
    original.reset(0, &mut ());
    assert_eq!(View::of(&snapshot(&original)).pulse_since, 0);
}

#[test]
fn address_past_the_end() {
    let (mut port, mut original) = both();
    assert_eq!(port.read8(0xc000, Instant(0)), Err(Refusal::Address));
    assert_eq!(port.read16(0xbfff, Instant(0)), Err(Refusal::Address));
    assert_eq!(port.peek(0xc000, Instant(0)), Err(Refusal::Address));
    let served = original.clone();
    assert!(catch_unwind(move || served.clone().read8(0xc000, 0, &mut ()).is_ok()).is_err());
    let looked = original.clone();
    assert!(catch_unwind(move || looked.peek(0xc000, 0)).is_err());
    // A data write past the end is taken there, and leaves a page that a snapshot may not have.
    for (address, value) in [(FENR, 0x80), (FLMCR1, SWE)] {
        port.write_register(address, value, Instant(0)).unwrap();
        original.write_register(address, value, 0, &mut ()).unwrap();
    }
    assert_eq!(port.write8(0xc000, 0, Instant(SECOND)), Err(Refusal::Address));
    let mut unserved = original.clone();
    unserved.write_register(FLMCR1, SWE | PSU, SECOND, &mut ()).unwrap();
    assert_eq!(unserved.read8(0xc000, SECOND, &mut ()), Ok(0xff));
    original.write8(0xc000, 0, SECOND, &mut ()).unwrap();
    assert_eq!(View::of(&snapshot(&original)).page, 0xc000);
    assert!(original.validate(SECOND).is_err());
}

/// Opens an erase pulse over block 0; gives the instant from which it charges.
fn erase(port: &mut Lent) -> u128 {
    let (mut value, mut count) = (0, 0);
    let writes =
        [(FENR, 0x80), (FLMCR1, SWE), (EBR1, 1), (FLMCR1, SWE | ESU), (FLMCR1, SWE | ESU | E)];
    for (address, value8) in writes {
        let call = doqtarbu::Call::WriteRegister { address, value: value8 };
        assert_eq!(port.call(call, Instant(SECOND), &mut value, &mut count), 0);
    }
    SECOND + (100 << 64) / 1_000_000
}

/// Only lent memory can hold a charge over FULL: the original can't be given one, so its side is read off its source.
#[test]
fn charge_over_full() {
    let mut port = Lent::zeroed();
    assert_eq!(port.renew(&[0x00; ARRAY_BYTES]), 0);
    let ready = erase(&mut port);
    let (mut value, mut count) = (0, 0);
    let settle = doqtarbu::Call::WriteRegister { address: FLMCR2, value: 0 };
    assert_eq!(port.call(settle, Instant(ready + 1), &mut value, &mut count), 0);
    port.charges[0] = FULL + 1;
    let whole = 1_844_674_407_370_955_158;
    assert_eq!(port.call(settle, Instant(ready + 1 + whole), &mut value, &mut count), 0);
    assert_eq!(port.charges[0], 0);
    let mut shot = vec![0; doqtarbu::SNAPSHOT_BYTES];
    let mut length = 0;
    port.charges[0] = FULL + 1;
    assert_eq!(port.write_snapshot(&mut shot, &mut length), 0);
    let error = Original::read_snapshot(&shot[..length as usize]).err().unwrap();
    assert_eq!(refusal_number(&error), 10);
}

#[test]
fn page_that_is_no_page_start() {
    let (_, mut original) = both();
    for (address, value) in
        [(FENR, 0x80), (FLMCR1, SWE), (FLMCR1, SWE | PSU), (FLMCR1, SWE | PSU | P)]
    {
        original.write_register(address, value, 0, &mut ()).unwrap();
    }
    let mut shot = snapshot(&original);
    let at = View::of(&shot).fields + compare::view::offset::PAGE;
    shot[at] = 1;
    let mut misaligned = Original::read_snapshot(&shot).unwrap();
    assert!(misaligned.validate(0).is_err());
    assert_eq!(Flash::restore(&shot, Instant(0)).err(), Some(Refusal::SnapshotInvalid));
    let mut events = Vec::new();
    misaligned.reset(SECOND, &mut events);
    let last = original::event_word(events.last().unwrap());
    assert_eq!(last, 3 << 32 | 1 << 16 | PAGE_BYTES as u64);
}

/// A snapshot of a fresh chip with one charge page more, of which only some bytes are there.
fn cut_page(page: &[u8]) -> Vec<u8> {
    let (_, original) = both();
    let mut shot = snapshot(&original);
    shot.truncate(ARRAY_BYTES);
    shot.extend(1u32.to_le_bytes());
    shot.extend(page);
    shot
}

#[test]
fn bad_page_that_ends_early() {
    let over = (FULL + 1).to_le_bytes();
    for page in [vec![1, 0], [&[0, 0][..], &over].concat()] {
        let shot = cut_page(&page);
        assert_eq!(Flash::restore(&shot, Instant(0)).err(), Some(Refusal::SnapshotField));
        let error = Original::read_snapshot(&shot).err().unwrap();
        assert_eq!(refusal_number(&error), 9);
    }
}
