//! That the original is there and answers as document 01 says of it; the long comparison is for the programs that use
//! this crate.
use original::{event_word, refusal_number, Error, Event, Mode, Original, Time};

const CONTROL: u16 = 0xF020;
const ERASE: u16 = 0xF023;
const ENABLE: u16 = 0xF02B;
const SWE: u8 = 1 << 6;
const PSU: u8 = 1 << 4;
const PV: u8 = 1 << 2;
const P: u8 = 0x01;

const FRESH_SNAPSHOT: usize = 49_412;
const OPENED_PAGE: usize = 8_194;
const PENDING_SENSE: usize = 18;

fn fresh() -> Original {
    Original::new(&[0xFF; 49_152]).unwrap()
}

fn micros(n: u64) -> u128 {
    Time::from_micros(n).raw()
}

fn snapshot(chip: &Original) -> Vec<u8> {
    let mut bytes = vec![1, 2, 3];
    chip.write_snapshot(&mut bytes);
    bytes
}

/// Latches bit 0 of 80 hex as 0 and opens the pulse at 100 µs, when every wait is over.
fn pulse_opened() -> Original {
    let mut chip = fresh();
    let mut events = Vec::new();
    chip.write_register(ENABLE, 0x80, 0, &mut events).unwrap();
    chip.write_register(CONTROL, SWE, 0, &mut events).unwrap();
    chip.write8(0x80, 0xFE, micros(1), &mut events).unwrap();
    chip.write_register(CONTROL, SWE | PSU, micros(1), &mut events).unwrap();
    chip.write_register(CONTROL, SWE | PSU | P, micros(100), &mut events).unwrap();
    assert_eq!(events, []);
    chip
}

/// The words after P drops so many raw units later.
fn exposed(units: u128) -> (Original, Vec<Event>) {
    let mut chip = pulse_opened();
    let mut events = Vec::new();
    chip.write_register(CONTROL, SWE | PSU, micros(100) + units, &mut events).unwrap();
    assert!(events.iter().all(|event| event.time().raw() == micros(100) + units));
    (chip, events)
}

#[test]
fn worked_instant_h() {
    const LIMIT: u128 = 33_323_150_584_765_642;
    let words = |units| exposed(units).1.iter().map(event_word).collect::<Vec<_>>();
    assert_eq!(words(LIMIT), [0x1_0080_00FE, 0x2_0080_0080]);
    assert_eq!(words(LIMIT - 1), [0x2_0080_0080]);
    assert_eq!(exposed(LIMIT).0.peek(0x80, micros(100) + LIMIT), 0xFE);

    let chip = pulse_opened();
    assert_eq!(chip.image(micros(100) + LIMIT)[0x80], 0xFE);
    assert_eq!(chip.image(micros(100) + LIMIT - 1)[0x80], 0xFF);
}

#[test]
fn a_read_trips_protection() {
    let mut chip = pulse_opened();
    let mut events = Vec::new();
    assert_eq!(chip.read8(0, micros(100), &mut events), Ok(0xFF));
    assert_eq!(events.iter().map(event_word).collect::<Vec<_>>(), [0x3_0080_0080]);
    assert_eq!(chip.register(0xF021), 0x80);
}

#[test]
fn firmware_of_another_length_is_refused() {
    let refused = Original::new(&[0xFF; 49_151]);
    assert!(matches!(refused, Err(Error::ImageSize { actual: 49_151, .. })));
}

#[test]
fn a_fresh_snapshot_reads_back() {
    let bytes = snapshot(&fresh());
    assert_eq!(bytes.len(), FRESH_SNAPSHOT);
    let read = Original::read_snapshot(&bytes).unwrap();
    assert_eq!(read.validate(0), Ok(()));
    assert_eq!(snapshot(&read), bytes);
}

#[test]
fn a_snapshot_grows_by_page_and_pending_sense() {
    let (mut chip, _) = exposed(1);
    assert_eq!(snapshot(&chip).len(), FRESH_SNAPSHOT + OPENED_PAGE);
    chip.write_register(CONTROL, SWE | PV, micros(200), &mut ()).unwrap();
    chip.write8(0x80, 0xFF, micros(201), &mut ()).unwrap();
    let bytes = snapshot(&chip);
    assert_eq!(bytes.len(), FRESH_SNAPSHOT + OPENED_PAGE + PENDING_SENSE);
    assert_eq!(snapshot(&Original::read_snapshot(&bytes).unwrap()), bytes);
}

#[test]
fn refused_snapshots_are_told_apart() {
    let bytes = snapshot(&exposed(1).0);
    let number = |bytes: &[u8]| refusal_number(&Original::read_snapshot(bytes).err().unwrap());
    for end in [0, 49_151, 49_152, 49_155, 49_156, 50_000, bytes.len() - 1] {
        assert_eq!(number(&bytes[..end]), 9, "cut at {end}");
    }
    assert_eq!(number(&[&bytes[..], &[0]].concat()), 11);

    let damaged = |at: usize, value: u8| {
        let mut bytes = bytes.clone();
        bytes[at] = value;
        number(&bytes)
    };
    assert_eq!(damaged(49_154, 1), 10, "count of pages");
    assert_eq!(damaged(49_156, 0x81), 10, "page address");
    assert_eq!(damaged(49_158 + 7, 0xFF), 10, "charge");
    let after_pages = 49_156 + OPENED_PAGE;
    assert_eq!(damaged(after_pages + 1, 2), 10, "error flag");
    assert_eq!(damaged(after_pages + 5 + 128 + 2, 3), 10, "supply");
    assert_eq!(damaged(after_pages + 5 + 128 + 4, 6), 10, "mode");
}

/// Erase 64 is written but no longer validates, as document 01 says.
#[test]
fn validate_refuses_erase_64() {
    let mut chip = fresh();
    chip.write_register(ENABLE, 0x80, 0, &mut ()).unwrap();
    chip.write_register(CONTROL, SWE, 0, &mut ()).unwrap();
    chip.write_register(ERASE, 64, 0, &mut ()).unwrap();
    let read = Original::read_snapshot(&snapshot(&chip)).unwrap();
    assert!(matches!(read.validate(0), Err(Error::Snapshot(_))));
}

#[test]
fn supply_follows_mode() {
    let mut chip = fresh();
    assert!(chip.normal(0));
    chip.environment(Mode::Watch, true, true, 0, &mut ()).unwrap();
    assert!(!chip.normal(0));
    chip.environment(Mode::Active, true, true, 0, &mut ()).unwrap();
    assert!(!chip.normal(micros(20) - 1) && chip.normal(micros(20)));
    chip.power_off(micros(20), &mut ());
    assert!(!chip.normal(u128::MAX));
    chip.reset(micros(30), &mut ());
    assert_eq!(chip.protect(micros(30), &mut ()), Ok(()));
    assert_eq!(chip.read16(0, micros(30), &mut ()), Ok(0xFFFF));
}

#[test]
fn an_instant_past_the_last_is_an_error() {
    let mut chip = fresh();
    chip.write_register(ENABLE, 0x80, 0, &mut ()).unwrap();
    let late = chip.write_register(CONTROL, SWE, u128::MAX, &mut ());
    assert!(matches!(late, Err(Error::Time(_))));
}

#[test]
fn modes_have_their_numbers() {
    for number in 0..6 {
        assert_eq!(Mode::from_number(number).unwrap() as u8, number);
    }
    assert_eq!(Mode::from_number(6), None);
}
