//! Runs whose outcome document 01 gives, and arguments.
use crate::mistake::{Mistake, Reason};
use crate::options::{Options, Trouble};
use crate::{report, sentences};

/// What a run with these options prints of a history in which bit 0 of 0080 is exposed for so many units.
fn exposed(options: &str, units: u64, rest: &str) -> String {
    let history = format!(
        "0 write FENR FLSHE\n1 write FLMCR1 SWE\n2 data 0080 FE\n3 write FLMCR1 SWE+PSU\n\
         4 write FLMCR1 SWE+PSU+P\n+0:{units} write FLMCR1 SWE+PSU\n{rest}"
    );
    let options = format!("{options} a.history");
    let options = Options::of(&options).expect("options");
    report::run(&options, report::fresh(), history.as_bytes()).printed
}

/// Document 01's worked instant (h).
#[test]
fn a_bit_is_programmed_by_the_last_unit_only() {
    let units = 33_323_150_584_765_642;
    let at = (4 << 64) + u128::from(units);
    let (changed, ended) = (sentences::byte_becomes, sentences::pulse_ends);
    let legible = exposed("--events", units, "");
    let events = changed(at, 0x80, 0xfe) + &ended(at, 0x80, 0xff, true);
    assert!(legible.starts_with(&events), "{legible}");
    assert!(legible.ends_with(&(sentences::legible_page(0x80) + &sentences::verdict(1))));
    let blank = exposed("--events --map", units - 1, "");
    assert!(blank.starts_with(&ended(at - 1, 0x80, 0xff, true)), "{blank}");
    assert!(blank.contains("\n0000 .+......"), "{blank}");
    assert!(blank.ends_with(&sentences::verdict(0)), "{blank}");
}

/// 100 units of charge for each unit of time.
#[test]
fn complaints_end_a_run_that_does_not_go_on() {
    let rest = "4:999 reset\n+0:1 reset\n+1 rest\n+0 look 0080 0";
    let refused = sentences::call_refused(7, 6);
    assert_eq!(exposed("", 1_000, rest), refused);
    let on = exposed("--go-on", 1_000, rest);
    let mistake = Mistake { column: 4, word: "rest".to_string(), reason: Reason::UnknownCall };
    let told = refused
        + &sentences::mistaken(9, &mistake, true)
        + &sentences::charge_seen(10, 0x80, 0, 100_000);
    assert!(on.starts_with(&told), "{on}");
    let counts =
        [sentences::calls_made(7), sentences::calls_refused(1), sentences::lines_left_out(1)];
    assert!(on[told.len()..].starts_with(&counts.concat()), "{on}");
}

#[test]
fn the_report_has_a_time_of_its_own() {
    let early = exposed("--at 4", 1_000, "");
    assert_eq!(early, sentences::report_refused(6));
    let last = exposed("--at 18446744073709551615", 1_000, "");
    assert_eq!(last, sentences::report_refused(5));
    // Under an open pulse the flash goes on charging until it is looked at.
    let open = |options| exposed(options, 1_000, "5 write FLMCR1 SWE+PSU+P\n");
    assert!(open("").ends_with(&sentences::verdict(0)));
    assert!(open("--at 6").ends_with(&sentences::verdict(1)));
    assert!(open("--at 6 --block 1").ends_with(&sentences::verdict(0)));
}

/// A run of 1 ms gives bit 0 a seventh of what it can hold.
#[test]
fn a_picture_has_a_pixel_for_each_cell() {
    let units = 18_446_744_073_709_551;
    let seen = exposed("--picture a.pgm", units, "");
    assert!(seen.ends_with("\na.pgm: 393231 bytes, 1 pixels not black, sum 36\n"), "{seen}");
    let full = exposed("--picture a.pgm", 7 * units + 7, "");
    assert!(full.ends_with("\na.pgm: 393231 bytes, 1 pixels not black, sum 255\n"), "{full}");
}

#[test]
fn arguments_that_no_run_can_begin_with() {
    let trouble = |run| Options::of(run).err();
    assert_eq!(trouble("--block 5 --image a b"), None);
    assert_eq!(trouble("--block 6 b"), Some(Trouble::NoBlock("6")));
    assert_eq!(trouble("--block 05 b"), Some(Trouble::NoBlock("05")));
    assert_eq!(trouble("--from 0400 b"), Some(Trouble::OneEnd));
    assert_eq!(trouble("--to 0400 b"), Some(Trouble::OneEnd));
    assert_eq!(trouble("--from BFFF --to C000 b"), Some(Trouble::NoAddress("C000")));
    assert_eq!(trouble("--maps b"), Some(Trouble::NoOption("--maps")));
    assert_eq!(trouble("a b --map"), Some(Trouble::SecondHistory("b")));
    assert_eq!(trouble("--map"), Some(Trouble::NoHistory));
}
