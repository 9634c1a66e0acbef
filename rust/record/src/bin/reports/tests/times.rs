//! Times as they are read and printed.
use super::{FIFTY, MICRO};
use crate::mistake::Reason;
use crate::moment;

#[test]
fn times_in_each_form() {
    let twelve = 12 << 64;
    assert_eq!(moment::read("12"), Ok(twelve));
    assert_eq!(moment::read("12.000050"), Ok(twelve + FIFTY));
    assert_eq!(moment::read("12.00005"), Ok(twelve + FIFTY));
    assert_eq!(moment::read("12:922337203685477"), Ok(twelve + FIFTY));
    assert_eq!(moment::read("0.5"), Ok(1 << 63));
    let last = "18446744073709551615:18446744073709551615";
    assert_eq!(moment::read(last), Ok(u128::MAX));
    assert_eq!(moment::read("00018446744073709551615.000000"), Ok(u128::MAX << 64));
}

#[test]
fn times_that_are_none_by_the_first_fault_from_the_left() {
    let none = ["", ".5", "12.", "12:", ":1", "1.2.3", "1:2:3", "1:2.3", "1.5:2", "-1", "0x1"];
    let before = ["1x8446744073709551616", "x.1234567", "x:18446744073709551616", "1.12345x"];
    let large = ["18446744073709551616", "0:18446744073709551616", "18446744073709551616.x"];
    let then = ["18446744073709551616x", "99999999999999999999:x", "18446744073709551616.1234567"];
    let long = ["0.0000001", "0.00000000", "1.xxxxxxx", "1.2.34567"];
    let all = |texts: &[&str], reason| {
        texts.iter().for_each(|text| assert_eq!(moment::read(text), Err(reason), "{text}"));
    };
    all(&[&none[..], &before].concat(), Reason::NoTime);
    all(&[large, then].concat(), Reason::TooLarge);
    all(&long, Reason::TooManyDecimals);
}

#[test]
fn times_as_printed() {
    let all = ["0", "12", "12.000050", "0.500000", "0.999999"];
    for text in all {
        assert_eq!(moment::written(moment::read(text).expect(text)), text);
    }
    // Between microseconds the time is told twice, the second time to the unit.
    assert_eq!(moment::written(1), "0.000000 (0:1)");
    assert_eq!(moment::written(12 << 64 | 922_337_203_685_478), "12.000050 (12:922337203685478)");
    assert_eq!(moment::written((1 << 64) - 1), "0.999999 (0:18446744073709551615)");
    assert_eq!(moment::written(3 * MICRO + FIFTY), "0.000053 (0:977677435906604)");
}

#[test]
fn every_microsecond_is_printed_as_it_was_read() {
    for micros in 1..1_000_000 {
        let text = format!("7.{micros:06}");
        assert_eq!(moment::written(moment::read(&text).expect("six decimals")), text);
    }
}
