//! The reader on lines of `docs/HISTORY-FORMAT.md`.
use super::{FIFTY, MICRO};
use crate::history::{lines, Line, Reader, What};
use crate::mistake::{Mistake, Reason};
use crate::sentences;
use record::call::Call;

/// What the lines of a file say, empty ones left out.
fn read(file: &[u8]) -> Vec<Result<Line, Mistake>> {
    let mut reader = Reader::default();
    lines(file).filter_map(|line| reader.line(line).transpose()).collect()
}

/// What one line after a line at time 0 says.
fn said(line: &str) -> Result<What, Mistake> {
    let said =
        read(format!("0 reset\n{line}").as_bytes()).pop().expect("a line that says something");
    said.map(|line| line.what)
}

/// The column that is complained of, the word as written, and why.
fn wrong(line: &str) -> (usize, String, Reason) {
    let mistake = said(line).expect_err(line);
    (mistake.column, mistake.word, mistake.reason)
}

#[test]
fn the_example_of_the_page() {
    let file = b"\
# The first page of block 0 is programmed with one byte.
0           write FENR FLSHE              # lets the other registers be written
+0.000001   write FLMCR1 SWE
+0.000001   data 0080 50                  # latched: nothing is stored yet
+0.000001   write FLMCR1 SWE+PSU
+0.000050   write FLMCR1 SWE+PSU+P        # the pulse begins
+0.007      write FLMCR1 SWE+PSU          # and ends, completed
+0.000005   write FLMCR1 00
+0.001      read 0080
+1          look 0080
";
    let end = 3 * MICRO + FIFTY + 129_127_208_515_966_861;
    let off = end + 92_233_720_368_547;
    let read_at = off + 18_446_744_073_709_551;
    let wanted = [
        (0, What::Call(Call::WriteRegister(0xf02b, 0x80))),
        (MICRO, What::Call(Call::WriteRegister(0xf020, 0x40))),
        (2 * MICRO, What::Call(Call::Write8(0x80, 0x50))),
        (3 * MICRO, What::Call(Call::WriteRegister(0xf020, 0x50))),
        (3 * MICRO + FIFTY, What::Call(Call::WriteRegister(0xf020, 0x51))),
        (end, What::Call(Call::WriteRegister(0xf020, 0x50))),
        (off, What::Call(Call::WriteRegister(0xf020, 0))),
        (read_at, What::Call(Call::Read8(0x80))),
        (read_at + (1 << 64), What::LookByte(0x80)),
    ];
    assert_eq!(read(file), wanted.map(|(at, what)| Ok(Line { at, what })));
}

#[test]
fn the_table_of_calls() {
    let calls = [
        ("1 write FLMCR1 SWE+ESU+PSU+EV+PV+E+P", Call::WriteRegister(0xf020, 0x7f)),
        ("1 write F020 0E", Call::WriteRegister(0xf020, 0x0e)),
        ("1 write F020 E", Call::WriteRegister(0xf020, 0x02)),
        ("1 write FLMCR2 FLER", Call::WriteRegister(0xf021, 0x80)),
        ("1 write FLPWCR PDWND", Call::WriteRegister(0xf022, 0x80)),
        ("1 write EBR1 EB5+EB0", Call::WriteRegister(0xf023, 0x21)),
        ("1 write EBR1 EB1+EB2+EB3+EB4", Call::WriteRegister(0xf023, 0x1e)),
        ("1 WRITE fenr flshe", Call::WriteRegister(0xf02b, 0x80)),
        ("1 write 1234 ff", Call::WriteRegister(0x1234, 0xff)),
        ("1\tdata  BFFF 0a \t # a comment, # and more", Call::Write8(0xbfff, 0x0a)),
        ("1 read bfff\r", Call::Read8(0xbfff)),
        ("1 word BFFE#", Call::Read16(0xbffe)),
        ("1 protect", Call::Protect),
        ("1 reset", Call::Reset),
        ("1 power-off", Call::PowerOff),
        ("1 environment active module oscillator", Call::Environment(0, true, true)),
        ("1 environment subactive no-module oscillator", Call::Environment(1, false, true)),
        ("1 environment sleep module no-oscillator", Call::Environment(2, true, false)),
        ("1 environment subsleep no-module no-oscillator", Call::Environment(3, false, false)),
        ("1 environment watch module oscillator", Call::Environment(4, true, true)),
        ("1 environment standby module oscillator", Call::Environment(5, true, true)),
    ];
    for (line, call) in calls {
        assert_eq!(said(line), Ok(What::Call(call)), "{line}");
    }
    assert_eq!(said("1 look"), Ok(What::LookAll));
    assert_eq!(said("1 look 0080"), Ok(What::LookByte(0x80)));
    assert_eq!(said("1 look 0080 7"), Ok(What::LookCell(0x80, 7)));
}

#[test]
fn lines_with_a_wrong_word() {
    let all = [
        ("soon reset", 1, "soon", Reason::NoTime),
        ("+ reset", 1, "+", Reason::NoTime),
        ("++1 reset", 1, "++1", Reason::NoTime),
        ("+0.1234567 reset", 1, "+0.1234567", Reason::TooManyDecimals),
        ("18446744073709551616", 1, "18446744073709551616", Reason::TooLarge),
        ("18446744073709551615\n+1 reset", 1, "+1", Reason::PastTheLastInstant),
        ("1 Raed 0080", 3, "Raed", Reason::UnknownCall),
        ("1 reset Now then", 9, "Now", Reason::MoreWords),
        ("1 write Flmcr3 00", 9, "Flmcr3", Reason::NoRegister),
        ("1 write FLMCR1 EB0", 16, "EB0", Reason::NoValue),
        ("1 write FLMCR1 SWE+", 16, "SWE+", Reason::NoValue),
        ("1 write FLMCR1 0", 16, "0", Reason::NoValue),
        ("1 write 1234 SWE", 14, "SWE", Reason::NoValue),
        ("1 write FLMCR1 Swe+P+swe+none", 16, "Swe+P+swe+none", Reason::BitTwice),
        ("1 write FLMCR1 none+P+P", 16, "none+P+P", Reason::NoValue),
        ("1 read 80", 8, "80", Reason::NoAddress),
        ("1 read 0080h", 8, "0080h", Reason::NoAddress),
        ("+0.000001   data c000 0", 18, "c000", Reason::PastTheEnd),
        ("1 look FFFF 9", 8, "FFFF", Reason::PastTheEnd),
        ("1 word bfff", 8, "bfff", Reason::WordPastTheEnd),
        ("1 word C000", 8, "C000", Reason::WordPastTheEnd),
        ("1 data 0080 5", 13, "5", Reason::NoByte),
        ("1 look 0080 8", 13, "8", Reason::NoBitNumber),
        ("1 look 0080 07", 13, "07", Reason::NoBitNumber),
        ("1 environment awake on off", 15, "awake", Reason::NoMode),
        ("1 environment active No-modules off", 22, "No-modules", Reason::NoModule),
        ("1 environment active module off now", 29, "off", Reason::NoOscillator),
    ];
    for (line, column, word, reason) in all {
        assert_eq!(wrong(line), (column, word.to_string(), reason), "{line}");
    }
}

#[test]
fn lines_with_a_missing_word() {
    let all = [
        ("1", 2, Reason::NoCall),
        (" 1 \t", 5, Reason::NoCall),
        ("1 write", 8, Reason::NoRegister),
        ("1 write FLMCR1  # SWE", 17, Reason::NoValue),
        ("1 data", 7, Reason::NoAddress),
        ("1 read# 0080", 7, Reason::NoAddress),
        ("1 word\r", 8, Reason::NoAddress),
        ("1 data 0080", 12, Reason::NoByte),
        ("1 environment", 14, Reason::NoMode),
        ("1 environment sleep", 20, Reason::NoModule),
        ("1 environment sleep module", 27, Reason::NoOscillator),
    ];
    for (line, column, reason) in all {
        assert_eq!(wrong(line), (column, String::new(), reason), "{line}");
    }
}

#[test]
fn the_length_of_a_line() {
    let long = format!("1 reset{}", " ".repeat(994));
    assert_eq!(wrong(&long), (1, String::new(), Reason::TooLong));
    assert_eq!(said(&long[..1000]), Ok(What::Call(Call::Reset)));
    let comment = format!("#{}", "-".repeat(1000));
    assert_eq!(wrong(&comment), (1, String::new(), Reason::TooLong));
}

#[test]
fn a_wait_without_a_time_before() {
    for word in ["+1", "+", "+x", "+0.1234567", "+18446744073709551616"] {
        let line = format!("# no time\n\nx reset\n{word} reset");
        let mistake = Mistake { column: 1, word: word.to_string(), reason: Reason::NoTimeBefore };
        assert_eq!(read(line.as_bytes()).pop(), Some(Err(mistake)));
    }
}

#[test]
fn mistakes_in_words() {
    let said = |column, word: &str, reason, goes_on| {
        sentences::mistaken(12, &Mistake { column, word: word.to_string(), reason }, goes_on)
    };
    let of_page = "line 12, column 14: address C000 is past the end of the flash\n";
    assert_eq!(said(14, "C000", Reason::PastTheEnd, false), of_page);
    let twice = "line 12, column 9: Swe+@+Swe names a bit twice; the line is left out\n";
    assert_eq!(said(9, "Swe+@+Swe", Reason::BitTwice, true), twice);
    let byte = "line 12, column 9: a byte is missing: two hexadecimal digits\n";
    assert_eq!(said(9, "", Reason::NoByte, false), byte);
    let long = "line 12, column 1: the line is longer than 1,000 bytes; the line is left out\n";
    assert_eq!(said(1, "", Reason::TooLong, true), long);
}

#[test]
fn a_wait_counts_from_the_last_line_that_had_a_time() {
    let times: Vec<Option<u128>> =
        read(b"1 reset\r\n\n# no time\n+1 raed 0080\n1:x reset\n+1 reset\n")
            .into_iter()
            .map(|line| line.ok().map(|line| line.at >> 64))
            .collect();
    assert_eq!(times, [Some(1), None, None, Some(3)]);
}
