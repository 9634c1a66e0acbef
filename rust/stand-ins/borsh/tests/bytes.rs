//! The bytes that the Borsh specification gives, the texts of the errors, and the derives.
use borsh::{from_slice, to_vec, BorshDeserialize, BorshSerialize};
use std::{fmt::Debug, io};

/// The value is written as these bytes, and they are read as the value.
#[track_caller]
fn both_ways<T: BorshSerialize + BorshDeserialize + PartialEq + Debug>(value: T, bytes: &[u8]) {
    assert_eq!(to_vec(&value).unwrap(), bytes);
    assert_eq!(from_slice::<T>(bytes).unwrap(), value);
    for end in 0..bytes.len() {
        refused::<T>(&bytes[..end], borsh::UNEXPECTED_LENGTH_OF_INPUT);
    }
    let longer = [bytes, &[0]].concat();
    refused::<T>(&longer, borsh::NOT_ALL_BYTES_READ);
}

#[track_caller]
fn refused<T: BorshDeserialize + Debug>(bytes: &[u8], text: &str) {
    let error = from_slice::<T>(bytes).unwrap_err();
    assert_eq!(error.kind(), io::ErrorKind::InvalidData);
    assert_eq!(error.to_string(), text);
}

#[test]
fn numbers_are_little_endian() {
    both_ways(0xA1u8, &[0xA1]);
    both_ways(0xA1B2u16, &[0xB2, 0xA1]);
    both_ways(0xA1B2C3D4u32, &[0xD4, 0xC3, 0xB2, 0xA1]);
    both_ways(1u64 << 56 | 2, &[2, 0, 0, 0, 0, 0, 0, 1]);
    both_ways(1u128 << 120 | 2, &[2, 0, 0, 0, 0, 0, 0, 0, 0, 0, 0, 0, 0, 0, 0, 1]);
    both_ways(-2i32, &[0xFE, 0xFF, 0xFF, 0xFF]);
}

#[test]
fn flags_and_options_are_one_byte() {
    both_ways(false, &[0]);
    both_ways(true, &[1]);
    refused::<bool>(&[2], "Invalid bool representation: 2");
    both_ways(None::<u16>, &[0]);
    both_ways(Some((7u16, true)), &[1, 7, 0, 1]);
    refused::<Option<u8>>(
        &[2, 0],
        "Invalid Option representation: 2. The first byte must be 0 or 1",
    );
}

#[test]
fn arrays_have_no_count_and_vectors_have_one() {
    both_ways([1u8, 2], &[1, 2]);
    both_ways([1u16, 2], &[1, 0, 2, 0]);
    both_ways([Some(3u8), None], &[1, 3, 0]);
    both_ways(Box::new([5u8]), &[5]);
    both_ways(Vec::<u16>::new(), &[0, 0, 0, 0]);
    both_ways(vec![9u8, 8], &[2, 0, 0, 0, 9, 8]);
    both_ways(vec![9u16, 8], &[2, 0, 0, 0, 9, 0, 8, 0]);
}

/// A count that the input does not keep reserves no memory for it.
#[test]
fn a_false_count_is_the_input_ending_early() {
    refused::<Vec<u8>>(&[0xFF; 8], borsh::UNEXPECTED_LENGTH_OF_INPUT);
    refused::<Vec<u64>>(&[0xFF; 16], borsh::UNEXPECTED_LENGTH_OF_INPUT);
}

/// How often the writer is called: bytes go at once, other elements one at a time.
#[test]
fn bytes_are_written_at_once() {
    struct Calls(usize);
    impl io::Write for Calls {
        fn write(&mut self, bytes: &[u8]) -> io::Result<usize> {
            self.0 += 1;
            Ok(bytes.len())
        }
        fn flush(&mut self) -> io::Result<()> {
            Ok(())
        }
    }
    let calls = |value: &dyn Fn(&mut Calls)| {
        let mut calls = Calls(0);
        value(&mut calls);
        calls.0
    };
    assert_eq!(calls(&|to| borsh::to_writer(to, &[0u8; 100]).unwrap()), 1);
    assert_eq!(calls(&|to| borsh::to_writer(to, &vec![0u8; 100]).unwrap()), 2);
    assert_eq!(calls(&|to| borsh::to_writer(to, &[0u64; 100]).unwrap()), 100);
}

#[derive(BorshSerialize, BorshDeserialize, Clone, Copy, Debug, PartialEq)]
#[borsh(use_discriminant = true)]
enum Colour {
    Red = 3,
    /// Lower than the one before: the number counts, not the position.
    Blue = 1,
}

#[derive(BorshSerialize, BorshDeserialize, Debug, PartialEq)]
struct Pair(pub(crate) (u8, u8), Vec<(u8, Option<u8>)>);

#[derive(Debug)]
struct Mark(u32);

impl Default for Mark {
    fn default() -> Self {
        Self(77)
    }
}

/// Any two are the same, as no field's value that is not written can be.
impl PartialEq for Mark {
    fn eq(&self, _: &Self) -> bool {
        true
    }
}

fn one_less<R: io::Read>(reader: &mut R) -> io::Result<u8> {
    Ok(u8::deserialize_reader(reader)? - 1)
}

#[derive(BorshSerialize, BorshDeserialize, Debug, PartialEq)]
struct Named {
    first: u16,
    #[borsh(skip)]
    mark: Mark,
    pub(crate) colours: [Colour; 2],
    #[borsh(deserialize_with = "crate::one_less")]
    r#last: u8,
}

#[test]
fn an_enum_is_its_number() {
    both_ways(Colour::Red, &[3]);
    both_ways(Colour::Blue, &[1]);
    refused::<Colour>(&[0], "Unexpected variant tag: 0");
    refused::<Colour>(&[2], "Unexpected variant tag: 2");
}

#[test]
fn a_struct_is_its_fields_in_order() {
    both_ways(Pair((1, 2), vec![(3, None)]), &[1, 2, 1, 0, 0, 0, 3, 0]);
}

#[test]
fn fields_are_skipped_and_read_by_a_function() {
    let value = Named { first: 5, mark: Mark(1), colours: [Colour::Blue, Colour::Red], last: 9 };
    let bytes = [5, 0, 1, 3, 9];
    assert_eq!(to_vec(&value).unwrap(), bytes);
    let read: Named = from_slice(&bytes).unwrap();
    assert_eq!(read, Named { last: 8, ..value });
    assert_eq!(read.mark.0, 77);
}
