use std::io::{self, Read};

/// Text of the error where the input ends early.
pub const UNEXPECTED_LENGTH_OF_INPUT: &str = "Unexpected length of input";
/// Text of the error where bytes are left over.
pub const NOT_ALL_BYTES_READ: &str = "Not all bytes read";

pub trait BorshDeserialize: Sized {
    fn deserialize_reader<R: Read>(reader: &mut R) -> io::Result<Self>;

    /// N elements. Numbers have their own way, which needs no heap; bytes are read at once.
    #[doc(hidden)]
    #[inline]
    fn array_from_reader<R: Read, const N: usize>(reader: &mut R) -> io::Result<[Self; N]> {
        let mut elements = Vec::with_capacity(N);
        for _ in 0..N {
            elements.push(Self::deserialize_reader(reader)?);
        }
        Ok(elements.try_into().unwrap_or_else(|_| unreachable!("N elements were read")))
    }

    /// As many elements as the input claims to have; the claim reserves little memory before they are there.
    #[doc(hidden)]
    #[inline]
    fn vec_from_reader<R: Read>(count: u32, reader: &mut R) -> io::Result<Vec<Self>> {
        let room = 4096 / size_of::<Self>().max(1);
        let mut elements = Vec::with_capacity(room.min(count as usize));
        for _ in 0..count {
            elements.push(Self::deserialize_reader(reader)?);
        }
        Ok(elements)
    }
}

/// The value whose bytes these are, all of them.
pub fn from_slice<T: BorshDeserialize>(bytes: &[u8]) -> io::Result<T> {
    let mut rest = bytes;
    let value = T::deserialize_reader(&mut rest)?;
    if rest.is_empty() {
        Ok(value)
    } else {
        Err(invalid(NOT_ALL_BYTES_READ))
    }
}

#[cold]
fn invalid(text: impl Into<String>) -> io::Error {
    io::Error::new(io::ErrorKind::InvalidData, text.into())
}

/// The error of a derived enum at a byte that is none of its numbers.
#[doc(hidden)]
#[cold]
pub fn unexpected_variant(tag: u8) -> io::Error {
    invalid(format!("Unexpected variant tag: {tag}"))
}

#[inline]
fn fill<R: Read>(reader: &mut R, bytes: &mut [u8]) -> io::Result<()> {
    reader.read_exact(bytes).map_err(|error| match error.kind() {
        io::ErrorKind::UnexpectedEof => invalid(UNEXPECTED_LENGTH_OF_INPUT),
        _ => error,
    })
}

impl BorshDeserialize for u8 {
    #[inline]
    fn deserialize_reader<R: Read>(reader: &mut R) -> io::Result<Self> {
        let [byte] = Self::array_from_reader(reader)?;
        Ok(byte)
    }

    #[inline]
    fn array_from_reader<R: Read, const N: usize>(reader: &mut R) -> io::Result<[Self; N]> {
        let mut bytes = [0; N];
        fill(reader, &mut bytes)?;
        Ok(bytes)
    }

    #[inline]
    fn vec_from_reader<R: Read>(count: u32, reader: &mut R) -> io::Result<Vec<Self>> {
        let mut bytes = Vec::new();
        reader.take(count.into()).read_to_end(&mut bytes)?;
        if bytes.len() == count as usize {
            Ok(bytes)
        } else {
            Err(invalid(UNEXPECTED_LENGTH_OF_INPUT))
        }
    }
}

macro_rules! numbers {
    ($($number:ty)*) => {$(
        impl BorshDeserialize for $number {
            #[inline]
            fn deserialize_reader<R: Read>(reader: &mut R) -> io::Result<Self> {
                Ok(Self::from_le_bytes(u8::array_from_reader(reader)?))
            }

            #[inline]
            fn array_from_reader<R: Read, const N: usize>(
                reader: &mut R,
            ) -> io::Result<[Self; N]> {
                let mut numbers = [0; N];
                for number in &mut numbers {
                    *number = Self::deserialize_reader(reader)?;
                }
                Ok(numbers)
            }
        }
    )*};
}

numbers! { u16 u32 u64 u128 i32 }

impl BorshDeserialize for bool {
    #[inline]
    fn deserialize_reader<R: Read>(reader: &mut R) -> io::Result<Self> {
        match u8::deserialize_reader(reader)? {
            0 => Ok(false),
            1 => Ok(true),
            byte => Err(invalid(format!("Invalid bool representation: {byte}"))),
        }
    }
}

impl<T: BorshDeserialize, const N: usize> BorshDeserialize for [T; N] {
    #[inline]
    fn deserialize_reader<R: Read>(reader: &mut R) -> io::Result<Self> {
        T::array_from_reader(reader)
    }
}

impl<T: BorshDeserialize> BorshDeserialize for Vec<T> {
    #[inline]
    fn deserialize_reader<R: Read>(reader: &mut R) -> io::Result<Self> {
        let count = u32::deserialize_reader(reader)?;
        T::vec_from_reader(count, reader)
    }
}

impl<T: BorshDeserialize> BorshDeserialize for Option<T> {
    #[inline]
    fn deserialize_reader<R: Read>(reader: &mut R) -> io::Result<Self> {
        match u8::deserialize_reader(reader)? {
            0 => Ok(None),
            1 => Ok(Some(T::deserialize_reader(reader)?)),
            byte => Err(invalid(format!(
                "Invalid Option representation: {byte}. The first byte must be 0 or 1"
            ))),
        }
    }
}

impl<A: BorshDeserialize, B: BorshDeserialize> BorshDeserialize for (A, B) {
    #[inline]
    fn deserialize_reader<R: Read>(reader: &mut R) -> io::Result<Self> {
        Ok((A::deserialize_reader(reader)?, B::deserialize_reader(reader)?))
    }
}

impl<T: BorshDeserialize> BorshDeserialize for Box<T> {
    #[inline]
    fn deserialize_reader<R: Read>(reader: &mut R) -> io::Result<Self> {
        T::deserialize_reader(reader).map(Box::new)
    }
}
