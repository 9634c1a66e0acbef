use std::io::{self, Write};

pub trait BorshSerialize {
    fn serialize<W: Write>(&self, writer: &mut W) -> io::Result<()>;

    /// The slice as bytes, if its elements are bytes: these are written at once. Stable Rust has no other way to treat
    /// one element type apart, and the real crate has the same one.
    #[doc(hidden)]
    #[inline]
    fn u8_slice(_slice: &[Self]) -> Option<&[u8]>
    where
        Self: Sized,
    {
        None
    }
}

/// Writes the value; an error is one of the writer.
#[inline]
pub fn to_writer<T: BorshSerialize, W: Write>(mut writer: W, value: &T) -> io::Result<()> {
    value.serialize(&mut writer)
}

/// The value's bytes.
pub fn to_vec<T: BorshSerialize>(value: &T) -> io::Result<Vec<u8>> {
    let mut bytes = Vec::new();
    to_writer(&mut bytes, value)?;
    Ok(bytes)
}

impl BorshSerialize for u8 {
    #[inline]
    fn serialize<W: Write>(&self, writer: &mut W) -> io::Result<()> {
        writer.write_all(&[*self])
    }

    #[inline]
    fn u8_slice(slice: &[Self]) -> Option<&[u8]> {
        Some(slice)
    }
}

macro_rules! numbers {
    ($($number:ty)*) => {$(
        impl BorshSerialize for $number {
            #[inline]
            fn serialize<W: Write>(&self, writer: &mut W) -> io::Result<()> {
                writer.write_all(&self.to_le_bytes())
            }
        }
    )*};
}

numbers! { u16 u32 u64 u128 i32 }

impl BorshSerialize for bool {
    #[inline]
    fn serialize<W: Write>(&self, writer: &mut W) -> io::Result<()> {
        u8::from(*self).serialize(writer)
    }
}

#[inline]
fn elements<T: BorshSerialize, W: Write>(elements: &[T], writer: &mut W) -> io::Result<()> {
    match T::u8_slice(elements) {
        Some(bytes) => writer.write_all(bytes),
        None => elements.iter().try_for_each(|element| element.serialize(writer)),
    }
}

impl<T: BorshSerialize, const N: usize> BorshSerialize for [T; N] {
    #[inline]
    fn serialize<W: Write>(&self, writer: &mut W) -> io::Result<()> {
        elements(self, writer)
    }
}

impl<T: BorshSerialize> BorshSerialize for Vec<T> {
    #[inline]
    fn serialize<W: Write>(&self, writer: &mut W) -> io::Result<()> {
        let count = u32::try_from(self.len()).map_err(|_| io::ErrorKind::InvalidInput)?;
        count.serialize(writer)?;
        elements(self, writer)
    }
}

impl<T: BorshSerialize> BorshSerialize for Option<T> {
    #[inline]
    fn serialize<W: Write>(&self, writer: &mut W) -> io::Result<()> {
        match self {
            None => 0u8.serialize(writer),
            Some(value) => {
                1u8.serialize(writer)?;
                value.serialize(writer)
            }
        }
    }
}

impl<A: BorshSerialize, B: BorshSerialize> BorshSerialize for (A, B) {
    #[inline]
    fn serialize<W: Write>(&self, writer: &mut W) -> io::Result<()> {
        self.0.serialize(writer)?;
        self.1.serialize(writer)
    }
}

impl<T: BorshSerialize> BorshSerialize for Box<T> {
    #[inline]
    fn serialize<W: Write>(&self, writer: &mut W) -> io::Result<()> {
        (**self).serialize(writer)
    }
}
