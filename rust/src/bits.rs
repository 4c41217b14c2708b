//! The integers that hold bits.

mod sealed {
    pub trait Sealed {}
}

/// Integers that hold the bits of a number: those of 8 to 64 bits.
pub trait Bits: Copy + Into<i128> + TryFrom<i128> + sealed::Sealed {
    /// The width in bits.
    const WIDTH: u32;
    /// Whether they may be negative.
    const IS_SIGNED: bool;
}

macro_rules! bits {
    ($($integer:ident)*) => {$(
        impl sealed::Sealed for $integer {}

        impl Bits for $integer {
            const WIDTH: u32 = $integer::BITS;
            const IS_SIGNED: bool = $integer::MIN != 0;
        }
    )*};
}

bits! { i8 i16 i32 i64 u8 u16 u32 u64 }
