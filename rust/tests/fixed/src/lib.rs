//! A stub with the names and shapes of the crate `fixed` 1.31, as far as reading and printing by another crate needs
//! them: types over a marker of the fraction length, and the trait `traits::Fixed`.
use core::marker::PhantomData;

pub mod types {
    /// Markers of fraction lengths, in the manner of typenum.
    pub mod extra {
        pub trait Unsigned: Copy + 'static {
            const U32: u32;
        }

        macro_rules! markers {
            ($($name:ident $count:literal)*) => {$(
                #[derive(Clone, Copy, Debug, Default, PartialEq, Eq, PartialOrd, Ord, Hash)]
                pub struct $name;

                impl Unsigned for $name {
                    const U32: u32 = $count;
                }
            )*};
        }

        markers! { U0 0 U4 4 U8 8 U15 15 U16 16 U32 32 U64 64 }
    }
}

pub mod traits {
    /// The part of `fixed::traits::Fixed` that is used.
    pub trait Fixed: Copy + Default + Eq + Ord {
        type Bits;
        const IS_SIGNED: bool;
        const INT_NBITS: u32;
        const FRAC_NBITS: u32;
        fn from_bits(bits: Self::Bits) -> Self;
        fn to_bits(self) -> Self::Bits;
    }
}

macro_rules! types {
    ($($name:ident $bits:ident)*) => {$(
        #[repr(transparent)]
        pub struct $name<Frac> {
            bits: $bits,
            phantom: PhantomData<Frac>,
        }

        impl<Frac> $name<Frac> {
            pub const fn from_bits(bits: $bits) -> Self {
                Self { bits, phantom: PhantomData }
            }

            pub const fn to_bits(self) -> $bits {
                self.bits
            }
        }

        impl<Frac> Clone for $name<Frac> {
            fn clone(&self) -> Self {
                *self
            }
        }

        impl<Frac> Copy for $name<Frac> {}

        impl<Frac> Default for $name<Frac> {
            fn default() -> Self {
                Self::from_bits(0)
            }
        }

        impl<Frac> core::fmt::Debug for $name<Frac> {
            fn fmt(&self, f: &mut core::fmt::Formatter<'_>) -> core::fmt::Result {
                self.bits.fmt(f)
            }
        }

        impl<Frac> PartialEq for $name<Frac> {
            fn eq(&self, other: &Self) -> bool {
                self.bits == other.bits
            }
        }

        impl<Frac> Eq for $name<Frac> {}

        impl<Frac> PartialOrd for $name<Frac> {
            fn partial_cmp(&self, other: &Self) -> Option<core::cmp::Ordering> {
                Some(self.cmp(other))
            }
        }

        impl<Frac> Ord for $name<Frac> {
            fn cmp(&self, other: &Self) -> core::cmp::Ordering {
                self.bits.cmp(&other.bits)
            }
        }

        impl<Frac> core::ops::Add for $name<Frac> {
            type Output = Self;

            fn add(self, other: Self) -> Self {
                Self::from_bits(self.bits + other.bits)
            }
        }

        impl<Frac: types::extra::Unsigned> traits::Fixed for $name<Frac> {
            type Bits = $bits;
            const IS_SIGNED: bool = $bits::MIN != 0;
            const INT_NBITS: u32 = $bits::BITS - Frac::U32;
            const FRAC_NBITS: u32 = Frac::U32;

            fn from_bits(bits: $bits) -> Self {
                Self::from_bits(bits)
            }

            fn to_bits(self) -> $bits {
                self.bits
            }
        }
    )*};
}

types! {
    FixedI8 i8 FixedI16 i16 FixedI32 i32 FixedI64 i64 FixedI128 i128
    FixedU8 u8 FixedU16 u16 FixedU32 u32 FixedU64 u64 FixedU128 u128
}
