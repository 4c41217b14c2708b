//! How numbers are read, rounded and brought into range.

use crate::error::{Error, ErrorKind};

macro_rules! options {
    ($($(#[$doc:meta])* $name:ident or $kind:ident { $($(#[$word:meta])* $variant:ident = $code:literal,)* })*) => {$(
        $(#[$doc])*
        #[derive(Clone, Copy, Debug, PartialEq, Eq, Hash)]
        #[repr(u32)]
        #[non_exhaustive]
        pub enum $name {
            $($(#[$word])* $variant = $code,)*
        }

        impl TryFrom<u32> for $name {
            type Error = Error;

            /// The option that has this number in `fixed.h`.
            fn try_from(code: u32) -> Result<$name, Error> {
                match code {
                    $($code => Ok($name::$variant),)*
                    _ => Err(Error::new(ErrorKind::$kind)),
                }
            }
        }
    )*};
}

options! {
    /// The radix of a numeral.
    Radix or BadRadix {
        /// Digits 0 and 1.
        Binary = 2,
        /// Digits 0 to 7.
        Octal = 8,
        /// Digits 0 to 9.
        Decimal = 10,
        /// Digits 0 to 9 and a to f, in either case.
        Hex = 16,
    }

    /// What to do with a number out of range.
    Policy or BadPolicy {
        /// It is refused with [`ErrorKind::Overflow`].
        Checked = 0,
        /// It becomes the nearer end of the range.
        Saturating = 1,
        /// It loses its high bits.
        Wrapping = 2,
        /// It becomes the nearer end of the range without its lowest number, which counts as out of range itself.
        Symmetric = 3,
    }

    /// How a value between two numbers of a format is rounded.
    Mode or BadMode {
        /// To the nearest, ties to even.
        Nearest = 0,
        /// To the greatest not above.
        Floor = 1,
        /// To the least not below.
        Ceil = 2,
        /// To the nearest not farther from zero.
        Zero = 3,
        /// To the nearest, ties away from zero.
        TiesAway = 4,
        /// To the nearest, ties towards zero.
        TiesZero = 5,
        /// To the nearest, ties to the greater.
        TiesUp = 6,
        /// To the nearest, ties to the lesser.
        TiesDown = 7,
        /// To the nearest not nearer to zero.
        Away = 8,
    }

    /// Which whole number a number is rounded to.
    Rounding or BadRounding {
        /// The least not below.
        Ceil = 0,
        /// The greatest not above.
        Floor = 1,
        /// The nearest, ties away from zero.
        TiesAway = 2,
        /// The nearest, ties to even.
        TiesEven = 3,
        /// The nearest not farther from zero.
        Zero = 4,
    }

    /// How the digits of a number are written.
    Notation or BadNotation {
        /// Decimal.
        Decimal = 0,
        /// Decimal with an exponent after `e`.
        LowerExponent = 1,
        /// Decimal with an exponent after `E`.
        UpperExponent = 2,
        /// Radix 2.
        Binary = 3,
        /// Radix 8.
        Octal = 4,
        /// Radix 16 with lower-case letters.
        LowerHex = 5,
        /// Radix 16 with upper-case letters.
        UpperHex = 6,
    }

    /// Where a text stands in a wider field.
    Align or BadAlign {
        /// At its left end.
        Left = 0,
        /// In the middle.
        Center = 1,
        /// At its right end.
        Right = 2,
    }
}

/// How a numeral is read: in radix 10, checked and to the nearest, unless it says otherwise.
///
/// A radix, a policy or a mode alone is a `Reading` too:
///
/// ```
/// use lomdeqash::{Format, Mode, Policy, Radix, Reading};
///
/// const Q15: Format = Format::of("Q15");
/// let (floor, _) = Q15.read_with("0.1", Mode::Floor)?;
/// assert_eq!(floor.bits(), 3276);
/// let (most, overflowed) = Q15.read_with("1", Reading::new().policy(Policy::Saturating))?;
/// assert_eq!((most.bits(), overflowed), (32767, true));
/// # assert_eq!(Q15.read_with("0.8", Radix::Hex)?.0.bits(), 16384);
/// # Ok::<(), lomdeqash::Error>(())
/// ```
#[derive(Clone, Copy, Debug, PartialEq, Eq, Hash)]
pub struct Reading {
    pub(crate) radix: Radix,
    pub(crate) policy: Policy,
    pub(crate) mode: Mode,
}

impl Reading {
    /// Radix 10, checked, to the nearest with ties to even.
    pub const fn new() -> Reading {
        Reading { radix: Radix::Decimal, policy: Policy::Checked, mode: Mode::Nearest }
    }

    /// The same in another radix.
    pub const fn radix(self, radix: Radix) -> Reading {
        Reading { radix, ..self }
    }

    /// The same with another policy.
    pub const fn policy(self, policy: Policy) -> Reading {
        Reading { policy, ..self }
    }

    /// The same with another mode.
    pub const fn mode(self, mode: Mode) -> Reading {
        Reading { mode, ..self }
    }
}

impl Default for Reading {
    fn default() -> Reading {
        Reading::new()
    }
}

impl From<Radix> for Reading {
    fn from(radix: Radix) -> Reading {
        Reading::new().radix(radix)
    }
}

impl From<Policy> for Reading {
    fn from(policy: Policy) -> Reading {
        Reading::new().policy(policy)
    }
}

impl From<Mode> for Reading {
    fn from(mode: Mode) -> Reading {
        Reading::new().mode(mode)
    }
}
