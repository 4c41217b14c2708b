//! Why a call was refused.

use core::fmt;

use crate::{calls, text, Text};

macro_rules! kinds {
    ($($(#[$doc:meta])* $name:ident = $code:literal,)*) => {
        /// The causes of an [`Error`]. Some occur only in codes from C, since the types of this crate rule them out.
        #[derive(Clone, Copy, Debug, PartialEq, Eq, Hash)]
        #[non_exhaustive]
        pub enum ErrorKind {
            $($(#[$doc])* $name,)*
            /// A code of a later library.
            Other,
        }

        impl ErrorKind {
            const fn of(code: u32) -> ErrorKind {
                match code {
                    $($code => ErrorKind::$name,)*
                    _ => ErrorKind::Other,
                }
            }
        }

        impl Error {
            /// The error of a kind.
            pub(crate) const fn new(kind: ErrorKind) -> Error {
                match kind {
                    $(ErrorKind::$name => Error { code: $code },)*
                    ErrorKind::Other => Error { code: u32::MAX },
                }
            }
        }
    };
}

kinds! {
    /// A character is not a digit of the radix.
    InvalidDigit = 1,
    /// A sign is not at the start of the numeral or of its exponent.
    MisplacedSign = 2,
    /// In a literal, an underscore does not follow a digit.
    MisplacedUnderscore = 3,
    /// A second point.
    TooManyPoints = 4,
    /// A second exponent.
    TooManyExponents = 5,
    /// A character of the exponent is not a decimal digit.
    ExponentInvalidDigit = 6,
    /// The exponent does not fit into 32 bits.
    ExponentOverflow = 7,
    /// No digit at all.
    NoDigits = 8,
    /// The exponent has no digit.
    ExponentNoDigits = 9,
    /// The number is out of range, and the policy is [`Policy::Checked`](crate::Policy::Checked).
    Overflow = 10,
    /// Not a radix.
    BadRadix = 11,
    /// Not a format.
    BadFormat = 12,
    /// The target is not a format.
    BadTarget = 13,
    /// Not a policy.
    BadPolicy = 14,
    /// Not a mode.
    BadMode = 15,
    /// The format does not have these bits.
    BadBits = 16,
    /// The buffer is too small.
    NoRoom = 17,
    /// The second format does not have the second bits.
    BadOtherBits = 18,
    /// More than 64 places.
    BadPlaces = 19,
    /// Not a rounding.
    BadRounding = 20,
    /// The word does not name a format.
    BadWord = 21,
    /// The slices have other sizes than the rows.
    BadRows = 22,
    /// Not a notation.
    BadNotation = 23,
    /// A field of more than 65535 characters.
    BadWidth = 24,
    /// The fill is not a character.
    BadFill = 25,
    /// Not an alignment.
    BadAlign = 26,
    /// The float is an infinity or a NaN.
    NotFinite = 27,
}

/// Why a call was refused. Its text is the library's message.
#[derive(Clone, Copy, PartialEq, Eq, Hash)]
pub struct Error {
    code: u32,
}

impl Error {
    /// The kind, by which a program tells errors apart.
    pub const fn kind(&self) -> ErrorKind {
        ErrorKind::of(self.code)
    }

    /// The message, such as `invalid digit found in string`.
    pub fn message(&self) -> Text {
        // SAFETY: `text::written` hands over a writable buffer with its size, and a writable length
        let written = text::written(|out, size, len| unsafe { calls::fixed_message(self.code, out, size, len) });
        written.expect("every code has a message")
    }

    /// The code of `fixed.h`.
    pub const fn code(&self) -> u32 {
        self.code
    }
}

/// `Ok` for code 0.
pub(crate) fn checked(code: u32) -> Result<(), Error> {
    match code {
        0 => Ok(()),
        code => Err(Error { code }),
    }
}

impl fmt::Debug for Error {
    fn fmt(&self, f: &mut fmt::Formatter<'_>) -> fmt::Result {
        f.debug_tuple("Error").field(&self.kind()).finish()
    }
}

impl fmt::Display for Error {
    fn fmt(&self, f: &mut fmt::Formatter<'_>) -> fmt::Result {
        f.pad(&self.message())
    }
}

#[cfg(feature = "std")]
impl std::error::Error for Error {}
