//! Formats: a sign, a width and a fraction length.

use core::fmt;
use core::str::FromStr;

use crate::calls::{self, Enclosure};
use crate::error::{checked, Error, ErrorKind};
use crate::{names, text, Bits, Number, Policy, Radix, Reading, Row, Text};

/// A format: signed or not, from 1 to 64 bits, and how many of them are after the point.
///
/// A format is named in a constant, where a wrong name does not compile:
///
/// ```
/// use lomdeqash::Format;
///
/// const I16F16: Format = Format::of("I16F16");
/// assert_eq!((I16F16.is_signed(), I16F16.width(), I16F16.frac()), (true, 32, 16));
/// assert_eq!(I16F16.read("3.14159")?.bits(), 205887);
/// # Ok::<(), lomdeqash::Error>(())
/// ```
///
/// ```compile_fail
/// const WRONG: lomdeqash::Format = lomdeqash::Format::of("I16.16");
/// ```
///
/// A name that comes while the program runs is parsed by the library: `"Q15".parse::<Format>()`.
#[repr(C)]
#[derive(Clone, Copy, PartialEq, Eq, Hash)]
pub struct Format {
    is_signed: u32,
    width: u32,
    frac: u32,
}

impl Format {
    /// A format of `width` bits and of a fraction length of `frac`: a value is bits / 2^frac.
    ///
    /// # Errors
    /// `BadFormat` unless the width is from 1 to 64 and `frac` at most 64.
    pub const fn new(is_signed: bool, width: u32, frac: u32) -> Result<Format, Error> {
        if width < 1 || width > 64 || frac > 64 {
            return Err(Error::new(ErrorKind::BadFormat));
        }
        Ok(Format { is_signed: is_signed as u32, width, frac })
    }

    /// The format that a name says: in either case `I16F16`, `U0F24`, `I-9F25`, `Q15` or `UQ8.8` (by ARM's counting), or
    /// the name in another tool, such as `ap_fixed<16,1>`, `sfixed(0 downto -15)`, `fi(_,1,16,15)`,
    /// `numerictype(1,16,15)` or `sfix16_En15`.
    ///
    /// This works in constants. `parse::<Format>()` asks the library, which may know more names.
    ///
    /// # Errors
    /// `BadWord`: the word does not name a format.
    pub const fn parse(name: &str) -> Result<Format, Error> {
        match names::shape_of(name.as_bytes()) {
            Some((is_signed, width, frac)) => match Format::new(is_signed, width, frac) {
                Ok(format) => Ok(format),
                Err(_) => Err(Error::new(ErrorKind::BadWord)),
            },
            None => Err(Error::new(ErrorKind::BadWord)),
        }
    }

    /// The same without a `Result`, for constants.
    ///
    /// # Panics
    /// The word does not name a format. In a constant, this is an error of the compiler.
    pub const fn of(name: &str) -> Format {
        match Format::parse(name) {
            Ok(format) => format,
            Err(_) => panic!("the word does not name a format"),
        }
    }

    /// Whether numbers of the format may be negative.
    pub const fn is_signed(self) -> bool {
        self.is_signed != 0
    }

    /// The width in bits.
    pub const fn width(self) -> u32 {
        self.width
    }

    /// The fraction length: a value is bits / 2^frac.
    pub const fn frac(self) -> u32 {
        self.frac
    }

    /// The name, such as `I16F16`.
    pub fn name(self) -> Text {
        // SAFETY: `text::written` hands over a writable buffer with its size, and a writable length
        let name = text::written(|out, size, len| unsafe { calls::fixed_word_of_format(self, out, size, len) });
        name.expect("a format has a name")
    }

    /// The least number of the format.
    pub const fn min(self) -> Number {
        Number::end(self, false)
    }

    /// The greatest number of the format.
    pub const fn max(self) -> Number {
        Number::end(self, true)
    }

    /// Reads a decimal numeral, rounded to the nearest with ties to even.
    ///
    /// # Errors
    /// Why the text is not a numeral, or `Overflow`.
    pub fn read(self, text: impl AsRef<[u8]>) -> Result<Number, Error> {
        self.read_with(text, Reading::new()).map(|(number, _)| number)
    }

    /// Reads a numeral in a radix, with a policy and a mode. Returns the number, and whether it overflowed.
    ///
    /// # Errors
    /// Why the text is not a numeral; with `Policy::Checked` also `Overflow`.
    pub fn read_with(self, text: impl AsRef<[u8]>, how: impl Into<Reading>) -> Result<(Number, bool), Error> {
        let (text, how, mut out) = (text.as_ref(), how.into(), Row::default());
        let (radix, policy, mode) = (how.radix as u32, how.policy as u32, how.mode as u32);
        // SAFETY: `text` is readable, and `out` writable
        checked(unsafe { calls::fixed_read_text(text.as_ptr(), text.len(), radix, self, policy, mode, &mut out) })?;
        Ok(out.of(self))
    }

    /// Reads a literal: a numeral that may have a prefix `0b`, `0o` or `0x`, and underscores. It is rounded to the
    /// nearest with ties to even. Returns the number, and whether it overflowed.
    ///
    /// # Errors
    /// Why the text is not a literal; with `Policy::Checked` also `Overflow`.
    pub fn read_literal(self, text: impl AsRef<[u8]>, policy: Policy) -> Result<(Number, bool), Error> {
        let (text, mut out) = (text.as_ref(), Row::default());
        // SAFETY: `text` is readable, and `out` writable
        checked(unsafe { calls::fixed_read_literal(text.as_ptr(), text.len(), self, policy as u32, &mut out) })?;
        Ok(out.of(self))
    }

    /// Reads a numeral into this format, and rounds the number down to another. Returns the number, and whether
    /// either overflowed.
    ///
    /// # Errors
    /// Why the text is not a numeral; with `Policy::Checked` also `Overflow`.
    pub fn read_into(
        self,
        target: Format,
        text: impl AsRef<[u8]>,
        how: impl Into<Reading>,
    ) -> Result<(Number, bool), Error> {
        let (text, how, mut out) = (text.as_ref(), how.into(), Row::default());
        let (radix, policy, mode) = (how.radix as u32, how.policy as u32, how.mode as u32);
        let (start, len) = (text.as_ptr(), text.len());
        // SAFETY: `text` is readable, and `out` writable
        checked(unsafe { calls::fixed_respell_text(start, len, radix, self, target, policy, mode, &mut out) })?;
        Ok(out.of(target))
    }

    /// The two numbers of the format around a numeral's value: the greatest not above it, and the least not below it.
    ///
    /// # Errors
    /// Why the text is not a numeral, or `Overflow` if one of the two does not exist.
    pub fn enclose(self, text: impl AsRef<[u8]>, radix: Radix) -> Result<(Number, Number), Error> {
        let (text, mut out) = (text.as_ref(), Enclosure::default());
        // SAFETY: `text` is readable, and `out` writable
        checked(unsafe { calls::fixed_enclose_text(text.as_ptr(), text.len(), radix as u32, self, &mut out) })?;
        Ok((Number::of_call(out.lo, self), Number::of_call(out.hi, self)))
    }

    /// The format, if integers of type `B` hold all its bits.
    ///
    /// # Panics
    /// They do not. In a constant, the compiler says so.
    #[doc(hidden)]
    pub const fn held_by<B: Bits>(self) -> Format {
        let is_narrower = self.width < B::WIDTH || (self.width == B::WIDTH && self.is_signed() == B::IS_SIGNED);
        assert!(is_narrower && (B::IS_SIGNED || !self.is_signed()), "the integers do not hold the bits of the format");
        self
    }

    /// The format of all bits of integers of type `B`, with a fraction length of `frac`.
    ///
    /// # Panics
    /// `frac` is above 64. In a constant, the compiler says so.
    pub const fn of_bits<B: Bits>(frac: u32) -> Format {
        match Format::new(B::IS_SIGNED, B::WIDTH, frac) {
            Ok(format) => format,
            Err(_) => panic!("a fraction of more than 64 bits"),
        }
    }
}

impl FromStr for Format {
    type Err = Error;

    /// The format that a name says, by the library.
    fn from_str(name: &str) -> Result<Format, Error> {
        let mut format = Format { is_signed: 0, width: 1, frac: 0 };
        // SAFETY: `name` is readable, and `format` writable
        checked(unsafe { calls::fixed_format_of_word(name.as_ptr(), name.len(), &mut format) })?;
        Ok(Format { is_signed: (format.is_signed != 0) as u32, ..format })
    }
}

impl fmt::Display for Format {
    fn fmt(&self, f: &mut fmt::Formatter<'_>) -> fmt::Result {
        f.pad(&self.name())
    }
}

impl fmt::Debug for Format {
    fn fmt(&self, f: &mut fmt::Formatter<'_>) -> fmt::Result {
        f.write_str(&self.name())
    }
}
