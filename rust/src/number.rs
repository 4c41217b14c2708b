//! Numbers of formats that are chosen while the program runs.

use core::cmp::Ordering;
use core::fmt;
use core::hash::{Hash, Hasher};

use crate::calls::{self, RawStyle};
use crate::error::{checked, Error, ErrorKind};
use crate::{text, Bits, Format, Mode, Policy, Rounding, Row, Style, Text};

/// A number: bits, and the format that gives them a value.
///
/// Numbers are equal and in order by their exact values, whatever their formats. They are printed as floats are, with
/// width, fill, alignment, sign and precision, in decimal, with an exponent (`{:e}`), and in radix 2, 8 and 16:
///
/// ```
/// use lomdeqash::Format;
///
/// const I16F16: Format = Format::of("I16F16");
/// let number = I16F16.read("3.14159")?;
/// assert_eq!(format!("{number}, {number:+.2}, {number:*^9.3}"), "3.14159, +3.14, **3.142**");
/// assert_eq!(format!("{number:#x}, {number:e}, {number:08.2}"), "0x3.243f, 3.14159e0, 00003.14");
/// assert!(number > Format::of("U4F4").read("3.125")?);
/// # Ok::<(), lomdeqash::Error>(())
/// ```
#[derive(Clone, Copy)]
pub struct Number {
    /// As in C: the bits of an unsigned format of 64 bits are the same 64 bits.
    bits: i64,
    format: Format,
}

impl Number {
    /// The number of a format that has these bits.
    ///
    /// # Errors
    /// `BadBits`: the format does not have them.
    pub const fn new(bits: i128, format: Format) -> Result<Number, Error> {
        if bits < format.min().bits() || bits > format.max().bits() {
            return Err(Error::new(ErrorKind::BadBits));
        }
        Ok(Number { bits: bits as i64, format })
    }

    /// The number of bits that a call has returned for a format.
    pub(crate) const fn of_call(bits: i64, format: Format) -> Number {
        Number { bits, format }
    }

    /// The least or the greatest number of a format.
    pub(crate) const fn end(format: Format, is_greatest: bool) -> Number {
        let ones = u64::MAX >> (64 - format.width());
        let bits = match (format.is_signed(), is_greatest) {
            (true, true) => (ones >> 1) as i64,
            (true, false) => -1 - (ones >> 1) as i64,
            (false, true) => ones as i64,
            (false, false) => 0,
        };
        Number { bits, format }
    }

    /// The bits, a whole number: the value times two to the power of the format's fraction length.
    pub const fn bits(self) -> i128 {
        if self.format.is_signed() {
            self.bits as i128
        } else {
            self.bits as u64 as i128
        }
    }

    /// The bits as an integer of type `B`, if it holds them.
    pub fn to_bits<B: Bits>(self) -> Option<B> {
        B::try_from(self.bits()).ok()
    }

    /// The format.
    pub const fn format(self) -> Format {
        self.format
    }

    /// The shortest decimal that reads back as these bits.
    pub fn text(self) -> Text {
        // SAFETY: `text::written` hands over a writable buffer with its size, and a writable length
        let text =
            text::written(|out, size, len| unsafe { calls::fixed_print_bits(self.bits, self.format, out, size, len) });
        text.expect("a number has bits of its format")
    }

    /// The decimal of this many places, 0 to 64, rounded to the nearest with ties to even.
    ///
    /// # Errors
    /// `BadPlaces`: more than 64.
    pub fn places(self, places: u32) -> Result<Text, Error> {
        self.places_in(places, Mode::Nearest)
    }

    /// The decimal of this many places, 0 to 64, rounded in a mode.
    ///
    /// # Errors
    /// `BadPlaces`: more than 64.
    pub fn places_in(self, places: u32, mode: Mode) -> Result<Text, Error> {
        let mode = mode as u32;
        // SAFETY: `text::written` hands over a writable buffer with its size, and a writable length
        text::written(|out, size, len| unsafe {
            calls::fixed_print_places_mode(self.bits, self.format, places, mode, out, size, len)
        })
    }

    /// Writes the number in a style into a buffer, which needs room for the text and one byte more.
    ///
    /// # Errors
    /// `NoRoom`: the buffer is too small.
    pub fn styled<'a>(self, style: &Style, out: &'a mut [u8]) -> Result<&'a str, Error> {
        let (raw, mut len) = (RawStyle::from(style), 0);
        let (start, size) = (out.as_mut_ptr(), out.len());
        // SAFETY: `raw` is readable, and `out` and `len` are writable
        checked(unsafe { calls::fixed_print_styled(self.bits, self.format, &raw, start, size, &mut len) })?;
        core::str::from_utf8(&out[..len]).map_err(|_| Error::new(ErrorKind::Other))
    }

    /// The number in another format, rounded in a mode. Returns it, and whether it overflowed.
    ///
    /// # Errors
    /// `Overflow`, with `Policy::Checked`.
    pub fn convert(self, target: Format, policy: Policy, mode: Mode) -> Result<(Number, bool), Error> {
        let (policy, mode, mut out) = (policy as u32, mode as u32, Row::default());
        // SAFETY: `out` is writable
        checked(unsafe { calls::fixed_convert_bits_mode(self.bits, self.format, target, policy, mode, &mut out) })?;
        Ok(out.of(target))
    }

    /// The number rounded to a whole number of the same format. Returns it, and whether it overflowed.
    ///
    /// # Errors
    /// `Overflow`, with `Policy::Checked`.
    pub fn round(self, rounding: Rounding, policy: Policy) -> Result<(Number, bool), Error> {
        let mut out = Row::default();
        // SAFETY: `out` is writable
        checked(unsafe { calls::fixed_round_bits(self.bits, self.format, rounding as u32, policy as u32, &mut out) })?;
        Ok(out.of(self.format))
    }
}

impl fmt::Debug for Number {
    fn fmt(&self, f: &mut fmt::Formatter<'_>) -> fmt::Result {
        f.debug_struct("Number").field("bits", &self.bits()).field("format", &self.format).finish()
    }
}

impl Ord for Number {
    fn cmp(&self, other: &Number) -> Ordering {
        let mut order = 0;
        // SAFETY: `order` is writable
        let code = unsafe { calls::fixed_compare_bits(self.bits, self.format, other.bits, other.format, &mut order) };
        assert_eq!(code, 0, "a number has bits of its format");
        order.cmp(&0)
    }
}

impl PartialOrd for Number {
    fn partial_cmp(&self, other: &Number) -> Option<Ordering> {
        Some(self.cmp(other))
    }
}

impl PartialEq for Number {
    fn eq(&self, other: &Number) -> bool {
        self.cmp(other) == Ordering::Equal
    }
}

impl Eq for Number {}

impl Hash for Number {
    /// Equal values hash alike: the bits without their last zeros, and the exponent that is left.
    fn hash<H: Hasher>(&self, state: &mut H) {
        let bits = self.bits();
        let zeros = if bits == 0 { self.format.frac() } else { bits.trailing_zeros() };
        (bits >> zeros.min(127)).hash(state);
        (zeros as i32 - self.format.frac() as i32).hash(state);
    }
}
