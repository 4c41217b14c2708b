//! Numbers in styles, and in the formats of `core::fmt`.

use core::fmt::{self, Write};

use crate::calls::RawStyle;
use crate::{Align, Notation, Number};

/// How a number is shown: by default as the shortest decimal, in a field of no least width.
///
/// ```
/// use lomdeqash::{Format, Notation, Style};
///
/// let style = Style { notation: Notation::LowerHex, prefix: true, width: 9, fill: '.', ..Style::default() };
/// let mut room = [0; 16];
/// assert_eq!(Format::of("I8F8").read("-10.5")?.styled(&style, &mut room)?, "...-0xa.8");
/// # Ok::<(), lomdeqash::Error>(())
/// ```
#[derive(Clone, Copy, Debug, PartialEq, Eq, Hash)]
pub struct Style {
    /// Decimal, with an exponent, or a radix.
    pub notation: Notation,
    /// How many digits after the point, rounded to the nearest with ties to even; `None`: as many as the number needs.
    pub precision: Option<u16>,
    /// The least number of characters.
    pub width: u16,
    /// What fills the field up to its width.
    pub fill: char,
    /// Where the text is in the field.
    pub align: Align,
    /// A `+` before a number that is not negative.
    pub plus: bool,
    /// A prefix `0b`, `0o` or `0x` in radix 2, 8 and 16.
    pub prefix: bool,
    /// Zeros after sign and prefix, in place of fill and alignment.
    pub zero_pad: bool,
}

impl Default for Style {
    fn default() -> Style {
        Style {
            notation: Notation::Decimal,
            precision: None,
            width: 0,
            fill: ' ',
            align: Align::Right,
            plus: false,
            prefix: false,
            zero_pad: false,
        }
    }
}

impl From<&Style> for RawStyle {
    fn from(style: &Style) -> RawStyle {
        RawStyle {
            notation: style.notation as u32,
            precision: style.precision.map_or(u32::MAX, u32::from),
            width: style.width.into(),
            fill: style.fill.into(),
            align: style.align as u32,
            plus: style.plus.into(),
            prefix: style.prefix.into(),
            zero_pad: style.zero_pad.into(),
        }
    }
}

/// From this many places on every number is exact, and the others are zeros: the value of a number has at most 64
/// digits after the point in any radix, and at most 83 before an exponent.
const MOST_PLACES: usize = 128;

/// A text of `MOST_PLACES`, with sign, prefix, 64 digits, a point, an exponent and a zero byte.
const ROOM: usize = MOST_PLACES + 80;

/// Writes a number in a notation as the formatter says. The digits are the library's; the field around them, and zeros
/// after `MOST_PLACES`, are written here, since a field may be longer than any buffer.
fn show(number: &Number, notation: Notation, f: &mut fmt::Formatter<'_>) -> fmt::Result {
    let style = Style {
        notation,
        precision: f.precision().map(|places| places.min(MOST_PLACES) as u16),
        plus: f.sign_plus(),
        prefix: f.alternate(),
        ..Style::default()
    };
    let zeros = f.precision().unwrap_or(0).saturating_sub(MOST_PLACES);
    let mut room = [0; ROOM];
    let text = number.styled(&style, &mut room).map_err(|_| fmt::Error)?;
    let sign = usize::from(text.starts_with(['+', '-']));
    let prefix = if f.alternate() && notation as u32 >= Notation::Binary as u32 { 2 } else { 0 };
    let (head, body) = text.split_at(sign + prefix);
    let exponent = match notation {
        Notation::LowerExponent => body.find('e'),
        Notation::UpperExponent => body.find('E'),
        _ => None,
    };
    let (digits, tail) = body.split_at(exponent.unwrap_or(body.len()));
    pad(f, head, digits, zeros, tail)
}

/// Writes `head`, `digits`, zeros and `tail` in the formatter's field, to the right unless it says otherwise.
fn pad(f: &mut fmt::Formatter<'_>, head: &str, digits: &str, zeros: usize, tail: &str) -> fmt::Result {
    let room = f.width().unwrap_or(0).saturating_sub(head.len() + digits.len() + zeros + tail.len());
    let (before, inside) = match f.align() {
        _ if f.sign_aware_zero_pad() => (0, room),
        Some(fmt::Alignment::Left) => (0, 0),
        Some(fmt::Alignment::Center) => (room / 2, 0),
        Some(fmt::Alignment::Right) | None => (room, 0),
    };
    let fill = f.fill();
    repeat(f, fill, before)?;
    f.write_str(head)?;
    repeat(f, '0', inside)?;
    f.write_str(digits)?;
    repeat(f, '0', zeros)?;
    f.write_str(tail)?;
    repeat(f, fill, room - before - inside)
}

/// Writes a character this many times.
fn repeat(f: &mut fmt::Formatter<'_>, character: char, times: usize) -> fmt::Result {
    (0..times).try_for_each(|_| f.write_char(character))
}

macro_rules! shown {
    ($($name:ident as $notation:ident,)*) => {$(
        impl fmt::$name for Number {
            fn fmt(&self, f: &mut fmt::Formatter<'_>) -> fmt::Result {
                show(self, Notation::$notation, f)
            }
        }
    )*};
}

shown! {
    Display as Decimal,
    LowerExp as LowerExponent,
    UpperExp as UpperExponent,
    Binary as Binary,
    Octal as Octal,
    LowerHex as LowerHex,
    UpperHex as UpperHex,
}
