//! Fixed-point numbers as text: exact reading, shortest printing, conversion, over libfixed, the library for C of
//! Lomdeqash. A number of a format is its *bits*, a whole number, over two to the power of the format's fraction
//! length.
//!
//! - [`Format`] is a sign, a width of 1 to 64 bits and a fraction length: it reads numerals.
//! - [`Number`] is bits and their format: it is printed as floats are, rounded, converted and compared by value.
//! - [`FixedText`] reads and prints types of your own, and by one line of [`text_trait!`] those of the crate `fixed`.
//! - [`Format::read_rows`] and its sisters work on slices.
//!
//! A numeral is an optional sign, digits with at most one point, and an optional exponent: `3.14159`, `.5`, `-1.25e-3`;
//! in radix 16, `f.8p-2`. The whole text is the numeral, without blanks around it.
//!
//! Nothing allocates, and only `std::error::Error` for [`Error`] needs std: the feature `std`, which is on by default.
//!
//! The calls of libfixed are proved; this crate, which hands texts and bits over to them, is tested.
//!
//! # Finding the library
//!
//! The build links `libfixed.a`, else `libfixed.so`, of the folder that LIBFIXED_DIR names; without it, what
//! `pkg-config` finds as `fixed`. A shared library must also be found when the program starts: by `ldconfig`, or in a
//! folder of LD_LIBRARY_PATH. The crate is used from its folder:
//!
//! ```toml
//! [dependencies]
//! lomdeqash = { path = "/usr/share/lomdeqash/rust" }
//! ```
#![no_std]
#![deny(unsafe_op_in_unsafe_fn)]
#![warn(missing_docs)]

#[cfg(feature = "std")]
extern crate std;

mod bits;
mod calls;
mod error;
mod fixed_text;
mod format;
mod names;
mod number;
mod options;
mod rows;
mod style;
mod text;

pub use bits::Bits;
pub use error::{Error, ErrorKind};
pub use fixed_text::FixedText;
pub use format::Format;
pub use number::Number;
pub use options::{Align, Mode, Notation, Policy, Radix, Reading, Rounding};
pub use rows::{Code, Row};
pub use style::Style;
pub use text::Text;

/// Returns the length in bytes of the longest prefix that is a numeral: 3 for `1.5 m`, `1.5e` and `1.5.2`.
///
/// # Errors
/// No prefix is a numeral; the error says why the text is not one.
pub fn leading_numeral(text: impl AsRef<[u8]>, radix: Radix) -> Result<usize, Error> {
    let (text, mut count) = (text.as_ref(), 0);
    // SAFETY: `text` is readable, and `count` writable
    error::checked(unsafe { calls::fixed_scan_text(text.as_ptr(), text.len(), radix as u32, &mut count) })?;
    Ok(count)
}

/// Answers a line without its newline, such as `10 U4F4 U8F0 checked 2.99`, as `fixed_tool` does. Returns the answer,
/// and whether it is a fault.
pub fn answer_line(line: impl AsRef<[u8]>) -> (Text, bool) {
    let (line, mut is_fault) = (line.as_ref(), 0);
    // SAFETY: `line` is readable, `text::written` hands over a writable buffer with its size and a writable length, and
    // `is_fault` is writable
    let answer = text::written(|out, size, len| unsafe {
        calls::fixed_answer_line(line.as_ptr(), line.len(), out, size, len, &mut is_fault)
    });
    (answer.expect("every line has an answer"), is_fault != 0)
}

/// The version of the linked library, such as `(1, 1, 0)`.
pub fn library_version() -> (u32, u32, u32) {
    // SAFETY: the call takes nothing
    let version = unsafe { calls::fixed_version() };
    (version / 10000, version / 100 % 100, version % 100)
}

/// The layout of the linked library's calls, which is 1.
pub fn library_abi() -> u32 {
    // SAFETY: the call takes nothing
    unsafe { calls::fixed_abi() }
}
