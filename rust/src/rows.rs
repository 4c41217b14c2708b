//! Reading, printing and converting many numbers in one call.
//!
//! Row `i` of a text is `rows[i * size..(i + 1) * size]`, and its text goes up to its first zero byte, or is all of it.

use crate::calls;
use crate::error::{checked, Error};
use crate::{Format, Mode, Number, Policy, Reading};

/// The result of a row: its bits as in C, and whether it overflowed. Both are zero if the row was refused.
#[repr(C)]
#[derive(Clone, Copy, Debug, Default, PartialEq, Eq)]
pub struct Row {
    bits: i64,
    overflowed: u32,
}

impl Row {
    /// The bits as in C: those of an unsigned format of 64 bits are the same 64 bits.
    pub const fn bits(&self) -> i64 {
        self.bits
    }

    /// Whether the number was out of its format.
    pub const fn overflowed(&self) -> bool {
        self.overflowed != 0
    }

    /// The number of the format that the rows were read or converted to, and whether it overflowed.
    pub(crate) const fn of(&self, format: Format) -> (Number, bool) {
        (Number::of_call(self.bits, format), self.overflowed())
    }
}

/// Why a row was refused: a code of `fixed.h`, or 0 if it was not.
#[repr(transparent)]
#[derive(Clone, Copy, Debug, Default, PartialEq, Eq, Hash)]
pub struct Code(pub u32);

impl Code {
    /// `Ok` if the row was not refused.
    ///
    /// # Errors
    /// The error of the single call for this row.
    pub fn result(self) -> Result<(), Error> {
        checked(self.0)
    }
}

impl Format {
    /// Reads rows of `size` bytes as [`Format::read_with`] does. Returns how many were refused.
    ///
    /// ```
    /// use lomdeqash::{Code, Format, Reading, Row};
    ///
    /// let (mut out, mut codes) = ([Row::default(); 3], [Code::default(); 3]);
    /// let rows = ["0.5\0", "-1\0\0", "0,5\0"].concat();
    /// let refused = Format::of("Q15").read_rows(rows.as_bytes(), 4, Reading::new(), &mut out, &mut codes);
    /// assert_eq!(refused, Ok(1));
    /// assert_eq!(out.map(|row| row.bits()), [16384, -32768, 0]);
    /// assert_eq!(codes[2].result().unwrap_err().to_string(), "invalid digit found in string");
    /// ```
    ///
    /// # Errors
    /// `BadRows`: `out` and `codes` are not as long as there are rows.
    pub fn read_rows(
        self,
        rows: &[u8],
        size: usize,
        how: impl Into<Reading>,
        out: &mut [Row],
        codes: &mut [Code],
    ) -> Result<usize, Error> {
        let (how, mut refused) = (how.into(), 0);
        // SAFETY: `rows` is readable; `out`, `codes` and `refused` are writable; the call tests their lengths
        checked(unsafe {
            calls::fixed_read_rows(
                rows.as_ptr(),
                rows.len(),
                size,
                how.radix as u32,
                self,
                how.policy as u32,
                how.mode as u32,
                out.as_mut_ptr(),
                out.len(),
                codes.as_mut_ptr(),
                codes.len(),
                &mut refused,
            )
        })?;
        Ok(refused)
    }

    /// Prints bits as [`Number::text`] does, each into a row of `size` bytes with zero bytes up to its end. A row whose
    /// code is not `Ok` stays as it was. Returns how many were refused.
    ///
    /// # Errors
    /// `BadRows`: `rows` and `codes` are not as long as there are bits.
    pub fn print_rows(self, bits: &[i64], rows: &mut [u8], size: usize, codes: &mut [Code]) -> Result<usize, Error> {
        let mut refused = 0;
        // SAFETY: `bits` is readable; `rows`, `codes` and `refused` are writable; the call tests their lengths
        checked(unsafe {
            calls::fixed_print_rows(
                bits.as_ptr(),
                bits.len(),
                self,
                rows.as_mut_ptr(),
                rows.len(),
                size,
                codes.as_mut_ptr(),
                codes.len(),
                &mut refused,
            )
        })?;
        Ok(refused)
    }

    /// Converts bits as [`Number::convert`] does. Returns how many were refused.
    ///
    /// # Errors
    /// `BadRows`: `out` and `codes` are not as long as there are bits.
    pub fn convert_rows(
        self,
        bits: &[i64],
        target: Format,
        policy: Policy,
        mode: Mode,
        out: &mut [Row],
        codes: &mut [Code],
    ) -> Result<usize, Error> {
        let mut refused = 0;
        // SAFETY: `bits` is readable; `out`, `codes` and `refused` are writable; the call tests their lengths
        checked(unsafe {
            calls::fixed_convert_rows(
                bits.as_ptr(),
                bits.len(),
                self,
                target,
                policy as u32,
                mode as u32,
                out.as_mut_ptr(),
                out.len(),
                codes.as_mut_ptr(),
                codes.len(),
                &mut refused,
            )
        })?;
        Ok(refused)
    }
}
