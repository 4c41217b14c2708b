//! The calls of `fixed.h`, as the header declares them. The layout is that of FIXED_ABI 1.

use crate::{Code, Format, Row};

/// `fixed_enclosure`.
#[repr(C)]
#[derive(Default)]
pub(crate) struct Enclosure {
    pub lo: i64,
    pub hi: i64,
}

/// `fixed_style`.
#[repr(C)]
pub(crate) struct RawStyle {
    pub notation: u32,
    pub precision: u32,
    pub width: u32,
    pub fill: u32,
    pub align: u32,
    pub plus: u32,
    pub prefix: u32,
    pub zero_pad: u32,
}

extern "C" {
    pub(crate) fn fixed_read_text(
        text: *const u8,
        len: usize,
        radix: u32,
        format: Format,
        policy: u32,
        mode: u32,
        out: *mut Row,
    ) -> u32;
    pub(crate) fn fixed_read_literal(text: *const u8, len: usize, format: Format, policy: u32, out: *mut Row) -> u32;
    pub(crate) fn fixed_respell_text(
        text: *const u8,
        len: usize,
        radix: u32,
        source: Format,
        target: Format,
        policy: u32,
        mode: u32,
        out: *mut Row,
    ) -> u32;
    pub(crate) fn fixed_enclose_text(
        text: *const u8,
        len: usize,
        radix: u32,
        format: Format,
        out: *mut Enclosure,
    ) -> u32;
    pub(crate) fn fixed_scan_text(text: *const u8, len: usize, radix: u32, count: *mut usize) -> u32;
    pub(crate) fn fixed_answer_line(
        line: *const u8,
        line_len: usize,
        out: *mut u8,
        size: usize,
        len: *mut usize,
        is_fault: *mut u32,
    ) -> u32;
    pub(crate) fn fixed_message(code: u32, out: *mut u8, size: usize, len: *mut usize) -> u32;
    pub(crate) fn fixed_print_bits(bits: i64, format: Format, out: *mut u8, size: usize, len: *mut usize) -> u32;
    pub(crate) fn fixed_print_places_mode(
        bits: i64,
        format: Format,
        places: u32,
        mode: u32,
        out: *mut u8,
        size: usize,
        len: *mut usize,
    ) -> u32;
    pub(crate) fn fixed_print_styled(
        bits: i64,
        format: Format,
        style: *const RawStyle,
        out: *mut u8,
        size: usize,
        len: *mut usize,
    ) -> u32;
    pub(crate) fn fixed_convert_bits_mode(
        bits: i64,
        source: Format,
        target: Format,
        policy: u32,
        mode: u32,
        out: *mut Row,
    ) -> u32;
    pub(crate) fn fixed_round_bits(bits: i64, format: Format, rounding: u32, policy: u32, out: *mut Row) -> u32;
    pub(crate) fn fixed_compare_bits(a: i64, a_format: Format, b: i64, b_format: Format, order: *mut i32) -> u32;
    pub(crate) fn fixed_format_of_word(word: *const u8, len: usize, out: *mut Format) -> u32;
    pub(crate) fn fixed_word_of_format(format: Format, out: *mut u8, size: usize, len: *mut usize) -> u32;
    pub(crate) fn fixed_read_rows(
        rows: *const u8,
        len: usize,
        size: usize,
        radix: u32,
        format: Format,
        policy: u32,
        mode: u32,
        out: *mut Row,
        count: usize,
        codes: *mut Code,
        code_count: usize,
        refused: *mut usize,
    ) -> u32;
    pub(crate) fn fixed_print_rows(
        bits: *const i64,
        count: usize,
        format: Format,
        rows: *mut u8,
        len: usize,
        size: usize,
        codes: *mut Code,
        code_count: usize,
        refused: *mut usize,
    ) -> u32;
    pub(crate) fn fixed_convert_rows(
        bits: *const i64,
        bits_count: usize,
        source: Format,
        target: Format,
        policy: u32,
        mode: u32,
        out: *mut Row,
        count: usize,
        codes: *mut Code,
        code_count: usize,
        refused: *mut usize,
    ) -> u32;
    pub(crate) fn fixed_abi() -> u32;
    pub(crate) fn fixed_version() -> u32;
}
