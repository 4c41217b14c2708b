//! Names of formats, parsed in constants.

/// Whether a format is signed, its width, and its fraction length.
type Shape = (bool, u32, u32);

/// Whether the byte at `at` is a letter, in either case.
const fn has(name: &[u8], at: usize, letter: u8) -> bool {
    at < name.len() && name[at].to_ascii_uppercase() == letter
}

/// The count at `at`, of one or two digits without a zero before others, and the index after it.
const fn count_at(name: &[u8], at: usize) -> Option<(u32, usize)> {
    if at >= name.len() || !name[at].is_ascii_digit() {
        return None;
    }
    let first = (name[at] - b'0') as u32;
    if at + 1 >= name.len() || !name[at + 1].is_ascii_digit() {
        return Some((first, at + 1));
    }
    match first {
        0 => None,
        _ => Some((first * 10 + (name[at + 1] - b'0') as u32, at + 2)),
    }
}

/// The count of `letter` and a count, which end the name.
const fn count_after(name: &[u8], at: usize, letter: u8) -> Option<u32> {
    if !has(name, at, letter) {
        return None;
    }
    match count_at(name, at + 1) {
        Some((count, end)) if end == name.len() => Some(count),
        _ => None,
    }
}

/// Whether a name says a signed format, its width, and its fraction length.
pub const fn shape_of(name: &[u8]) -> Option<Shape> {
    match shape_by_counts(name) {
        Some(shape) => Some(shape),
        None => shape_in_a_tool(name),
    }
}

/// The same of `I16F16` and its kin, and of Q names.
const fn shape_by_counts(name: &[u8]) -> Option<Shape> {
    let is_signed = !has(name, 0, b'U');
    let letters = if is_signed { 0 } else { 1 };
    if has(name, letters, b'Q') {
        return shape_of_q(name, is_signed, letters + 1);
    }
    if is_signed && !has(name, 0, b'I') {
        return None;
    }
    let is_below = has(name, 1, b'-');
    match count_at(name, if is_below { 2 } else { 1 }) {
        Some((whole, at)) => match count_after(name, at, b'F') {
            Some(frac) if !is_below => Some((is_signed, whole + frac, frac)),
            Some(frac) if 0 < whole && whole < frac => Some((is_signed, frac - whole, frac)),
            _ => None,
        },
        None => None,
    }
}

/// The same after the letters of a Q name, from `at`. A signed format has its sign among its whole bits.
const fn shape_of_q(name: &[u8], is_signed: bool, at: usize) -> Option<Shape> {
    match count_at(name, at) {
        Some((frac, end)) if is_signed && end == name.len() => Some((true, frac + 1, frac)),
        Some((whole, end)) if !is_signed || whole > 0 => match count_after(name, end, b'.') {
            Some(frac) => Some((is_signed, whole + frac, frac)),
            None => None,
        },
        _ => None,
    }
}

/// What the two numbers of a name in another tool are.
#[derive(Clone, Copy)]
enum Numbers {
    /// The width and the whole bits, of which the sign bit is one.
    WidthAndWhole,
    /// The powers of two of the highest and of the lowest bit.
    HighAndLow,
    /// The width and the fraction length.
    WidthAndFrac,
}

/// A form of names in another tool: the texts around two numbers.
struct Form {
    signed: &'static str,
    unsigned: &'static str,
    mark: &'static str,
    tail: &'static str,
    numbers: Numbers,
}

const fn form(starts: [&'static str; 2], mark: &'static str, tail: &'static str, numbers: Numbers) -> Form {
    let [signed, unsigned] = starts;
    Form { signed, unsigned, mark, tail, numbers }
}

/// Those of C++ for high-level synthesis, of VHDL, of MATLAB and of Simulink.
const FORMS: [Form; 8] = [
    form(["ap_fixed<", "ap_ufixed<"], ",", ">", Numbers::WidthAndWhole),
    form(["ap_fixed<", "ap_ufixed<"], ", ", ">", Numbers::WidthAndWhole),
    form(["sfixed(", "ufixed("], " downto ", ")", Numbers::HighAndLow),
    form(["fi(_,1,", "fi(_,0,"], ",", ")", Numbers::WidthAndFrac),
    form(["fi(_, 1, ", "fi(_, 0, "], ", ", ")", Numbers::WidthAndFrac),
    form(["numerictype(1,", "numerictype(0,"], ",", ")", Numbers::WidthAndFrac),
    form(["numerictype(1, ", "numerictype(0, "], ", ", ")", Numbers::WidthAndFrac),
    form(["sfix", "ufix"], "_En", "", Numbers::WidthAndFrac),
];

/// The shape that a name in another tool says.
const fn shape_in_a_tool(name: &[u8]) -> Option<Shape> {
    let mut i = 0;
    while i < FORMS.len() {
        if let Some(shape) = shape_in_form(name, &FORMS[i], true) {
            return Some(shape);
        }
        if let Some(shape) = shape_in_form(name, &FORMS[i], false) {
            return Some(shape);
        }
        i += 1;
    }
    match whole_after(name, "sfix") {
        Some(width) => Some((true, width, 0)),
        None => match whole_after(name, "ufix") {
            Some(width) => Some((false, width, 0)),
            None => None,
        },
    }
}

/// The width in `sfix16`, which has no fraction.
const fn whole_after(name: &[u8], start: &str) -> Option<u32> {
    match after(name, 0, start) {
        Some(at) => match count_at(name, at) {
            Some((width, end)) if end == name.len() => Some(width),
            _ => None,
        },
        None => None,
    }
}

/// The shape that a name says in a form, of a signed format or of another.
const fn shape_in_form(name: &[u8], form: &Form, is_signed: bool) -> Option<Shape> {
    let start = if is_signed { form.signed } else { form.unsigned };
    let (first, at) = match number_after(name, 0, start) {
        Some(found) => found,
        None => return None,
    };
    let (second, at) = match number_after(name, at, form.mark) {
        Some(found) => found,
        None => return None,
    };
    match after(name, at, form.tail) {
        Some(end) if end == name.len() => {}
        _ => return None,
    }
    let (width, frac) = match form.numbers {
        Numbers::WidthAndWhole => (first, first - second),
        Numbers::HighAndLow => (first + 1 - second, -second),
        Numbers::WidthAndFrac => (first, second),
    };
    if width < 0 || frac < 0 {
        return None;
    }
    Some((is_signed, width as u32, frac as u32))
}

/// The index after `part`, if it stands at `at`.
const fn after(name: &[u8], at: usize, part: &str) -> Option<usize> {
    let (part, mut i) = (part.as_bytes(), 0);
    while i < part.len() {
        if at + i >= name.len() || name[at + i] != part[i] {
            return None;
        }
        i += 1;
    }
    Some(at + part.len())
}

/// The number after `part`, which stands at `at`, with or without a minus, and the index after it.
const fn number_after(name: &[u8], at: usize, part: &str) -> Option<(i32, usize)> {
    let at = match after(name, at, part) {
        Some(at) => at,
        None => return None,
    };
    let is_below = has(name, at, b'-');
    match count_at(name, if is_below { at + 1 } else { at }) {
        Some((0, _)) if is_below => None,
        Some((count, end)) => Some((if is_below { -(count as i32) } else { count as i32 }, end)),
        None => None,
    }
}
