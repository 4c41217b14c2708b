//! Makes a call a line through the crate, for wrappers.py: each reply is a code and what the call returned.
use std::fmt::Write as _;
use std::io::{self, BufRead, Write as _};
use std::str::SplitAsciiWhitespace;

use lomdeqash::{answer_line, leading_numeral, Code, Error, Format, Mode, Number, Policy, Reading, Row, Style};

const BAD_FORMAT: u32 = 12;
const BAD_TARGET: u32 = 13;
const BAD_BITS: u32 = 16;
const BAD_OTHER_BITS: u32 = 18;
const BAD_PLACES: u32 = 19;
const BAD_WIDTH: u32 = 24;
const BAD_FILL: u32 = 25;

/// The code of a refusal, by the library or by a type of the crate.
struct Refused(u32);

impl From<Error> for Refused {
    fn from(error: Error) -> Refused {
        Refused(error.code())
    }
}

type Reply = Result<String, Refused>;

/// The words of a call after its name.
struct Words<'a>(SplitAsciiWhitespace<'a>);

impl Words<'_> {
    fn int(&mut self) -> i64 {
        self.0.next().and_then(|word| word.parse().ok()).expect("a whole number")
    }

    fn size(&mut self) -> usize {
        self.int() as usize
    }

    fn text(&mut self) -> Vec<u8> {
        let digits = &self.0.next().expect("a text")[1..];
        (0..digits.len()).step_by(2).map(|at| u8::from_str_radix(&digits[at..at + 2], 16).unwrap()).collect()
    }

    fn all_bits(&mut self) -> Vec<i64> {
        let count = self.size();
        (0..count).map(|_| self.int()).collect()
    }

    /// A format, or the code of one that is none.
    fn format(&mut self, code: u32) -> Result<Format, Refused> {
        let (is_signed, width, frac) = (self.int() != 0, self.int() as u32, self.int() as u32);
        Format::new(is_signed, width, frac).map_err(|_| Refused(code))
    }

    fn option<T: TryFrom<u32, Error = Error>>(&mut self) -> Result<T, Error> {
        T::try_from(self.int() as u32)
    }

    /// A radix, formats, a policy and a mode: faults in the order of their codes, which is that of the words.
    fn reading<const N: usize>(&mut self) -> Result<(Reading, [Format; N]), Refused> {
        let radix = self.option()?;
        let mut formats = [Format::of("I1F0"); N];
        for (format, code) in formats.iter_mut().zip([BAD_FORMAT, BAD_TARGET]) {
            *format = self.format(code)?;
        }
        let (policy, mode) = (self.option()?, self.option()?);
        Ok((Reading::new().radix(radix).policy(policy).mode(mode), formats))
    }
}

/// The number that C's bits are in a format.
fn number(bits: i64, format: Format, code: u32) -> Result<Number, Refused> {
    let bits = if format.is_signed() { i128::from(bits) } else { i128::from(bits as u64) };
    Number::new(bits, format).map_err(|_| Refused(code))
}

fn outcome(found: Result<(Number, bool), Error>) -> Reply {
    let (number, overflowed) = found?;
    Ok(format!("{} {}", number.bits() as i64, u32::from(overflowed)))
}

fn hex(text: impl AsRef<[u8]>) -> String {
    text.as_ref().iter().fold("x".into(), |mut hex, byte| {
        let _ = write!(hex, "{byte:02x}");
        hex
    })
}

fn format_of(word: &str) -> Reply {
    let found = word.parse::<Format>();
    assert_eq!(found, Format::parse(word), "in a constant");
    let format = found?;
    Ok(format!("{} {} {}", u32::from(format.is_signed()), format.width(), format.frac()))
}

fn on_text(name: &str, words: &mut Words) -> Reply {
    let text = words.text();
    match name {
        "read_text" => {
            let (how, [format]) = words.reading()?;
            outcome(format.read_with(text, how))
        }
        "respell_text" => {
            let (how, [source, target]) = words.reading()?;
            outcome(source.read_into(target, text, how))
        }
        "read_literal" => outcome(words.format(BAD_FORMAT)?.read_literal(text, words.option()?)),
        "enclose_text" => {
            let radix = words.option()?;
            let (low, high) = words.format(BAD_FORMAT)?.enclose(text, radix)?;
            Ok(format!("{} {}", low.bits() as i64, high.bits() as i64))
        }
        "scan_text" => Ok(leading_numeral(text, words.option()?)?.to_string()),
        "format_of_word" => format_of(&String::from_utf8(text).unwrap()),
        "answer_line" => {
            let (answer, is_fault) = answer_line(text);
            Ok(format!("{} {}", hex(&*answer), u32::from(is_fault)))
        }
        other => panic!("no call {other}"),
    }
}

fn style(words: &mut Words) -> Result<Style, Refused> {
    let raw: Vec<u32> = (0..8).map(|_| words.int() as u32).collect();
    Ok(Style {
        precision: match raw[1] {
            u32::MAX => None,
            places => Some(u16::try_from(places).map_err(|_| Refused(BAD_PLACES))?),
        },
        notation: raw[0].try_into()?,
        width: raw[2].try_into().map_err(|_| Refused(BAD_WIDTH))?,
        fill: raw[3].try_into().map_err(|_| Refused(BAD_FILL))?,
        align: raw[4].try_into()?,
        plus: raw[5] != 0,
        prefix: raw[6] != 0,
        zero_pad: raw[7] != 0,
    })
}

fn on_bits(name: &str, words: &mut Words) -> Reply {
    let bits = words.int();
    let format = words.format(BAD_FORMAT)?;
    match name {
        "print_bits" => Ok(hex(&*number(bits, format, BAD_BITS)?.text())),
        "print_places" => Ok(hex(&*number(bits, format, BAD_BITS)?.places(words.int() as u32)?)),
        "print_places_mode" => {
            let (places, mode) = (words.int() as u32, words.option()?);
            Ok(hex(&*number(bits, format, BAD_BITS)?.places_in(places, mode)?))
        }
        "print_styled" => {
            let (number, style) = (number(bits, format, BAD_BITS)?, style(words)?);
            let mut room = vec![0; words.size()];
            Ok(hex(number.styled(&style, &mut room)?))
        }
        "round_bits" => {
            let rounding = words.int() as u32;
            let policy = words.option()?;
            let number = number(bits, format, BAD_BITS)?;
            outcome(number.round(rounding.try_into()?, policy))
        }
        "convert_bits" | "convert_bits_mode" => {
            let (target, policy) = (words.format(BAD_TARGET)?, words.option()?);
            let mode = if name == "convert_bits" { Mode::Floor } else { words.option()? };
            outcome(number(bits, format, BAD_BITS)?.convert(target, policy, mode))
        }
        "compare_bits" => {
            let (other, other_format) = (words.int(), words.format(BAD_TARGET)?);
            let number_of_a = number(bits, format, BAD_BITS)?;
            let order = number_of_a.cmp(&number(other, other_format, BAD_OTHER_BITS)?);
            Ok((order as i32).to_string())
        }
        other => panic!("no call {other}"),
    }
}

/// The reply of a call over rows that leaves numbers.
fn left(refused: Result<usize, Error>, out: &[Row], codes: &[Code]) -> Reply {
    let mut reply = refused?.to_string();
    for code in codes {
        let _ = write!(reply, " {}", code.result().map_or_else(|error| error.code(), |()| 0));
    }
    for row in out {
        let _ = write!(reply, " {} {}", row.bits(), u32::from(row.overflowed()));
    }
    Ok(reply)
}

fn on_rows(name: &str, words: &mut Words) -> Reply {
    if name == "read_rows" {
        let (rows, size) = (words.text(), words.size());
        let (how, [format]) = words.reading()?;
        let (mut out, mut codes) = (vec![Row::default(); words.size()], vec![Code::default(); words.size()]);
        let refused = format.read_rows(&rows, size, how, &mut out, &mut codes);
        return left(refused, &out, &codes);
    }
    let (bits, format) = (words.all_bits(), words.format(BAD_FORMAT)?);
    if name == "convert_rows" {
        let (target, policy, mode) = (words.format(BAD_TARGET)?, words.option::<Policy>()?, words.option()?);
        let (mut out, mut codes) = (vec![Row::default(); words.size()], vec![Code::default(); words.size()]);
        let refused = format.convert_rows(&bits, target, policy, mode, &mut out, &mut codes);
        return left(refused, &out, &codes);
    }
    let (mut rows, size) = (vec![0xaa; words.size()], words.size());
    let mut codes = vec![Code::default(); words.size()];
    let refused = format.print_rows(&bits, &mut rows, size, &mut codes)?;
    let codes = left(Ok(0), &[], &codes)?;
    Ok(format!("{refused} {} {}", hex(&rows), &codes[1..]))
}

fn reply(name: &str, words: &mut Words) -> Reply {
    match name {
        "message" => Ok(match Code(words.int() as u32).result() {
            Ok(()) => hex("done"),
            Err(error) => hex(&*error.message()),
        }),
        "word_of_format" => Ok(hex(&*words.format(BAD_FORMAT)?.name())),
        "read_rows" | "convert_rows" | "print_rows" => on_rows(name, words),
        "answer_line" | "format_of_word" => on_text(name, words),
        name if name.ends_with("text") || name.ends_with("literal") => on_text(name, words),
        name => on_bits(name, words),
    }
}

fn main() -> io::Result<()> {
    let mut out = io::stdout().lock();
    for line in io::stdin().lock().lines() {
        let line = line?;
        let mut words = Words(line.split_ascii_whitespace());
        let name = words.0.next().unwrap_or_default();
        match reply(name, &mut words) {
            Ok(found) => writeln!(out, "0 {found}")?,
            Err(Refused(code)) => writeln!(out, "{code}")?,
        }
        out.flush()?;
    }
    Ok(())
}
