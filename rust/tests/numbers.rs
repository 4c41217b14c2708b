//! Numbers: their order, and what core::fmt prints.
use std::collections::hash_map::DefaultHasher;
use std::hash::{Hash, Hasher};

use lomdeqash::{Align, Error, ErrorKind, Format, Mode, Notation, Number, Policy, Rounding, Style};

/// Seeded whole numbers, by SplitMix64.
struct Seeded(u64);

impl Seeded {
    fn next(&mut self) -> u64 {
        self.0 = self.0.wrapping_add(0x9e3779b97f4a7c15);
        let mixed = (self.0 ^ (self.0 >> 30)).wrapping_mul(0xbf58476d1ce4e5b9);
        let mixed = (mixed ^ (mixed >> 27)).wrapping_mul(0x94d049bb133111eb);
        mixed ^ (mixed >> 31)
    }

    fn below(&mut self, end: u64) -> u64 {
        self.next() % end
    }

    fn number(&mut self) -> Number {
        let width = [8, 16, 32, 64, 1 + self.below(64)][self.below(5) as usize] as u32;
        let frac = self.below(u64::from(width) + 1) as u32;
        let format = Format::new(self.below(2) == 1, width, frac).unwrap();
        let span = format.max().bits() - format.min().bits() + 1;
        let small = self.below(width.into());
        let bits = format.min().bits() + i128::from(self.next() >> small).rem_euclid(span);
        Number::new(bits, format).unwrap()
    }
}

fn hash_of(number: Number) -> u64 {
    let mut state = DefaultHasher::new();
    number.hash(&mut state);
    state.finish()
}

/// The value as its floor and what is above it, times 2^64.
fn value(number: Number) -> (i128, i128) {
    let (bits, frac) = (number.bits(), number.format().frac());
    let whole = bits >> frac;
    (whole, (bits - (whole << frac)) << (64 - frac))
}

#[test]
fn numbers_are_in_the_order_of_their_values() {
    let mut seeded = Seeded(1);
    for _ in 0..20_000 {
        let (a, b) = (seeded.number(), seeded.number());
        let (left, right) = (value(a), value(b));
        assert_eq!(a.cmp(&b), left.cmp(&right), "{a} {b}");
        if a == b {
            assert_eq!(hash_of(a), hash_of(b));
        }
    }
}

#[test]
fn equal_values_hash_alike_in_all_formats() {
    for text in ["0", "1", "-1", "0.5", "-6.25", "127"] {
        let numbers = ["I8F8", "I32F32", "I9F3", "Q16.16"].map(|name| Format::of(name).read(text));
        for number in numbers.iter().flatten().filter(|it| it.places(5).unwrap().trim_end_matches(['0', '.']) == text) {
            assert_eq!(hash_of(*number), hash_of(numbers[1].unwrap()), "{text}");
            assert_eq!(*number, numbers[1].unwrap());
        }
    }
}

#[test]
fn bits_are_those_of_the_format() {
    let byte = Format::of("I4F4");
    assert_eq!(Number::new(-128, byte).map(Number::bits), Ok(-128));
    assert_eq!(Number::new(128, byte).map_err(|error| error.kind()), Err(ErrorKind::BadBits));
    let wide = Format::of("U0F64");
    assert_eq!(Number::new(u64::MAX.into(), wide).map(Number::bits), Ok(u64::MAX.into()));
    assert!(Number::new(-1, wide).is_err() && Number::new(1 << 64, wide).is_err());
    assert_eq!(wide.max().to_bits::<u64>(), Some(u64::MAX));
    assert_eq!(wide.max().to_bits::<i64>(), None);
    assert_eq!(format!("{:?}", Format::of("U64F0").max()), "Number { bits: 18446744073709551615, format: U64F0 }");
}

#[test]
fn numbers_are_rounded_and_converted() -> Result<(), Error> {
    let half = Format::of("I4F4").read("2.5")?;
    let whole = |rounding| half.round(rounding, Policy::Checked).map(|(number, _)| number.text().to_string());
    assert_eq!((whole(Rounding::TiesEven)?, whole(Rounding::TiesAway)?), ("2".into(), "3".into()));
    assert_eq!(
        (whole(Rounding::Ceil)?, whole(Rounding::Floor)?, whole(Rounding::Zero)?),
        ("3".into(), "2".into(), "2".into())
    );
    let (high, overflowed) = half.convert(Format::of("I2F6"), Policy::Wrapping, Mode::Floor)?;
    assert_eq!((high.bits(), overflowed), (-96, true));
    assert_eq!(half.convert(Format::of("U1F7"), Policy::Checked, Mode::Floor).unwrap_err().kind(), ErrorKind::Overflow);
    assert_eq!(Format::of("I4F4").read_into(Format::of("U8F0"), "2.99", Mode::Nearest)?.0.bits(), 3);
    Ok(())
}

macro_rules! formatted {
    ($number:expr, $places:expr, $width:expr; $($flags:literal $kind:literal $notation:ident $align:ident $fill:literal;)*) => {[$((
        match $places {
            Some(places) => format!(concat!("{:", $flags, "$.1$", $kind, "}"), $number, places, width = $width),
            None => format!(concat!("{:", $flags, "$", $kind, "}"), $number, width = $width),
        },
        Style {
            notation: Notation::$notation,
            align: Align::$align,
            fill: $fill,
            plus: $flags.contains("+"),
            prefix: $flags.contains('#'),
            zero_pad: $flags.contains("0width"),
            ..Style::default()
        },
    ),)*]};
}

#[test]
fn core_fmt_prints_what_the_library_prints_in_a_style() {
    let mut seeded = Seeded(2);
    let mut room = vec![0; 1 << 18];
    for round in 0..1_000 {
        let number = seeded.number();
        let longest = if round % 100 == 0 { 65_000 } else { 140 };
        let places = if seeded.below(3) == 0 { None } else { Some(seeded.below(longest) as usize) };
        let width = seeded.below(longest) as usize;
        let all = formatted! { number, places, width;
            "width" "" Decimal Right ' ';
            "0>+width" "" Decimal Right '0';
            "<width" "" Decimal Left ' ';
            "é^+width" "" Decimal Center 'é';
            "+0width" "" Decimal Right ' ';
            "*>width" "e" LowerExponent Right '*';
            "0width" "e" LowerExponent Right ' ';
            "-^+width" "E" UpperExponent Center '-';
            "#width" "b" Binary Right ' ';
            "<width" "b" Binary Left ' ';
            "#0width" "o" Octal Right ' ';
            "+#0width" "x" LowerHex Right ' ';
            "€<+width" "x" LowerHex Left '€';
            "^#width" "X" UpperHex Center ' ';
        };
        for (printed, style) in all {
            let style = Style { precision: places.map(|it| it as u16), width: width as u16, ..style };
            assert_eq!(printed, number.styled(&style, &mut room).unwrap(), "{style:?}");
        }
    }
}

#[test]
fn the_alternate_form_of_a_decimal_is_the_same() {
    let number = Format::of("Q15").read("-0.5").unwrap();
    assert_eq!(format!("{number:#} {number:#e} {:#}", number.format()), "-0.5 -5e-1 I1F15");
}
