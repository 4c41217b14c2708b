//! Types of the crate `fixed`, of which tests/fixed is a stub, and a type of one's own.
use fixed::types::extra::{Unsigned, U0, U15, U16, U32, U4, U64, U8};
use fixed::{FixedI16, FixedI32, FixedI64, FixedI8, FixedU16, FixedU32, FixedU64, FixedU8};
use lomdeqash::{ErrorKind, Format, Mode, Notation, Policy, Radix, Reading, Style};

lomdeqash::text_trait!(FixedText for fixed::traits::Fixed);

#[test]
fn a_numeral_is_read_to_the_nearest() {
    assert_eq!(FixedI32::<U16>::read("3.14159").unwrap().to_bits(), 205887);
    assert_eq!(FixedU8::<U8>::read(".1").unwrap().to_bits(), 26);
    assert_eq!(FixedI16::<U15>::read(b"-1").unwrap().to_bits(), i16::MIN);
    assert_eq!(FixedI16::<U15>::read("1").unwrap_err().kind(), ErrorKind::Overflow);
    assert_eq!(FixedI16::<U15>::read("0,5").unwrap_err().kind(), ErrorKind::InvalidDigit);
}

#[test]
fn radix_policy_and_mode_are_chosen() {
    let hex = FixedI32::<U16>::read_with("-f.8p-2", Radix::Hex).unwrap();
    assert_eq!((hex.0.to_bits(), hex.1), (-253952, false));
    let end = FixedI32::<U16>::read_with("40000", Policy::Saturating).unwrap();
    assert_eq!((end.0.to_bits(), end.1), (i32::MAX, true));
    let wrapped = FixedI32::<U16>::read_with("40000", Policy::Wrapping).unwrap();
    assert_eq!((wrapped.0.to_bits(), wrapped.1), (-1673527296, true));
    let floor = FixedU8::<U8>::read_with("1@-1", Reading::new().radix(Radix::Octal).mode(Mode::Floor)).unwrap();
    assert_eq!(floor.0.to_bits(), 32);
    let halves = [(Mode::TiesAway, -1), (Mode::TiesZero, 0), (Mode::TiesUp, 0), (Mode::TiesDown, -1), (Mode::Away, -1)];
    for (mode, bits) in halves {
        assert_eq!(FixedI8::<U0>::read_with("-0.5", mode).unwrap().0.to_bits(), bits, "{mode:?}");
    }
    for (mode, bits) in [(Mode::Nearest, 26), (Mode::Floor, 25), (Mode::Ceil, 26), (Mode::Zero, 25)] {
        assert_eq!(FixedU8::<U8>::read_with("0.1", mode).unwrap().0.to_bits(), bits);
    }
}

#[test]
fn literals_are_read() {
    assert_eq!(FixedI16::<U8>::read_literal("-0x1f.8", Policy::Checked).unwrap().0.to_bits(), -8064);
    assert_eq!(FixedI16::<U8>::read_literal("1_0.25", Policy::Checked).unwrap().0.to_bits(), 2624);
    assert_eq!(FixedI16::<U8>::read_literal("_1", Policy::Checked).unwrap_err().kind(), ErrorKind::MisplacedUnderscore);
}

#[test]
fn numbers_are_printed_in_each_way() {
    let number = FixedI32::<U16>::from_bits(205887);
    assert_eq!(number.text(), "3.14159");
    assert_eq!(number.places(16).unwrap(), "3.1415863037109375");
    assert_eq!(number.places_in(2, Mode::Ceil).unwrap(), "3.15");
    let style = Style { notation: Notation::UpperHex, prefix: true, plus: true, width: 12, ..Style::default() };
    assert_eq!(number.styled(&style, &mut [0; 13]).unwrap(), "   +0x3.243F");
    assert_eq!(number.styled(&style, &mut [0; 12]).unwrap_err().kind(), ErrorKind::NoRoom);
    assert_eq!(format!("{:*<10.2}", number.number()), "3.14******");
}

#[test]
fn both_neighbours_of_a_value_are_found() {
    let (low, high) = FixedI16::<U15>::enclose("0.1", Radix::Decimal).unwrap();
    assert_eq!((low.to_bits(), high.to_bits()), (3276, 3277));
}

#[test]
fn numbers_come_from_other_formats() {
    let wide = FixedI64::<U32>::read("-2.75").unwrap().number();
    let (byte, overflowed) = FixedI8::<U0>::convert_from(wide, Policy::Checked, Mode::Floor).unwrap();
    assert_eq!((byte.to_bits(), overflowed), (-3, false));
    assert_eq!(
        FixedU8::<U4>::convert_from(wide, Policy::Checked, Mode::Floor).unwrap_err().kind(),
        ErrorKind::Overflow
    );
    assert!(byte.number() < wide);
}

macro_rules! read_back {
    ($($name:ident $bits:ident: $($frac:ident)*;)*) => {$($(
        for bits in [$bits::MIN, $bits::MIN / 3, 0, 1, 77, $bits::MAX / 3, $bits::MAX] {
            let number = $name::<$frac>::from_bits(bits);
            assert_eq!($name::<$frac>::read(number.text()).unwrap().to_bits(), bits);
            assert_eq!($name::<$frac>::read(number.places(64).unwrap()).unwrap().to_bits(), bits);
        }
    )*)*};
}

#[test]
fn numbers_of_every_type_read_back() {
    read_back! {
        FixedI8 i8: U0 U4 U8;
        FixedI16 i16: U0 U8 U15 U16;
        FixedI32 i32: U0 U16 U32;
        FixedI64 i64: U0 U16 U32 U64;
        FixedU8 u8: U0 U4 U8;
        FixedU16 u16: U0 U8 U15 U16;
        FixedU32 u32: U0 U16 U32;
        FixedU64 u64: U0 U16 U32 U64;
    }
}

fn doubled<Frac: Unsigned>(number: FixedI32<Frac>) -> String {
    (number + number).text().to_string()
}

#[test]
fn generic_code_reads_and_prints() {
    assert_eq!(doubled(FixedI32::<U16>::read("1.25").unwrap()), "2.5");
    assert_eq!(doubled(FixedI32::<U4>::read("-3.0625").unwrap()), "-6.1");
}

/// An angle as a fraction of a turn, in 18 bits.
#[derive(Clone, Copy, Debug, PartialEq)]
struct Angle(i32);

impl lomdeqash::FixedText for Angle {
    type Bits = i32;
    const FORMAT: Format = Format::of("I1F17");

    fn from_bits(bits: i32) -> Angle {
        Angle(bits)
    }

    fn to_bits(self) -> i32 {
        self.0
    }
}

#[test]
fn a_type_of_ones_own_has_any_width() {
    use lomdeqash::FixedText;
    assert_eq!(Angle::read("0.3").unwrap(), Angle(39322));
    assert_eq!(Angle(39322).text(), "0.3");
    assert_eq!(Angle::read("1").unwrap_err().kind(), ErrorKind::Overflow);
    assert_eq!(Angle::read_with("1", Policy::Saturating).unwrap(), (Angle(131071), true));
}
