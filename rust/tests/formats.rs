//! Formats, their names, and what they make of errors.
use lomdeqash::{library_abi, library_version, ErrorKind, Format};

const Q15: Format = Format::of("Q15");

/// The name means the same in a constant and to the library.
fn agrees(name: &str) {
    assert_eq!(Format::parse(name), name.parse(), "{name}");
}

#[test]
fn names_mean_the_same_in_constants_and_to_the_library() {
    for whole in 0..100 {
        for frac in 0..100 {
            for pattern in ["I@F#", "u@f#", "i-@F#", "U-@f#", "Q@.#", "uQ@.#"] {
                agrees(&pattern.replace('@', &whole.to_string()).replace('#', &frac.to_string()));
            }
        }
        agrees(&format!("q{whole}"));
        agrees(&format!("UQ{whole}"));
    }
}

#[test]
fn names_in_other_tools_mean_the_same_in_constants_and_to_the_library() {
    for first in -70_i32..100 {
        for second in -70_i32..100 {
            for pattern in [
                "ap_fixed<@,#>",
                "ap_ufixed<@, #>",
                "sfixed(@ downto #)",
                "ufixed(@ downto #)",
                "fi(_,1,@,#)",
                "fi(_, 0, @, #)",
                "numerictype(0,@,#)",
                "numerictype(1, @, #)",
                "ufix@_En#",
                "sfix@_En#",
            ] {
                agrees(&pattern.replace('@', &first.to_string()).replace('#', &second.to_string()));
            }
        }
        agrees(&format!("sfix{first}"));
        agrees(&format!("ufix{first}"));
    }
    const TAP: Format = Format::of("ap_fixed<16,-9>");
    assert_eq!(TAP, Format::of("I-9F25"));
    for name in ["sfixed(0 downto -15)", "fi(_,1,16,15)", "numerictype(1, 16, 15)", "sfix16_En15"] {
        assert_eq!(Format::parse(name), Ok(Q15), "{name}");
    }
    for wrong in [
        "AP_FIXED<16,1>",
        "ap_fixed<16,1",
        "ap_fixed<16,+1>",
        "ap_fixed<16, 1 >",
        "ap_fixed<16,-0>",
        "ap_fixed<016,1>",
        "sfixed(0 downto -0)",
        "fi(_,1, 16,15)",
        "fi(_,2,16,15)",
        "sfix16_E15",
        "sfix",
        "sfix16x",
        "sfix0",
        "ufix65",
    ] {
        assert_eq!(Format::parse(wrong).map_err(|error| error.kind()), Err(ErrorKind::BadWord), "{wrong}");
        agrees(wrong);
    }
}

#[test]
fn what_is_nearly_a_name_is_none() {
    let wrong = "I I8 I8F U8F08 I08F8 I8F8 .F8 I.F8 I8G8 I8F8F8 Q Q. Q1. Q.15 Q1.F5 Q001 UI8F8 U U8 U8F IQ8 QU8 I8F100 -I8F8 I-8F8 I-0F8 I-1F65 I--1F8 Q-1.9 I8F8x";
    for name in wrong.split(' ').filter(|name| *name != "I8F8") {
        assert_eq!(Format::parse(name).map_err(|error| error.kind()), Err(ErrorKind::BadWord), "{name}");
        agrees(name);
    }
    agrees("");
    agrees(" I8F8");
    agrees("I8F8 ");
    agrees("\u{ff29}8F8");
}

#[test]
fn a_format_says_its_parts_and_its_ends() {
    assert_eq!((Q15.is_signed(), Q15.width(), Q15.frac()), (true, 16, 15));
    assert_eq!((Q15.min().bits(), Q15.max().bits()), (-32768, 32767));
    assert_eq!(Format::of("U64F0").max().bits(), i128::from(u64::MAX));
    assert_eq!(Format::of("I0F64").min().bits(), i128::from(i64::MIN));
    assert_eq!((Format::of("U0F1").min().bits(), Format::of("U0F1").max().bits()), (0, 1));
    assert_eq!((format!("{Q15}|{Q15:>7}|{Q15:?}"), Q15.name().len()), ("I1F15|  I1F15|I1F15".into(), 5));
    assert_eq!(Format::of_bits::<u16>(4), Format::of("U12F4"));
    let small = Format::of("I-9F25");
    assert_eq!((small.width(), small.frac(), small.name().as_ref()), (16, 25, "I-9F25"));
    assert_eq!((small.min().bits(), small.max().bits()), (-32768, 32767));
}

#[test]
fn widths_of_1_to_64_are_formats() {
    for width in 0..70 {
        for frac in 0..70 {
            let is_format = (1..=64).contains(&width) && frac <= 64;
            assert_eq!(Format::new(false, width, frac).is_ok(), is_format);
            assert_eq!(Format::new(true, width, frac).map_err(|error| error.kind()).is_err(), !is_format);
        }
    }
}

#[test]
fn an_error_has_a_kind_and_the_librarys_message() {
    let error = Q15.read("1.5.2").unwrap_err();
    assert_eq!((error.kind(), error.code()), (ErrorKind::TooManyPoints, 4));
    assert_eq!(error.to_string(), "more than one point found in string");
    assert_eq!(format!("{error:?}"), "Error(TooManyPoints)");
    assert_eq!(Q15.max().places(65).unwrap_err().kind(), ErrorKind::BadPlaces);
    assert_eq!(
        Q15.read_rows(b"1", 1, lomdeqash::Mode::Floor, &mut [], &mut []).unwrap_err().kind(),
        ErrorKind::BadRows
    );
}

#[cfg(feature = "std")]
#[test]
fn an_error_is_one_of_std() {
    fn read(text: &str) -> Result<i128, Box<dyn std::error::Error>> {
        Ok(Q15.read(text)?.bits())
    }
    assert_eq!(read("0.5").unwrap(), 16384);
    let error = read("").unwrap_err();
    assert_eq!(error.downcast_ref::<lomdeqash::Error>().unwrap().kind(), ErrorKind::NoDigits);
}

#[test]
fn the_library_is_the_one_that_the_crate_is_for() {
    assert_eq!(library_abi(), 1);
    let (major, minor, patch) = library_version();
    assert_eq!(format!("{major}.{minor}.{patch}"), env!("CARGO_PKG_VERSION"));
}
