//! Types whose bits are an integer, read from text and printed.

/// The items of [`FixedText`](crate::FixedText) and of the traits that [`text_trait`](crate::text_trait) makes.
#[doc(hidden)]
#[macro_export]
macro_rules! __text_items {
    () => {
        /// The integers that hold the bits.
        type Bits: $crate::Bits;

        /// The format of the bits.
        const FORMAT: $crate::Format;

        /// The number that has these bits.
        fn from_bits(bits: Self::Bits) -> Self;

        /// The bits of the number.
        fn to_bits(self) -> Self::Bits;

        /// The format, after the compiler has found that `Bits` holds it.
        #[doc(hidden)]
        const HELD: $crate::Format = Self::FORMAT.held_by::<Self::Bits>();

        /// The number of this type with the bits of `number`, whose format is `FORMAT`.
        #[doc(hidden)]
        fn of_number(number: $crate::Number) -> Self {
            Self::from_bits(number.to_bits().expect("FORMAT is held by Bits"))
        }

        /// Reads a decimal numeral, rounded to the nearest with ties to even.
        ///
        /// # Errors
        /// Why the text is not a numeral, or `Overflow`.
        fn read(text: impl AsRef<[u8]>) -> Result<Self, $crate::Error> {
            Self::HELD.read(text).map(Self::of_number)
        }

        /// Reads a numeral in a radix, with a policy and a mode. Returns the number, and whether it overflowed.
        ///
        /// # Errors
        /// Why the text is not a numeral; with `Policy::Checked` also `Overflow`.
        fn read_with(text: impl AsRef<[u8]>, how: impl Into<$crate::Reading>) -> Result<(Self, bool), $crate::Error> {
            Self::HELD.read_with(text, how).map(|(number, overflowed)| (Self::of_number(number), overflowed))
        }

        /// Reads a literal such as `-0x1f.8` or `1_000.25`, rounded to the nearest with ties to even. Returns the
        /// number, and whether it overflowed.
        ///
        /// # Errors
        /// Why the text is not a literal; with `Policy::Checked` also `Overflow`.
        fn read_literal(text: impl AsRef<[u8]>, policy: $crate::Policy) -> Result<(Self, bool), $crate::Error> {
            Self::HELD.read_literal(text, policy).map(|(number, overflowed)| (Self::of_number(number), overflowed))
        }

        /// The greatest number not above a numeral's value, and the least not below it.
        ///
        /// # Errors
        /// Why the text is not a numeral, or `Overflow`: one of the two does not exist.
        fn enclose(text: impl AsRef<[u8]>, radix: $crate::Radix) -> Result<(Self, Self), $crate::Error> {
            Self::HELD.enclose(text, radix).map(|(low, high)| (Self::of_number(low), Self::of_number(high)))
        }

        /// A number of another format, rounded in a mode. Returns it, and whether it overflowed.
        ///
        /// # Errors
        /// `Overflow`, with `Policy::Checked`.
        fn convert_from(
            number: $crate::Number,
            policy: $crate::Policy,
            mode: $crate::Mode,
        ) -> Result<(Self, bool), $crate::Error> {
            number.convert(Self::HELD, policy, mode).map(|(it, overflowed)| (Self::of_number(it), overflowed))
        }

        /// The number with its format, which is printed and compared by its value.
        ///
        /// # Panics
        /// The format does not have the bits, which may be only if it is narrower than `Bits`.
        fn number(self) -> $crate::Number {
            $crate::Number::new(self.to_bits().into(), Self::HELD).expect("bits are of their format")
        }

        /// The shortest decimal that reads back as this number.
        fn text(self) -> $crate::Text {
            self.number().text()
        }

        /// The decimal of this many places, 0 to 64, rounded to the nearest with ties to even.
        ///
        /// # Errors
        /// `BadPlaces`: more than 64.
        fn places(self, places: u32) -> Result<$crate::Text, $crate::Error> {
            self.number().places(places)
        }

        /// The decimal of this many places, 0 to 64, rounded in a mode.
        ///
        /// # Errors
        /// `BadPlaces`: more than 64.
        fn places_in(self, places: u32, mode: $crate::Mode) -> Result<$crate::Text, $crate::Error> {
            self.number().places_in(places, mode)
        }

        /// Writes the number in a style into a buffer, which needs room for the text and one byte more.
        ///
        /// # Errors
        /// `NoRoom`: the buffer is too small.
        fn styled<'a>(self, style: &$crate::Style, out: &'a mut [u8]) -> Result<&'a str, $crate::Error> {
            self.number().styled(style, out)
        }
    };
}

/// Types of your own whose bits are an integer: with four items they are read from text and printed, exactly.
///
/// ```
/// use lomdeqash::{FixedText, Format};
///
/// #[derive(Clone, Copy)]
/// struct Volts(i16);
///
/// impl FixedText for Volts {
///     type Bits = i16;
///     const FORMAT: Format = Format::of("I4F12");
///     fn from_bits(bits: i16) -> Volts {
///         Volts(bits)
///     }
///     fn to_bits(self) -> i16 {
///         self.0
///     }
/// }
///
/// let supply = Volts::read("3.3")?;
/// assert_eq!((supply.0, &*supply.text(), &*supply.places(3)?), (13517, "3.3", "3.300"));
/// # Ok::<(), lomdeqash::Error>(())
/// ```
///
/// A format that the integers do not hold does not compile. For the types of the crate `fixed` see [`text_trait!`].
///
/// [`text_trait!`]: crate::text_trait
pub trait FixedText: Copy {
    crate::__text_items! {}
}

/// Makes the trait [`FixedText`](crate::FixedText) of your own crate for all types of another crate.
///
/// Rust has a trait implemented only in the crate of the trait or of the type. So a crate that uses `fixed` says once:
///
/// ```
/// lomdeqash::text_trait!(pub FixedText for fixed::traits::Fixed);
/// ```
///
/// and then has, wherever the trait is in scope:
///
/// ```
/// # mod text { lomdeqash::text_trait!(pub FixedText for fixed::traits::Fixed); }
/// # use text::FixedText;
/// use fixed::types::extra::U16;
/// use fixed::FixedI32;
///
/// let number = FixedI32::<U16>::read("3.14159")?;
/// assert_eq!((number.to_bits(), &*number.text()), (205887, "3.14159"));
/// assert_eq!(format!("{:+.3}", number.number()), "+3.142");
/// # Ok::<(), lomdeqash::Error>(())
/// ```
///
/// The named trait has the items of `fixed::traits::Fixed` that are used: `Bits`, `FRAC_NBITS`, `from_bits` and
/// `to_bits`. Of its types, those of 8 to 64 bits have the new trait.
#[macro_export]
macro_rules! text_trait {
    ($visibility:vis $name:ident for $fixed:path) => {
        /// Numbers that are read from text and printed exactly.
        $visibility trait $name: Copy {
            $crate::__text_items! {}
        }

        impl<T> $name for T
        where
            T: $fixed,
            <T as $fixed>::Bits: $crate::Bits,
        {
            type Bits = <T as $fixed>::Bits;

            const FORMAT: $crate::Format =
                $crate::Format::of_bits::<<T as $fixed>::Bits>(<T as $fixed>::FRAC_NBITS as u32);

            fn from_bits(bits: Self::Bits) -> Self {
                <T as $fixed>::from_bits(bits)
            }

            fn to_bits(self) -> Self::Bits {
                <T as $fixed>::to_bits(self)
            }
        }
    };
}
