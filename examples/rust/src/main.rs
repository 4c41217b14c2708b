//! Adds up the readings of a meter that are given as arguments, exactly, and names what is not a reading.
use std::error::Error;
use std::{env, fmt};

use lomdeqash::{FixedText, Format};

/// Energy in kWh, in steps of 1/256.
#[derive(Clone, Copy, Debug, Default, PartialEq, Eq, PartialOrd, Ord)]
struct Energy(u32);

impl FixedText for Energy {
    type Bits = u32;
    const FORMAT: Format = Format::of("U24F8");

    fn from_bits(bits: u32) -> Self {
        Energy(bits)
    }

    fn to_bits(self) -> u32 {
        self.0
    }
}

impl fmt::Display for Energy {
    fn fmt(&self, f: &mut fmt::Formatter<'_>) -> fmt::Result {
        self.number().fmt(f)
    }
}

impl Energy {
    fn checked_add(self, other: Energy) -> Option<Energy> {
        self.0.checked_add(other.0).map(Energy)
    }
}

fn main() -> Result<(), Box<dyn Error>> {
    let (mut total, mut most) = (Energy::default(), Energy::default());
    for text in env::args().skip(1) {
        match Energy::read(&text) {
            Ok(reading) => {
                total = total.checked_add(reading).ok_or("the total is too great")?;
                most = most.max(reading);
                println!("{text:>8} {reading:>10} {reading:>10.2}");
            }
            Err(error) => println!("{text:>8} {error}"),
        }
    }
    println!("{total} kWh, at most {most}");
    Ok(())
}
