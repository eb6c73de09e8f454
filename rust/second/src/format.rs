//! The four formats: their constants, and the way from a pattern to its fields and back.

/// The formats of the patterns. A pattern is a `u128`; x87's is its sign and exponent word times
/// two to the 64th, plus its significand.
#[derive(Clone, Copy, Debug, PartialEq, Eq)]
pub enum Format {
    /// IEEE 754 binary16.
    Binary16,
    /// IEEE 754 binary32.
    Binary32,
    /// IEEE 754 binary64.
    Binary64,
    /// The 80-bit extended format, whose leading significand bit is stored.
    X87,
}

/// The constants of a format.
pub(crate) struct Layout {
    /// Digits of a significand, the leading one counted.
    pub(crate) precision: u32,
    /// Digits of a significand that the pattern stores.
    stored: u32,
    exponent_bits: u32,
    /// The power of two that the last digit of a denormal counts.
    pub(crate) smallest_place: i32,
    /// The NaN that stands for the value under a refusal, but for one by a NaN.
    pub(crate) house_nan: u128,
}

impl Layout {
    /// The leading digit of a normal significand.
    pub(crate) fn leading(&self) -> u128 {
        1 << (self.precision - 1)
    }

    /// The exponent field of infinities and NaNs: all ones.
    fn top_field(&self) -> u128 {
        (1 << self.exponent_bits) - 1
    }

    fn stored_mask(&self) -> u128 {
        (1 << self.stored) - 1
    }
}

/// What a pattern stands for.
#[derive(Clone, Copy, Debug, PartialEq, Eq)]
pub(crate) enum Class {
    Zero,
    /// Finite and not zero.
    Finite,
    Infinite,
    Nan,
    /// An x87 pattern with an exponent field other than 0 and no leading digit.
    Unsupported,
}

/// A magnitude: `significand * 2^place`, as it stands in the pattern.
#[derive(Clone, Copy, Debug)]
pub(crate) struct Magnitude {
    pub(crate) significand: u128,
    pub(crate) place: i32,
}

impl Magnitude {
    /// How many digits the significand has, counted one by one.
    pub(crate) fn digits(self) -> u32 {
        let mut digits = 0;
        while self.significand >> digits != 0 {
            digits += 1;
        }
        digits
    }

    /// The place of the leading one, for a denormal too. It has a meaning only where there is one.
    pub(crate) fn exponent(self) -> i32 {
        self.place + self.digits() as i32 - 1
    }
}

/// A pattern that has been read. The magnitude has a meaning only in zeros and finite values; of a
/// NaN its significand has one.
#[derive(Clone, Copy, Debug)]
pub(crate) struct Operand {
    pub(crate) class: Class,
    pub(crate) negative: bool,
    /// The exponent field.
    pub(crate) field: u128,
    pub(crate) magnitude: Magnitude,
}

impl Format {
    /// The constants, each named here and nowhere else.
    #[rustfmt::skip]
    pub(crate) fn layout(self) -> Layout {
        let (precision, stored, exponent_bits, smallest_place, house_nan) = match self {
            Format::Binary16 => (11, 10,  5,    -24, 0x7E00),
            Format::Binary32 => (24, 23,  8,   -149, 0x7FC0_0000),
            Format::Binary64 => (53, 52, 11,  -1074, 0x7FF8_0000_0000_0000),
            Format::X87      => (64, 64, 15, -16445, 0x7FFF_C000_0000_0000_0000),
        };
        Layout { precision, stored, exponent_bits, smallest_place, house_nan }
    }

    /// Takes a pattern apart.
    pub(crate) fn read(self, pattern: u128) -> Operand {
        let layout = self.layout();
        let negative = pattern >> layout.stored >> layout.exponent_bits & 1 == 1;
        let field = pattern >> layout.stored & layout.top_field();
        let stored = pattern & layout.stored_mask();
        let implied = layout.stored < layout.precision && field != 0;
        let significand = stored | if implied { layout.leading() } else { 0 };
        let class = if field != 0 && significand < layout.leading() {
            Class::Unsupported
        } else if field == layout.top_field() && significand == layout.leading() {
            Class::Infinite
        } else if field == layout.top_field() {
            Class::Nan
        } else if significand == 0 {
            Class::Zero
        } else {
            Class::Finite
        };
        // Field 0 and field 1 count in the same place, so that a pseudo-denormal of x87, field 0
        // with the leading digit, is a finite value like any other.
        let place = layout.smallest_place + field.max(1) as i32 - 1;
        Operand {
            class,
            negative,
            field,
            magnitude: Magnitude { significand, place },
        }
    }

    /// Puts the ordinary pattern together, from a sign and a magnitude that needs no rounding:
    /// field 0 has no leading digit. A magnitude beyond the largest finite one becomes infinity.
    pub(crate) fn write(self, negative: bool, significand: u128, place: i64) -> u128 {
        let layout = self.layout();
        let smallest_place = i64::from(layout.smallest_place);
        let (mut significand, mut place) = (significand, place);
        while significand != 0 && significand < layout.leading() && place > smallest_place {
            significand <<= 1;
            place -= 1;
        }
        if significand < layout.leading() {
            return self.pattern(negative, 0, significand);
        }
        let field = (place - smallest_place + 1) as u128;
        if field >= layout.top_field() {
            return self.infinity(negative);
        }
        self.pattern(negative, field, significand)
    }

    /// The ordinary pattern of a zero or a finite value.
    pub(crate) fn ordinary(self, x: Operand) -> u128 {
        let Magnitude { significand, place } = x.magnitude;
        self.write(x.negative, significand, place.into())
    }

    /// The infinity of a sign.
    pub(crate) fn infinity(self, negative: bool) -> u128 {
        let layout = self.layout();
        self.pattern(negative, layout.top_field(), layout.leading())
    }

    /// Lays the fields side by side; a leading digit that is not stored falls away.
    pub(crate) fn pattern(self, negative: bool, field: u128, significand: u128) -> u128 {
        let layout = self.layout();
        let sign_and_field = u128::from(negative) << layout.exponent_bits | field;
        sign_and_field << layout.stored | significand & layout.stored_mask()
    }
}
