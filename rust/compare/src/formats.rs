//! The four formats: how a pattern is laid out, how one is made, and what it stands for. Written
//! without either implementation, so that what is compared does not choose its own cases.

use second::Format;

pub const FORMATS: [Format; 4] = [
    Format::Binary16,
    Format::Binary32,
    Format::Binary64,
    Format::X87,
];

pub struct Layout {
    /// Bits of the exponent field.
    field: u64,
    /// Digits of the significand in the pattern: all formats but x87 leave out the leading one.
    stored: u64,
    pub precision: u64,
}

impl Layout {
    pub fn of(format: Format) -> Layout {
        let (field, stored, precision) = match format {
            Format::Binary16 => (5, 10, 11),
            Format::Binary32 => (8, 23, 24),
            Format::Binary64 => (11, 52, 53),
            Format::X87 => (15, 64, 64),
        };
        Layout {
            field,
            stored,
            precision,
        }
    }

    /// How many hex digits a pattern is written in.
    pub fn hex_digits(&self) -> usize {
        (1 + self.field + self.stored) as usize / 4
    }

    /// The exponent field of infinities and NaNs.
    pub fn ones(&self) -> u64 {
        (1 << self.field) - 1
    }

    /// The leading digit of a normal significand.
    pub fn leading(&self) -> u64 {
        1 << (self.precision - 1)
    }

    /// How far the largest place is above the smallest: the largest gap of two exponents.
    pub fn top(&self) -> u64 {
        self.ones() + self.precision - 3
    }

    /// A pattern of its parts; a leading digit that is not stored falls away.
    pub fn packed(&self, sign: u64, field: u64, significand: u64) -> u128 {
        let word = u128::from(sign << self.field | field);
        word << self.stored | u128::from(significand) & ((1 << self.stored) - 1)
    }

    /// A value with its leading one so far above the smallest place. The top bit of `digits`
    /// stands for that one; digits that there is no room for are dropped.
    pub fn placed(&self, sign: u64, place: u64, digits: u64) -> u128 {
        let digits = digits | 1 << 63;
        match place.checked_sub(self.precision - 2) {
            Some(field) if field > 0 => self.packed(sign, field, digits >> (64 - self.precision)),
            _ => self.packed(sign, 0, digits >> (63 - place)),
        }
    }

    /// A value of x87 at the lowest exponent in its other pattern: field 0, with the leading digit.
    /// The other formats have none.
    pub fn pseudo_denormal(&self, sign: u64, digits: u64) -> Option<u128> {
        let pattern = || self.packed(sign, 0, digits | self.leading());
        self.stores_leading().then(pattern)
    }

    fn stores_leading(&self) -> bool {
        self.stored == self.precision
    }

    pub fn is_negative(&self, x: u128) -> bool {
        x >> (self.field + self.stored) & 1 == 1
    }

    /// The NaN that stands for the value of a call that is refused without one.
    pub fn house_nan(&self) -> u128 {
        self.nan(0, true, 0)
    }

    /// The top digit of a fraction, which only quiet NaNs have.
    fn quiet(&self) -> u64 {
        self.leading() >> 1
    }

    /// A NaN, with the first of the digits below the one that makes it quiet. A signalling one has
    /// at least one digit.
    pub fn nan(&self, sign: u64, is_quiet: bool, digits: u64) -> u128 {
        let rest = digits >> (66 - self.precision);
        let fraction = match is_quiet {
            true => self.quiet() | rest,
            false => rest.max(1),
        };
        self.packed(sign, self.ones(), self.leading() | fraction)
    }

    /// Of a NaN, whether it is quiet, and its digits below the one that says so.
    pub fn payload(&self, x: u128) -> (bool, u64) {
        let digits = x as u64 % self.leading();
        (digits >= self.quiet(), digits % self.quiet())
    }

    /// What a pattern is where denormals begin and end. None for those with other fields.
    pub fn near_denormals(&self, x: u128) -> Option<&'static str> {
        let digits = x as u64 % self.leading();
        let field = (x >> self.stored) as u64 & self.ones();
        match (self.sorted(x).0, field) {
            ("denormal", _) if digits == 1 => Some("smallest denormal"),
            ("denormal", _) if digits == self.leading() - 1 => Some("largest denormal"),
            ("normal", 1) if digits == 0 => Some("smallest normal"),
            ("normal", 1) => Some("normal of field 1"),
            ("unsupported", 1) => Some("unsupported of field 1"),
            (class @ ("zero" | "denormal" | "pseudo-denormal"), _) => Some(class),
            _ => None,
        }
    }

    /// The class of a pattern, and for a finite one the place of its leading one.
    pub fn sorted(&self, x: u128) -> (&'static str, u64) {
        let (field, digits) = ((x >> self.stored) as u64 & self.ones(), x as u64);
        let is_led = if self.stores_leading() {
            digits >= self.leading()
        } else {
            field > 0
        };
        match digits % self.leading() {
            _ if field > 0 && !is_led => ("unsupported", 0),
            _ if field == 0 && is_led => ("pseudo-denormal", self.precision - 1),
            0 if field == 0 => ("zero", 0),
            rest if field == 0 => ("denormal", 63 - u64::from(rest.leading_zeros())),
            _ if field < self.ones() => ("normal", field + self.precision - 2),
            0 => ("infinity", 0),
            _ => ("NaN", 0),
        }
    }
}
