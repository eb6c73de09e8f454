//! Operands of the generated sequence: every class of pattern by every class, every band of the gap
//! D (the exponent of the dividend less that of the divisor), and ties. Readings, origins and periods
//! of points.

use crate::formats::Layout;

/// Where the bands of D begin that are not negative. The largest D of a format is one more band.
pub const BANDS: [u64; 9] = [0, 1, 2, 10, 13, 52, 64, 67, 1000];

/// A deterministic sequence of draws (splitmix64).
pub struct Draw(pub u64);

impl Draw {
    pub fn bits(&mut self) -> u64 {
        self.0 = self.0.wrapping_add(0x9E37_79B9_7F4A_7C15);
        let a = (self.0 ^ self.0 >> 30).wrapping_mul(0xBF58_476D_1CE4_E5B9);
        let b = (a ^ a >> 27).wrapping_mul(0x94D0_49BB_1331_11EB);
        b ^ b >> 31
    }

    pub fn below(&mut self, n: u64) -> u64 {
        self.bits() % n
    }

    /// Sixteen recipes.
    pub fn pair(&mut self, layout: &Layout) -> (u128, u128) {
        let recipe = self.below(16);
        let any_gap = 1 + self.below(layout.top());
        match recipe {
            0..=2 => (self.any(layout), self.any(layout)),
            3 => self.tied(layout),
            4 => {
                let gap = if self.below(2) == 0 { 1 } else { any_gap };
                let (x, y) = self.apart(layout, gap);
                (y, x)
            }
            5 => self.apart(layout, layout.top()),
            // steps begin to be partial here
            6 => self.apart(layout, 62 + any_gap % 6),
            _ => {
                let band = recipe as usize - 7;
                let width = BANDS
                    .get(band + 1)
                    .map_or(32_000, |next| next - BANDS[band]);
                let gap = BANDS[band] + self.below(width);
                self.apart(layout, gap)
            }
        }
    }

    /// The pair, with a pseudo-denormal for its dividend, its divisor or both in three of 16 cases,
    /// where the format has any.
    pub fn with_pseudo_denormals(&mut self, layout: &Layout, (x, y): (u128, u128)) -> (u128, u128) {
        let mut drawn = || layout.pseudo_denormal(self.below(2), self.digits());
        let (other_x, other_y) = (drawn().unwrap_or(x), drawn().unwrap_or(y));
        match self.below(16) {
            0 => (other_x, y),
            1 => (x, other_y),
            2 => (other_x, other_y),
            _ => (x, y),
        }
    }

    /// The pair, with a NaN for its dividend, its divisor or both in four of 32 cases. Of two, one in
    /// three has the other's digits, but for the one that makes it quiet.
    pub fn with_nans(&mut self, layout: &Layout, (x, y): (u128, u128)) -> (u128, u128) {
        let digits = [self.digits(), self.digits()];
        let digits = [digits[0], digits[self.below(3).min(1) as usize]];
        let [nan_x, nan_y] =
            digits.map(|digits| layout.nan(self.below(2), self.below(2) == 1, digits));
        match self.below(32) {
            0 => (nan_x, y),
            1 => (x, nan_y),
            2 | 3 => (nan_x, nan_y),
            _ => (x, y),
        }
    }

    /// Any bits, the fields at their ends more often: of every class, x87's own two among them.
    pub fn any(&mut self, layout: &Layout) -> u128 {
        let (ones, leading, digits) = (layout.ones(), layout.leading(), self.digits());
        let field = [0, 1, ones - 1, ones, self.below(ones + 1)][self.below(5) as usize];
        let significand = [0, leading, digits, leading | digits][self.below(4) as usize];
        layout.packed(self.below(2), field, significand)
    }

    /// A dividend with its leading one so many places above the divisor's, or as many as are left
    /// of them in a format that has no such gap.
    fn apart(&mut self, layout: &Layout, gap: u64) -> (u128, u128) {
        let gap = gap % (layout.top() + 1);
        let room = layout.top() - gap;
        let low = [0, room, self.below(room + 1), self.below(room + 1)][self.below(4) as usize];
        let y = self.digits();
        let x = match self.below(4) {
            // the same digits, or all but the last
            0 => y ^ self.below(2) << (64 - layout.precision),
            _ => self.digits(),
        };
        let x = layout.placed(self.below(2), low + gap, x);
        (x, layout.placed(self.below(2), low, y))
    }

    /// x is an odd number of halves of y: the nearest quotient is a tie.
    fn tied(&mut self, layout: &Layout) -> (u128, u128) {
        let m = self.bits() >> 56 | 1;
        let k = self.bits() >> (72 - layout.precision + self.below(layout.precision - 8)) | 1;
        let low = self.below(2) * self.below(layout.top() - layout.precision);
        let mut counted = |n: u64, place: u64| {
            let zeros = n.leading_zeros();
            layout.placed(self.below(2), place + 63 - u64::from(zeros), n << zeros)
        };
        (counted(k * m, low), counted(m, low + 1))
    }

    /// A reading and the origin that is subtracted from it, or the other way round.
    pub fn shifted(&mut self, layout: &Layout) -> (u128, u128) {
        let (sign, other_sign, near) = (self.below(2), self.below(2), self.below(57));
        let (x, y) = match self.below(8) {
            0 => (self.any(layout), self.any(layout)),
            1 => self.pair(layout),
            2 => self.halved(layout),
            // all digits but the last cancel, or the last too
            3 => {
                let x = self.any(layout);
                (x, x ^ u128::from(self.below(4)))
            }
            // the range's end
            4 => {
                let (x, y) = (self.digits(), self.digits());
                let place = layout.top() - near;
                (
                    layout.placed(sign, layout.top(), x),
                    layout.placed(other_sign, place, y),
                )
            }
            // denormals, and the smallest of the others
            5 => {
                let (x, y) = (self.digits(), self.digits());
                let place = self.below(57);
                (
                    layout.placed(sign, near, x),
                    layout.placed(other_sign, place, y),
                )
            }
            _ => self.apart(layout, near),
        };
        if self.below(2) == 0 {
            (x, y)
        } else {
            (y, x)
        }
    }

    /// y is an odd number of halves of the last digit of x: mostly their difference is a tie.
    fn halved(&mut self, layout: &Layout) -> (u128, u128) {
        let digits = self.digits();
        let n = self.bits() >> (12 + self.below(52)) | 1;
        let zeros = n.leading_zeros();
        let half = self.below(layout.top() - layout.precision + 1);
        let y = layout.placed(self.below(2), half + 63 - u64::from(zeros), n << zeros);
        let x = layout.placed(self.below(2), half + layout.precision, digits);
        (x, y)
    }

    /// A period, one in 16 of any pattern. Half of them are so large that they leave a reading as it
    /// is, and show what the subtraction has made of it.
    pub fn period(&mut self, layout: &Layout, reading: u128) -> u128 {
        let (_, place) = layout.sorted(reading);
        let digits = self.digits();
        match self.below(16) {
            0 => self.any(layout),
            1..=7 => layout.placed(0, layout.top(), digits),
            8..=12 => layout.placed(0, place.saturating_sub(self.below(64)), digits),
            _ => layout.placed(0, self.below(layout.top() + 1), digits),
        }
    }

    /// Any digits, or few ones, or few zeros.
    fn digits(&mut self) -> u64 {
        let any = self.bits();
        match self.below(8) {
            0 => 0,
            1 => u64::MAX,
            2 => any >> 56 << 56,
            3 => any | u64::MAX << 8,
            4 => 1 << (any % 64),
            _ => any,
        }
    }
}
