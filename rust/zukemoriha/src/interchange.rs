//! The functions that IEEE 754's interchange formats have in common, written once for patterns
//! of any width. A format's module names its functions of the archive, each with an example.

macro_rules! interchange_functions {
    (
        $pattern:ty, $house_nan:literal;
        $(#[$remainder_example:meta])*
        remainder: $remainder:ident;
        $(#[$remquo_example:meta])*
        remquo: $remquo:ident;
        $(#[$scale_example:meta])*
        scale: $scale:ident;
        $(#[$split_example:meta])*
        split: $split:ident;
        $(#[$denormal_example:meta])*
        denormal: $denormal:ident;
        $(#[$nan_example:meta])*
        nan: $nan:ident;
    ) => {
        /// The house NaN: the value of a call that is refused for any reason but a NaN operand.
        /// Its sign is clear, and of its fraction only the top bit is set.
        pub const HOUSE_NAN: $pattern = $house_nan;

        /// The remainder of `x` by `y`, exact, with the low 31 bits of the quotient's magnitude.
        ///
        /// A zero result has the sign of `x`. By an infinite `y` a finite `x` is returned as it
        /// is, with quotient 0.
        ///
        /// # Errors
        ///
        /// The first of these that applies:
        ///
        /// - [`Refusal::Nan`](crate::Refusal::Nan): an operand is NaN
        /// - [`Refusal::Infinite`](crate::Refusal::Infinite): `x` is infinite
        /// - [`Refusal::ZeroDivisor`](crate::Refusal::ZeroDivisor): `y` is zero
        ///
        /// # Examples
        ///
        $(#[$remainder_example])*
        pub fn remainder(
            x: $pattern,
            y: $pattern,
            kind: $crate::Kind,
        ) -> Result<$crate::Remainder<$pattern>, $crate::Refused<$pattern>> {
            let (mut value, mut quotient) = (0, 0);
            // SAFETY: both pointers are to places of their own, of the types that are written.
            let number = unsafe {
                $crate::raw::$remainder(x, y, kind as u32, &mut value, &mut quotient)
            };
            let denormal = judged(number, x, y)?;
            Ok($crate::Remainder { value, quotient, denormal })
        }

        /// The remainder of `x` by `y`, exact, with the low 31 bits of the quotient's magnitude and
        /// the sign of `x / y`: below zero where just one operand is negative. 0 has no sign.
        ///
        /// With [`Kind::Nearest`](crate::Kind::Nearest) it is C's `remquo`, with 31 bits of the
        /// quotient where C asks for at least three; what is a NaN there is refused. The value is
        /// that of [`remainder`], and so is the quotient's magnitude, which is 0 by an infinite
        /// `y`.
        ///
        /// # Errors
        ///
        /// Those of [`remainder`].
        ///
        /// # Examples
        ///
        $(#[$remquo_example])*
        pub fn remquo(
            x: $pattern,
            y: $pattern,
            kind: $crate::Kind,
        ) -> Result<$crate::Remquo<$pattern>, $crate::Refused<$pattern>> {
            let (mut value, mut quotient) = (0, 0);
            // SAFETY: both pointers are to places of their own, of the types that are written.
            let number = unsafe {
                $crate::raw::$remquo(x, y, kind as u32, &mut value, &mut quotient)
            };
            let denormal = judged(number, x, y)?;
            Ok($crate::Remquo { value, quotient, denormal })
        }

        /// `x` times two to the `power`, rounded once, ties to even.
        ///
        /// An exponent above the format's largest gives infinity, and only bits below the
        /// smallest denormal are rounded away. Zeros and infinities return themselves, exact.
        ///
        /// # Errors
        ///
        /// - [`Refusal::Nan`](crate::Refusal::Nan): `x` is NaN
        ///
        /// # Examples
        ///
        $(#[$scale_example])*
        pub fn scale(
            x: $pattern,
            power: i32,
        ) -> Result<$crate::Scaled<$pattern>, $crate::Refused<$pattern>> {
            let (mut value, mut says) = (0, 0);
            // SAFETY: both pointers are to places of their own, of the types that are written.
            let number = unsafe { $crate::raw::$scale(x, power, &mut value, &mut says) };
            let denormal = judged(number, x, x)?;
            let rounding = $crate::Rounding::of_number(says);
            Ok($crate::Scaled { value, rounding, denormal })
        }

        /// Splits `x` into a significand, its magnitude from 1 to below 2 and its sign that of
        /// `x`, and the exponent of its leading one.
        ///
        /// Scaling the significand by the exponent gives the pattern `x` back, exact.
        ///
        /// # Errors
        ///
        /// - [`Refusal::Nan`](crate::Refusal::Nan): `x` is NaN
        /// - [`Refusal::Infinite`](crate::Refusal::Infinite): `x` is infinite
        /// - [`Refusal::ZeroSplit`](crate::Refusal::ZeroSplit): `x` is zero
        ///
        /// # Examples
        ///
        $(#[$split_example])*
        pub fn split(
            x: $pattern,
        ) -> Result<$crate::Split<$pattern>, $crate::Refused<$pattern>> {
            let (mut significand, mut exponent) = (0, 0);
            // SAFETY: both pointers are to places of their own, of the types that are written.
            let number = unsafe { $crate::raw::$split(x, &mut significand, &mut exponent) };
            let denormal = judged(number, x, x)?;
            Ok($crate::Split { significand, exponent, denormal })
        }

        /// Whether `x` is denormal: its exponent field is 0, and it is not a zero.
        ///
        /// Answers and refusals tell it of their operands; this asks of any pattern.
        ///
        /// # Examples
        ///
        $(#[$denormal_example])*
        pub fn denormal(x: $pattern) -> bool {
            // SAFETY: no pointer is handed over.
            $crate::numbers::yes(unsafe { $crate::raw::$denormal(x) })
        }

        /// The NaN that [`Refusal::Nan`](crate::Refusal::Nan) speaks of where `x` and `y` are the
        /// operands. It is made quiet: the top bit of the fraction is set, and its sign and all
        /// other bits are kept.
        ///
        /// If one operand is NaN it is that one; of two, the one whose significand is larger as
        /// given, and `x` where they are equal. Where neither is NaN it is [`HOUSE_NAN`].
        ///
        /// # Examples
        ///
        $(#[$nan_example])*
        pub fn nan(x: $pattern, y: $pattern) -> $pattern {
            // SAFETY: no pointer is handed over.
            unsafe { $crate::raw::$nan(x, y) }
        }

        /// Whether an operand of a finished call is denormal, or all that a refused one tells.
        fn judged(
            number: u8,
            x: $pattern,
            y: $pattern,
        ) -> Result<bool, $crate::Refused<$pattern>> {
            let denormal = denormal(x) || denormal(y);
            match $crate::numbers::finished(number) {
                Ok(()) => Ok(denormal),
                Err(refusal) => {
                    let value = match refusal {
                        $crate::Refusal::Nan => nan(x, y),
                        _ => HOUSE_NAN,
                    };
                    Err($crate::Refused { refusal, value, denormal })
                }
            }
        }
    };
}

pub(crate) use interchange_functions;
