//! Why a call is refused.

use std::error::Error;
use std::fmt::{Display, Formatter};

/// Makes the enum of the refusals with their numbers; the words of each are its documentation and what it displays.
macro_rules! refusals {
    ($($name:ident = $number:literal: $words:literal,)*) => {
        /// Why a call is refused; the first that applies is given. The numbers are those of the C library, of which a
        /// later version may have more.
        ///
        /// Accepted are finite values of magnitude at most 1,073,741,824, other than -0.0. A whole tick is an accepted
        /// value without a fraction, of magnitude at most 16,777,216.
        #[derive(Clone, Copy, Debug, PartialEq, Eq, Hash)]
        #[non_exhaustive]
        pub enum Refusal {
            $(#[doc = $words] $name,)*
            /// a number that has no name here: the library that is linked is a later one
            Unknown(u64),
        }

        #[deny(unreachable_patterns)]
        impl Refusal {
            /// The number of the C library.
            pub fn number(self) -> u64 {
                match self {
                    $(Refusal::$name => $number,)*
                    Refusal::Unknown(number) => number,
                }
            }

            /// The refusal of a number of the C library; none for 0, which is a call that is answered.
            ///
            /// ```
            /// use tegbalowu::Refusal;
            ///
            /// assert_eq!(Refusal::numbered(0), None);
            /// assert_eq!(Refusal::numbered(7), Some(Refusal::WindowTooLong));
            /// assert_eq!(Refusal::numbered(4_711), Some(Refusal::Unknown(4_711)));
            /// ```
            pub fn numbered(number: u64) -> Option<Refusal> {
                match number {
                    0 => None,
                    $($number => Some(Refusal::$name),)*
                    _ => Some(Refusal::Unknown(number)),
                }
            }
        }

        impl Display for Refusal {
            fn fmt(&self, f: &mut Formatter<'_>) -> std::fmt::Result {
                match self {
                    $(Refusal::$name => f.write_str($words),)*
                    Refusal::Unknown(number) => write!(f, "refusal {number} of a later library"),
                }
            }
        }
    };
}

refusals! {
    SeriesTooLong = 1: "a series longer than 65,536",
    LengthsDiffer = 2: "series of unequal length",
    OutputTooShort = 3: "an output shorter than the series",
    WorkTooShort = 4: "a work slice shorter than 8 times the series",
    ValueNotAccepted = 5:
        "a value that is not accepted; for `tick_mean` and `double_sma_ranges` one that is no whole tick",
    LowAboveHigh = 11: "`double_sma_ranges`: a low above its high at some bar",
    ParameterNotFinite = 6: "a floating-point parameter that is not finite",
    WindowTooLong = 7: "a window above 720; a smoother period that is not whole from 0 to 512",
    SeriesTooShort = 8:
        "`triple_sma_positions`: m3 above the series' length; `ultimate_channel`: a period above that length + 1",
    WindowsOutOfOrder = 9:
        "`double_sma_positions` and `double_sma_ranges`: n not below m; `triple_sma_positions`: not m1 < m2 < m3",
    BrokenLine = 10:
        "`basket`: a count other than 1 to 32, not five numbers a contract, a group other than 1 to 32, another rule",
    CoveredTwice = 12: "`rank_table_positions`: a number from -100 to 100 that two rows cover",
    NotCovered = 13: "`rank_table_positions`: a number from -100 to 100 that no row covers",
    PositionUnknown = 14: "`rank_table_positions`: a position other than -1, 0 and 1",
    WeightTooLarge = 16: "`basket`: a weight beyond 1,000 either way",
}

impl Error for Refusal {}
