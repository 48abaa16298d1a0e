//! The refusals of the byte calls.

use std::fmt;

macro_rules! refusals {
    ($($number:literal $name:ident $message:literal,)*) => {
        /// Why a job was refused. Each has 01's number; a job gets the first that holds, in the order of the input checks
        /// (18, 1 to 10, 13, 11, 12), or else the one met at the lowest location while solving (14 to 17).
        #[derive(Debug, Clone, Copy, PartialEq, Eq, Hash, PartialOrd, Ord)]
        pub enum Refusal {
            $(#[doc = concat!($number, ": ", $message, ".")] $name = $number,)*
        }

        impl Refusal {
            /// Every refusal that a byte call gives, by number.
            pub const ALL: &'static [Refusal] = &[$(Refusal::$name),*];

            /// What it means.
            #[must_use]
            pub const fn message(self) -> &'static str {
                match self {
                    $(Refusal::$name => $message,)*
                }
            }
        }
    };
}

refusals! {
    1 NoCoordinates "no coordinates",
    2 OddCoordinates "odd coordinate count",
    3 TooManyObservations "more than 512 observations",
    4 TooManyPredictors "more than 7 predictors",
    5 PredictorLength "predictor rows do not fit the observations, or differ in length",
    6 ResponseLength "number of responses is not that of the observations",
    7 TooFewObservations "fewer observations than predictors and the intercept",
    8 ResponseNotFinite "a response is not finite",
    9 CoordinateNotFinite "a coordinate is not finite (of a weight: the distance is NaN or negative)",
    10 PredictorNotFinite "a predictor is not finite",
    11 UnusableDistance "the bandwidth distance is not finite or not above zero",
    12 NoDistanceRange "no distance to search: the greatest distance between two places is zero or infinite",
    13 OutputTooShort "output too short",
    14 Singular "a local system is singular",
    15 InverseNotFinite "an inverse is not finite",
    16 CoefficientNotFinite "a coefficient is not finite",
    17 DeviationNotFinite "the root of the mean square residual is not finite",
    18 UnknownNumber "unknown kernel or bandwidth kind",
}

impl Refusal {
    /// 01's number, 1 to 18.
    #[must_use]
    pub const fn number(self) -> u32 {
        self as u32
    }

    /// The refusal of a number.
    #[must_use]
    pub fn from_number(number: u32) -> Option<Self> {
        Self::ALL.iter().copied().find(|r| r.number() == number)
    }

    /// A call's answer as a result.
    pub(crate) fn answer(number: u32) -> Result<(), Self> {
        if number == 0 {
            return Ok(());
        }
        Err(Self::from_number(number).expect("the calls are proved to answer 0 to 18"))
    }
}

impl fmt::Display for Refusal {
    fn fmt(&self, f: &mut fmt::Formatter<'_>) -> fmt::Result {
        write!(f, "refusal {}: {}", self.number(), self.message())
    }
}

impl std::error::Error for Refusal {}

#[cfg(test)]
mod tests {
    use super::*;

    #[test]
    fn numbers_1_to_18() {
        let numbers: Vec<u32> = Refusal::ALL.iter().map(|r| r.number()).collect();
        assert_eq!(numbers, (1..=18).collect::<Vec<_>>());
        for r in Refusal::ALL {
            assert_eq!(Refusal::from_number(r.number()), Some(*r));
        }
        assert_eq!(Refusal::from_number(0), None);
        assert_eq!(Refusal::from_number(19), None);
        assert_eq!(Refusal::answer(0), Ok(()));
        assert_eq!(Refusal::answer(14), Err(Refusal::Singular));
    }

    #[test]
    fn shown_with_number_and_meaning() {
        let shown: Box<dyn std::error::Error> = Box::new(Refusal::Singular);
        assert_eq!(shown.to_string(), "refusal 14: a local system is singular");
    }
}
