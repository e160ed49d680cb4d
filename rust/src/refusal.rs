//! Refusals: their numbers, and what they are in words.
use std::fmt;

/// Makes `Why` of its table: a name, a number and words in each row.
macro_rules! refusals {
    ($($name:ident $number:literal $words:literal)*) => {
        /// Why a call is refused: docs/FORMAT.md's numbers by name.
        #[derive(Clone, Copy, Debug, PartialEq, Eq)]
        #[non_exhaustive]
        pub enum Why {
            $(#[doc = $words] $name,)*
            /// A number that has no name here.
            Other(u64),
        }

        impl Why {
            /// The refusal with a number.
            pub fn of(number: u64) -> Why {
                match number {
                    $($number => Why::$name,)*
                    _ => Why::Other(number),
                }
            }

            /// Its number.
            pub fn number(self) -> u64 {
                match self {
                    $(Why::$name => $number,)*
                    Why::Other(number) => number,
                }
            }

            /// What it is in words.
            pub fn words(self) -> &'static str {
                match self {
                    $(Why::$name => $words,)*
                    Why::Other(_) => "a refusal that has no name here",
                }
            }
        }
    };
}

refusals! {
    TextTooLong 1 "the text has over 32,768 bytes"
    HighByte 2 "a byte of 128 or more"
    NoConstraintsHeading 3 "the constraints heading is missing"
    NoInstruction 4 "no first instruction"
    NoTwoNewLines 5 "no two new lines after the last instruction that reads"
    NoGuessesHeading 6 "the guesses heading is missing"
    NoGuess 7 "no first guess"
    NumberNotCarried 8 "a number that is not carried"
    NinthRoot 9 "a ninth nested square root"
    TextLeft 10 "text is left over"
    TooManyRecords 11 "over 1,800 records"
    RecordsShort 12 "the record buffer is too short"
    LayoutImpossible 20 "the layout's counts or its stage are impossible"
    WrongStage 21 "a push or a step at the wrong stage"
    Full 22 "4,000 shapes of this kind already"
    SliceShort 23 "the slice of ids or values is too short"
    NoIdsLeft 24 "fewer ids are left than the shape needs"
    NoShape 25 "no shape of this number"
    NotWellFormed 30 "the records are not well formed"
    DeclaredTwice 31 "a label is declared twice"
    WrongLabel 32 "a label is not of the shape needed"
    NoSuchPart 33 "a guess names no part, or is of the wrong sort"
    GuessedTwice 34 "a part is guessed twice"
    WithoutGuess 35 "a part has no guess"
    FewIdsLeft 36 "fewer ids are left than there are slots"
    SlicesShort 37 "the slices of ids and values are too short"
    RowsShort 38 "the row buffer is too short"
}

impl fmt::Display for Why {
    fn fmt(&self, f: &mut fmt::Formatter<'_>) -> fmt::Result {
        f.write_str(self.words())
    }
}

/// A refusal: why, and the place. A place counts bytes of the text in 2 to 10 and records in 30 to 35, from 0. In the others of
/// docs/FORMAT.md it is 0 and tells nothing.
#[derive(Clone, Copy, Debug, PartialEq, Eq)]
pub struct Refusal {
    pub why: Why,
    pub place: usize,
}

impl Refusal {
    /// Its number.
    pub fn number(self) -> u64 {
        self.why.number()
    }
}

impl fmt::Display for Refusal {
    fn fmt(&self, f: &mut fmt::Formatter<'_>) -> fmt::Result {
        write!(f, "{} ({})", self.why, self.number())?;
        match self.number() {
            2..=10 => write!(f, ", at byte {}", self.place),
            30..=35 => write!(f, ", at record {}", self.place),
            _ => Ok(()),
        }
    }
}

impl std::error::Error for Refusal {}
