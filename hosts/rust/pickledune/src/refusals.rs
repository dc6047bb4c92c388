//! The refusals, each with its name, its number and its text. `include/pickledune.h` has the same.
use std::error::Error;
use std::fmt;

macro_rules! refusals {
    ($($name:ident = $number:literal, $text:literal;)*) => {
        /// Why a call was refused. Displayed, it is one line for a log: `refused 23: the run is over`.
        #[derive(Clone, Copy, Debug, PartialEq, Eq, Hash)]
        pub enum Refusal {
            $(
                #[doc = concat!(stringify!($number), ": ", $text, ".")]
                $name,
            )*
            /// A number that is none of these: the archive is of a later version than this wrapper.
            Other(u32),
        }

        impl Refusal {
            /// Every refusal that has a name, in the order of their numbers.
            pub const ALL: &'static [Refusal] = &[$(Refusal::$name),*];

            /// The refusal with this number.
            pub const fn numbered(number: u32) -> Refusal {
                match number {
                    $($number => Refusal::$name,)*
                    _ => Refusal::Other(number),
                }
            }

            /// Its number.
            pub const fn number(self) -> u32 {
                match self {
                    $(Refusal::$name => $number,)*
                    Refusal::Other(number) => number,
                }
            }

            /// What it means, in English.
            pub const fn text(self) -> &'static str {
                match self {
                    $(Refusal::$name => $text,)*
                    Refusal::Other(_) => "no refusal of this library",
                }
            }
        }
    };
}

refusals! {
    TableShort = 1, "the table has fewer than 4 bytes";
    Sizes = 2, "N or M is outside its range";
    TableLength = 3, "the table's length is wrong";
    Ends = 4, "a from or to is 0 or over N";
    ChainField = 5, "a first or next field is over M";
    Chain = 6, "a chain meets an arc twice, meets a foreign one or misses one";
    ArcTwice = 7, "two arcs agree in from and to";
    Process = 8, "the process is 0 or over N";
    AreaShort = 9, "the run area is too short";
    ListOdd = 10, "the list has an odd number of entries";
    OutputShort = 11, "the output is too short";
    BytesLeft = 12, "1 to 3 bytes are left after the last pick";
    InputLong = 13, "the input is longer than 20480 bytes";
    NotWellFormed = 21, "the run area is not well formed, or a value of the step is out of its range";
    OutOfRange = 22, "the step would take a value out of its range, put a fifth message on a link, or acknowledge to father 0";
    Over = 23, "the run is over";
    NoMessage = 24, "no message waits there";
    NoLink = 25, "there is no such link or process";
    NotOver = 26, "the run is not over yet";
    Edition = 30, "the edition is neither 1 nor 2";
    Place = 31, "the place is 0 or beyond the messages that wait on that link";
    Seed = 37, "the seed is 0";
}

impl fmt::Display for Refusal {
    fn fmt(&self, out: &mut fmt::Formatter<'_>) -> fmt::Result {
        write!(out, "refused {}: {}", self.number(), self.text())
    }
}

impl Error for Refusal {}
