//! What sends a call back: the twenty-one refusals by number, name and words.
use std::error::Error;
use std::fmt;

macro_rules! refusals {
    ($($number:literal $name:ident $words:literal)*) => {
        /// Why a call was refused. A refused call changes nothing.
        ///
        /// Opening gives 1 to 10, 20 and 21, running 11 to 14, writing 12, 15 and 16, judging 1 to 10 and 17 to 21. A [`Search`](crate::Search) is
        /// always sound and its starts always have room, so 12 and 13 never come from the calls of this crate; they are here because the library's
        /// numbers have them.
        #[derive(Clone, Copy, Debug, PartialEq, Eq, Hash, PartialOrd, Ord)]
        #[repr(u8)]
        pub enum Refusal {
            $(#[doc = concat!($number, ": ", $words, ".")] $name = $number,)*
        }

        impl Refusal {
            /// Every refusal, in the order of their numbers.
            pub const ALL: [Refusal; 21] = [$(Refusal::$name,)*];

            /// The refusal's condition in words.
            #[must_use]
            pub fn words(self) -> &'static str {
                match self {
                    $(Refusal::$name => $words,)*
                }
            }
        }
    };
}

refusals! {
    1 Line "a line without 0A, without digits, with an odd count, or with another byte than 0-9 and A-F"
    2 Frame "the first byte is no kind that is due there, or the length is wrong"
    3 Edition "the edition is neither 01 nor 02"
    4 Count "n, m or p is outside its limits (1 to 24 jobs, at most 128 delays, 1 to 16 ticks)"
    5 Job "a delay names a job of n or above, or one job twice"
    6 Weight "a weight is outside -1,000 to 1,000"
    7 Missing "the file ends where a frame is due"
    8 Extra "bytes after the last frame of edition 01"
    9 Clashes "more than 1,024 clashes"
    10 Delays "no starts meet the delays and the windows"
    11 Budget "a budget above 1,000,000"
    12 Record "the record is not sound"
    13 Starts "the starts list is shorter than n"
    14 Total "the search has not ended, and total + budget is above 100,000,000"
    15 Unended "a plan text is wanted of a search that has not ended"
    16 Buffer "the text is longer than the buffer"
    17 Form "the plan text is not one B0 line with 01 and then only B1 lines, each of its length"
    18 Order "the plan text's n is not the batch's, or its job lines are not jobs 0 to n - 1 in order"
    19 Invalid "the plan is not valid, or its latency is wrong"
    20 Window "a window's job is of n or above or not above the window's before, or its earliest start is above 20,000 or above its latest"
    21 Rest "a rest's station is above 15 or not above the rest's before, or its ticks are outside 1 to 7"
}

impl Refusal {
    /// The refusal's number, 1 to 21.
    #[must_use]
    pub fn number(self) -> u8 {
        self as u8
    }

    /// The refusal with this number; none outside 1 to 21.
    #[must_use]
    pub fn from_number(number: u8) -> Option<Refusal> {
        Refusal::ALL.get(usize::from(number).checked_sub(1)?).copied()
    }
}

impl fmt::Display for Refusal {
    fn fmt(&self, out: &mut fmt::Formatter<'_>) -> fmt::Result {
        out.write_str(self.words())
    }
}

impl Error for Refusal {}
