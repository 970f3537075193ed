//! The numbers a refused call gives.

use std::{error::Error, fmt};

/// The table of numbers (docs/RECIPE.md): of each line the number, the name here, the term and when it is true.
macro_rules! refusals {
    ($($number:literal $name:ident $term:literal: $reason:literal;)*) => {
        /// Why a call was refused: the table of numbers, docs/RECIPE.md. No lent word has changed.
        ///
        /// Later archives give more numbers. One that has no name here is [`Refusal::Other`], and more names may come:
        /// a `match` has an arm for the rest.
        #[derive(Clone, Copy, PartialEq, Eq, Hash)]
        #[non_exhaustive]
        pub enum Refusal {
            $(
                #[doc = concat!("Number ", $number, ", ", $term, ": ", $reason, ".")]
                $name,
            )*
            /// A number that has no name here: the archive is newer than this crate.
            Other(u32),
        }

        impl Refusal {
            /// All refusals that have a name, in table order: the order in which they are tested.
            pub const NAMED: &'static [Refusal] = &[$(Refusal::$name),*];

            /// The table's number, as the call gave it.
            pub fn number(self) -> u32 {
                match self {
                    $(Refusal::$name => $number,)*
                    Refusal::Other(number) => number,
                }
            }

            /// The table's term.
            pub fn term(self) -> &'static str {
                match self {
                    $(Refusal::$name => $term,)*
                    Refusal::Other(_) => "other",
                }
            }

            /// What the table says of it.
            pub fn reason(self) -> &'static str {
                match self {
                    $(Refusal::$name => $reason,)*
                    Refusal::Other(_) => "a number that this crate has no name for",
                }
            }

            /// A call's number as a result.
            #[inline]
            pub(crate) fn of(number: u32) -> Result<(), Refusal> {
                match number {
                    0 => Ok(()),
                    $($number => Err(Refusal::$name),)*
                    _ => Err(Refusal::Other(number)),
                }
            }
        }
    };
}

refusals! {
    1 Ragged "ragged": "the recipe is empty, or it or a file of soundings is no multiple of 16 bytes";
    2 StrayRecord "stray record": "kind, order, count, unnamed byte, shift or bound not as the format has them";
    3 Length "length": "some length is 0 or above 1,024";
    4 TooLarge "too large": "more than 16,384 cells";
    18 TooWide "too wide": "all components of a distance of kind 4 fit a byte";
    20 Empty "empty": "no cell of the box is in the shape that the bounds leave";
    5 Distance "distance":
        "components all zero, the same as an earlier record's, or not zero beyond the last dimension";
    6 Tile "tile": "some tile length is 0, above 1,024, or smaller than some distance there";
    16 SpreadOrder "spread order": "the first dimension is not spread, or a spread one follows one that is not";
    17 LastSpread "last spread": "the last dimension is spread";
    7 Boards "boards": "more than 64 processors";
    8 Tiles "tiles": "more than 1,024 tiles that hold a cell";
    21 DirectOnly "direct only": "indirect passing asked for and the recipe has a bound";
    23 NoChart "no chart": "a chart of a recipe that has not two dimensions, or with a cell size that is not 1 to 65,535";
    26 Damaged "damaged": "bytes that are no packet, by their length, their first word or their check word";
    27 Stale "stale": "a packet of another recipe, route or run";
    9 Area "area": "a lent area has not exactly its length";
    22 OffTheBox "off the box":
        "a sounding, whether it counts or not, names a cell that the recipe's box does not have";
    10 Unfit "unfit": "progress, status or engaged words not fit";
    25 Hours "hours": "a faulty window of some processor, or a minute above 10,079";
    11 NoSuch "no such": "office, processor or message number too high, or a message that the processor does not take";
    24 Closed "closed": "the processor is not open at that minute";
    19 Engaged "engaged": "the processor has tiles left for this office and is held by the other";
    12 Waiting "waiting": "the processor is to gather and a message due at its tile is not delivered";
    13 Finished "finished": "the processor has no tiles left";
    14 NoMail "no mail": "delivery of a message that is not in flight, or taking in one that came before";
    15 Early "early": "collecting while a processor has tiles left";
}

impl fmt::Display for Refusal {
    fn fmt(&self, f: &mut fmt::Formatter<'_>) -> fmt::Result {
        write!(f, "refused {}, {}: {}", self.number(), self.term(), self.reason())
    }
}

/// As [`Display`](fmt::Display), so that a failed `assert_eq!`, an `unwrap` and a `main` that gives it tell it in words.
impl fmt::Debug for Refusal {
    fn fmt(&self, f: &mut fmt::Formatter<'_>) -> fmt::Result {
        write!(f, "{self}")
    }
}

impl Error for Refusal {}

#[cfg(test)]
mod tests {
    use super::*;

    #[test]
    fn no_number_is_missing() {
        let mut numbers: Vec<u32> = Refusal::NAMED.iter().map(|refusal| refusal.number()).collect();
        numbers.sort();
        assert_eq!(numbers, (1..=27).collect::<Vec<u32>>());
    }

    #[test]
    fn every_number_is_kept() {
        assert_eq!(Refusal::of(0), Ok(()));
        for number in (1..1000).chain([u32::MAX - 1, u32::MAX]) {
            let refusal = Refusal::of(number).expect_err("a refusal");
            assert_eq!(refusal.number(), number);
            let named = Refusal::NAMED.iter().find(|named| named.number() == number);
            assert_eq!(refusal, named.copied().unwrap_or(Refusal::Other(number)));
        }
    }

    #[test]
    fn display_has_number_and_term() {
        let text = Refusal::NoMail.to_string();
        assert_eq!(
            text,
            "refused 14, no mail: delivery of a message that is not in flight, or taking in one that came before"
        );
        assert_eq!(format!("{:?}", Refusal::NoMail), text);
        let text = Refusal::Other(4000).to_string();
        assert_eq!(text, "refused 4000, other: a number that this crate has no name for");
    }
}
