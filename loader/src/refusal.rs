//! What a call can refuse, with its number in document 01 or 02 and a sentence for each.
use crate::plan::MOST_NODES;
use std::fmt;

macro_rules! refusals {
    ($($name:ident = $number:literal, $sentence:literal;)*) => {
        /// Why a call refused its plan. A refused call has written nothing.
        #[derive(Clone, Copy, Debug, PartialEq, Eq, Hash)]
        #[non_exhaustive]
        pub enum Refusal {
            $(#[doc = $sentence] $name,)*
            /// A plan with a join or an aggregate is not stepped: the number of the first such node.
            NotStepped(u32),
            /// A number that this edition of the package has no sentence for: the library that it is linked to is of another edition.
            Other(u32),
        }

        impl Refusal {
            /// All that have one number each, by number.
            pub const ALL: &'static [Refusal] = &[$(Refusal::$name),*];

            /// The refusal of a number, if this edition knows it.
            pub fn from_number(number: u32) -> Option<Refusal> {
                match number {
                    $($number => Some(Refusal::$name),)*
                    _ => not_stepped(number).map(Refusal::NotStepped),
                }
            }

            /// Its number in document 01, or 02.
            pub fn number(self) -> u32 {
                match self {
                    $(Refusal::$name => $number,)*
                    Refusal::NotStepped(node) => Refusal::NOT_STEPPED.saturating_add(node),
                    Refusal::Other(number) => number,
                }
            }

            /// What it means, in one sentence.
            pub fn sentence(self) -> &'static str {
                match self {
                    $(Refusal::$name => $sentence,)*
                    Refusal::NotStepped(_) => {
                        "A plan with a join or an aggregate is not stepped: the number is 256 plus the first such node's."
                    }
                    Refusal::Other(_) => "The linked library is of another edition than this package, which has no sentence for it.",
                }
            }
        }
    };
}

refusals! {
    Length = 1, "The file is empty, no multiple of 512 bytes, or longer than 18 blocks.";
    Sum = 2, "A block's sum is wrong.";
    Header = 3, "A block's header or padding is wrong.";
    Kind = 4, "A record has an unknown kind, or a child count that its kind can't have.";
    Shape = 5, "Records are missing or left over.";
    Field = 6, "A field is outside its rule, or a union's children have unequal widths.";
    Column = 7, "A column is not below its width, or stands twice in one key list.";
    Width = 8, "A node is wider than 32 columns.";
    NoSuchNode = 20, "The tree has no node of that number.";
    PartialSort = 21, "A tree with a partial sort is not rewritten.";
    TooManyNodes = 23, "The rewrite passes 126 nodes.";
    ShortOutput = 24, "The output is shorter than what is to be written.";
    ConstantSort = 25, "Pushing meets a sort whose keys are all constant.";
    WrongRows = 26, "The rows break their form, or their source's declared order or constants.";
    TooManyRows = 27, "The sources together have more than 256 rows.";
}

/// The node that a number from 256 on names: a plan has at most 126.
fn not_stepped(number: u32) -> Option<u32> {
    number.checked_sub(Refusal::NOT_STEPPED).filter(|node| *node < MOST_NODES as u32)
}

impl Refusal {
    /// What a dry run adds to the number of the first join or aggregate.
    pub const NOT_STEPPED: u32 = 256;

    /// The refusal of any number but 0.
    pub(crate) fn of(number: u32) -> Refusal {
        Refusal::from_number(number).unwrap_or(Refusal::Other(number))
    }
}

impl fmt::Display for Refusal {
    fn fmt(&self, f: &mut fmt::Formatter) -> fmt::Result {
        write!(f, "refusal {}: {}", self.number(), self.sentence())
    }
}

impl std::error::Error for Refusal {}

#[cfg(test)]
mod tests {
    use super::*;

    #[test]
    fn numbers_go_there_and_back() {
        for refusal in Refusal::ALL {
            assert_eq!(Refusal::from_number(refusal.number()), Some(*refusal));
        }
        let numbers = [1, 2, 3, 4, 5, 6, 7, 8, 20, 21, 23, 24, 25, 26, 27];
        assert_eq!(Refusal::ALL.iter().map(|r| r.number()).collect::<Vec<_>>(), numbers);
    }

    /// 256 plus a node's number, as far as a plan has nodes.
    #[test]
    fn a_plan_that_is_not_stepped_names_its_node() {
        for node in 0..MOST_NODES as u32 {
            assert_eq!(Refusal::from_number(256 + node), Some(Refusal::NotStepped(node)));
            assert_eq!(Refusal::NotStepped(node).number(), 256 + node);
        }
        assert_eq!((Refusal::from_number(255), Refusal::from_number(256 + 126)), (None, None));
        assert!(Refusal::of(257).to_string().starts_with("refusal 257: A plan with a join or an aggregate is not stepped"));
    }

    #[test]
    fn an_unknown_number_is_told() {
        // 22 is not given any more (document 02, P2)
        assert_eq!((Refusal::from_number(22), Refusal::from_number(99)), (None, None));
        assert!(Refusal::of(99).to_string().starts_with("refusal 99: The linked library is of another edition"));
        assert_eq!(Refusal::of(99).number(), 99);
    }
}
