use std::error::Error;
use std::fmt::{Display, Formatter, Result};

/// Why a call is refused: the lines of document 01's table, and of document 02, in the order in
/// which they are tried. The first that holds is given.
///
/// Document 02 adds lines as its orders land, so that a match has a case for others.
///
/// ```
/// let refusal = kv::sum(3, 16).unwrap_err();
/// assert_eq!(refusal, kv::Refusal::Symbol(1));
/// assert_eq!((refusal.number(), refusal.place()), (5, 1));
/// let words = "a symbol or coefficient is above 15, or a multiplicity above 5, at index 1";
/// assert_eq!(refusal.to_string(), words);
/// ```
#[derive(Clone, Copy, Debug, PartialEq, Eq, Hash)]
#[non_exhaustive]
pub enum Refusal {
    /// 1: n or k is not among the sizes that the entry takes, a position or a symbol lies outside the
    /// matrix, or matrices of unequal n are added.
    Sizes,
    /// 2: the level, the limit, the steps, the degree or the lead is not among those that the entry
    /// takes, or two lists have unequal settings. Where a list is made from a polynomial from
    /// outside, a degree above the matrix's bound is tried after 7.
    Setting,
    /// 3: the input has not the length that the sizes ask for, rows are not in list order or repeat a
    /// message, or a [`Matrix`](crate::Matrix) is not rightly held.
    Length,
    /// 4: lent memory is too short. Only the calls of [`lent`](crate::lent) are refused so: the
    /// others bring enough.
    Room,
    /// 5: the entry at this index is above the greatest one allowed, and none before it is. The
    /// indexes of a second list run on after the first's last, those of a second matrix do not.
    Symbol(usize),
    /// 6: the reliabilities of this position sum to more than 4096, and those of none before it do.
    Column(usize),
    /// 7: the matrix costs more than the limit.
    Cost,
    /// 8: 0 has no inverse, and the polynomial 0 has every root.
    Zero,
    /// 9: the plan is not the one for its reliabilities and steps.
    Plan,
    /// 10: the polynomial from outside is 0, or does not pass through every point of the matrix
    /// with its multiplicity.
    Proposal,
    /// Any other number: the archive is of a later version than this crate.
    #[non_exhaustive]
    Unknown {
        /// As the entry answers it.
        number: u16,
        /// As the entry answers it.
        place: usize,
    },
}

impl Refusal {
    /// The one that an entry answers, `None` where it answers 0.
    pub(crate) fn of(number: u16, place: usize) -> Option<Refusal> {
        match number {
            0 => None,
            1 => Some(Refusal::Sizes),
            2 => Some(Refusal::Setting),
            3 => Some(Refusal::Length),
            4 => Some(Refusal::Room),
            5 => Some(Refusal::Symbol(place)),
            6 => Some(Refusal::Column(place)),
            7 => Some(Refusal::Cost),
            8 => Some(Refusal::Zero),
            9 => Some(Refusal::Plan),
            10 => Some(Refusal::Proposal),
            11.. => Some(Refusal::Unknown { number, place }),
        }
    }

    /// The number that the documents have for it.
    pub fn number(self) -> u16 {
        match self {
            Refusal::Sizes => 1,
            Refusal::Setting => 2,
            Refusal::Length => 3,
            Refusal::Room => 4,
            Refusal::Symbol(_) => 5,
            Refusal::Column(_) => 6,
            Refusal::Cost => 7,
            Refusal::Zero => 8,
            Refusal::Plan => 9,
            Refusal::Proposal => 10,
            Refusal::Unknown { number, .. } => number,
        }
    }

    /// The index or the position where it is, 0 for the others.
    pub fn place(self) -> usize {
        match self {
            Refusal::Symbol(place) | Refusal::Column(place) | Refusal::Unknown { place, .. } => {
                place
            }
            _ => 0,
        }
    }

    /// Every reason that the documents have for it.
    fn words(self) -> &'static str {
        match self {
            Refusal::Sizes => {
                "the sizes are not 2 <= k <= n <= 15, a position or a symbol is outside the matrix, \
                 or matrices of unequal n are added"
            }
            Refusal::Setting => {
                "the level is not 1 to 5, the cost limit is above 225, the steps are above 75, the \
                 degree has more than 256 monomials or is above the matrix's bound, the lead is 0, \
                 or two lists have unequal settings"
            }
            Refusal::Length => {
                "an input does not have exactly its number of entries, rows are not in list order \
                 or repeat a message, or a matrix record's stored numbers are wrong"
            }
            Refusal::Room => "the output is too short for all that may be written",
            Refusal::Symbol(_) => "a symbol or coefficient is above 15, or a multiplicity above 5",
            Refusal::Column(_) => "a position's reliabilities sum to more than 4,096",
            Refusal::Cost => "the matrix costs more than the limit",
            Refusal::Zero => "0 has no inverse, or all coefficients are 0",
            Refusal::Plan => "the plan is not the rule's result for its reliabilities and steps",
            Refusal::Proposal => {
                "the polynomial is all zeros, or does not pass through every point of the matrix \
                 with its multiplicity"
            }
            Refusal::Unknown { .. } => "the reason is not known to this version",
        }
    }
}

/// The reason in words, and the place where it has one.
impl Display for Refusal {
    fn fmt(&self, formatter: &mut Formatter<'_>) -> Result {
        let words = self.words();
        match self {
            Refusal::Symbol(index) => write!(formatter, "{words}, at index {index}"),
            Refusal::Column(position) => write!(formatter, "{words}, at position {position}"),
            Refusal::Unknown { number, place } => {
                write!(formatter, "{words}: refusal {number}, at place {place}")
            }
            _ => write!(formatter, "{words}"),
        }
    }
}

impl Error for Refusal {}
