//! What the counter does with the lists of one photograph of a tag, or of two.

use crate::lent::{self, Judgement};
use crate::photograph::Photograph;
use crate::refusal::Refusal;

/// What the counter does.
#[derive(Clone, Copy, Debug, PartialEq, Eq)]
pub enum Verdict {
    /// It opens the pouch: one ticket stands out.
    Open,
    /// It asks a person.
    Ask,
    /// It has no ticket.
    Nothing,
}

impl Verdict {
    fn of(answer: Judgement) -> Result<Verdict, Refusal> {
        Ok(match answer.accepted()?.value {
            1 => Verdict::Open,
            2 => Verdict::Ask,
            // The library judges with no other value than 3.
            _ => Verdict::Nothing,
        })
    }
}

/// The verdict on one list: [`Verdict::Nothing`] where there are no rows; [`Verdict::Open`] where
/// there is one, or where the first score leads the second by at least `lead`; else
/// [`Verdict::Ask`].
///
/// `rows` has k symbols for each score. There may be any number of rows.
///
/// Refused with [`Refusal::Sizes`] unless 2 <= k <= 15, [`Refusal::Setting`] where the lead is 0,
/// [`Refusal::Length`] where there are not k symbols a score, the rows are not in the order that
/// [`Listed`](crate::Listed) has, or two of them have the same message, [`Refusal::Symbol`] where a
/// symbol is above 15.
///
/// ```
/// use kv::{judge, Refusal, Verdict};
///
/// let (rows, scores) = ([1, 0, 0, 1], [17, 11]);
/// assert_eq!(judge(2, &rows, &scores, 6), Ok(Verdict::Open));
/// assert_eq!(judge(2, &rows, &scores, 7), Ok(Verdict::Ask));
/// assert_eq!(judge(2, &rows[..2], &scores[..1], 7), Ok(Verdict::Open));
/// assert_eq!(judge(2, &[], &[], 7), Ok(Verdict::Nothing));
/// // Equal scores stand by their messages, smaller symbols first.
/// assert_eq!(judge(2, &rows, &[17, 17], 7), Err(Refusal::Length));
/// ```
pub fn judge(k: usize, rows: &[u8], scores: &[u16], lead: usize) -> Result<Verdict, Refusal> {
    Verdict::of(lent::judge(k, rows, scores, lead))
}

/// The part of `rows` that is opened, asked after [`judge`] with the same inputs: the first row
/// where that answers [`Verdict::Open`], else, refusals included, an empty part.
///
/// ```
/// let (rows, scores) = ([1, 0, 0, 1], [17, 11]);
/// assert_eq!(kv::open(2, &rows, &scores, 6), [1, 0]);
/// assert_eq!(kv::open(2, &rows, &scores, 7), []);
/// assert_eq!(kv::open(2, &rows, &scores, 0), []);
/// ```
pub fn open<'a>(k: usize, rows: &'a [u8], scores: &[u16], lead: usize) -> &'a [u8] {
    part(lent::open(k, rows, scores, lead), rows, &[])
}

/// The part of one of two lists that an answer names: an empty one of the first where it names none.
fn part<'a>(answer: Judgement, rows: &'a [u8], others: &'a [u8]) -> &'a [u8] {
    let list = match answer.value {
        2 => others,
        _ => rows,
    };
    &list[..list.len().min(answer.count.into())]
}

/// The verdict on the lists of two photographs: [`Verdict::Ask`] where both have rows and their
/// first messages differ; else what [`judge`] answers for the first list, or for the second where
/// the first has no rows.
///
/// Refused with [`Refusal::Sizes`] for either list, [`Refusal::Setting`] where either level is not
/// 1 to [`LEVEL`](crate::LEVEL), the lead is 0, or sizes or levels differ, [`Refusal::Length`]
/// where [`judge`] so refuses either list, [`Refusal::Symbol`] where a symbol is above 15; the
/// indexes of the second list run on after the first's last.
///
/// ```
/// use kv::{judge_both, Photograph, Refusal, Sizes, Verdict};
///
/// let sizes = Sizes { n: 6, k: 2 };
/// let clear = Photograph { sizes, level: 4, rows: &[1, 0], scores: &[19] };
/// let worn = Photograph { rows: &[1, 0, 0, 1], scores: &[15, 13], ..clear };
/// let other = Photograph { rows: &[0, 1], ..clear };
/// let empty = Photograph { rows: &[], scores: &[], ..clear };
/// assert_eq!(judge_both(clear, worn, 4), Ok(Verdict::Open));
/// assert_eq!(judge_both(worn, clear, 4), Ok(Verdict::Ask));
/// assert_eq!(judge_both(clear, other, 4), Ok(Verdict::Ask));
/// assert_eq!(judge_both(empty, other, 4), Ok(Verdict::Open));
/// assert_eq!(judge_both(empty, empty, 4), Ok(Verdict::Nothing));
///
/// let coarser = Photograph { level: 3, ..clear };
/// assert_eq!(judge_both(clear, coarser, 4), Err(Refusal::Setting));
/// let smudged = Photograph { rows: &[1, 16], ..clear };
/// assert_eq!(judge_both(worn, smudged, 4), Err(Refusal::Symbol(5)));
/// ```
pub fn judge_both(
    first: Photograph<'_>,
    second: Photograph<'_>,
    lead: usize,
) -> Result<Verdict, Refusal> {
    Verdict::of(lent::judge_both(first, second, lead))
}

/// The part that is opened, asked after [`judge_both`] with the same inputs: where that answers
/// [`Verdict::Open`], the first row of the list that was judged; else, refusals included, an empty
/// part of the first list.
///
/// ```
/// use kv::{open_both, Photograph, Sizes};
///
/// let sizes = Sizes { n: 6, k: 2 };
/// let empty = Photograph { sizes, level: 4, rows: &[], scores: &[] };
/// let clear = Photograph { rows: &[1, 0], scores: &[19], ..empty };
/// let other = Photograph { rows: &[0, 1], ..clear };
/// assert_eq!(open_both(empty, clear, 4), [1, 0]);
/// assert_eq!(open_both(other, clear, 4), []);
/// ```
pub fn open_both<'a>(first: Photograph<'a>, second: Photograph<'a>, lead: usize) -> &'a [u8] {
    part(
        lent::open_both(first, second, lead),
        first.rows,
        second.rows,
    )
}
