//! The lists.

use crate::lent::{self, Answer};
use crate::limits::{POSITIONS, ROWS};
use crate::refusal::Refusal;
use crate::settings::{Settings, Sizes};

/// A message and how strongly its codeword is supported.
#[derive(Clone, Debug, PartialEq, Eq)]
pub struct Row {
    /// The sum, over positions, of the matrix's entry at the codeword's symbol.
    pub score: usize,
    /// k symbols.
    pub message: Vec<u8>,
}

/// Every message whose score is above the bound, and no other.
#[derive(Clone, Debug, PartialEq, Eq)]
pub struct Listed {
    /// Highest score first, equal scores by the messages, smaller symbols first; at most
    /// [`ROWS`].
    pub rows: Vec<Row>,
}

/// As [`judge`](crate::judge) and [`Photograph`](crate::Photograph) take a list.
///
/// ```
/// let rows = vec![
///     kv::Row { score: 17, message: vec![1, 0] },
///     kv::Row { score: 11, message: vec![0, 1] },
/// ];
/// let listed = kv::Listed { rows };
/// assert_eq!(listed.messages(), [1, 0, 0, 1]);
/// assert_eq!(listed.scores(), [17, 11]);
/// let verdict = kv::judge(2, &listed.messages(), &listed.scores(), 6);
/// assert_eq!(verdict, Ok(kv::Verdict::Open));
/// ```
impl Listed {
    /// The messages, one after the other.
    pub fn messages(&self) -> Vec<u8> {
        let messages = self.rows.iter().map(|row| row.message.as_slice());
        messages.collect::<Vec<_>>().concat()
    }

    /// The score of each message. No list has one that does not fit; the greatest stands for it.
    pub fn scores(&self) -> Vec<u16> {
        let score = |row: &Row| u16::try_from(row.score).unwrap_or(u16::MAX);
        self.rows.iter().map(score).collect()
    }
}

/// The list of a call that is lent room for it.
pub(crate) fn listed(
    k: usize,
    list: impl FnOnce(&mut [u8], &mut [u16]) -> Answer,
) -> Result<Listed, Refusal> {
    let (mut messages, mut scores) = ([0; ROWS * POSITIONS], [0; ROWS]);
    let answer = list(&mut messages, &mut scores).accepted()?;
    let written = messages.chunks(k).zip(scores).take(answer.count.into());
    let row = |(message, score): (&[u8], u16)| Row {
        score: score.into(),
        message: message.to_vec(),
    };
    Ok(Listed {
        rows: written.map(row).collect(),
    })
}

/// The list of a multiplicity matrix.
///
/// Refused with [`Refusal::Sizes`], [`Refusal::Setting`] where the limit is above
/// [`LIMIT`](crate::LIMIT), [`Refusal::Length`] where the matrix has not 16n entries,
/// [`Refusal::Symbol`] where one of them is above [`LEVEL`](crate::LEVEL), [`Refusal::Cost`] where
/// it costs more than the limit.
///
/// ```
/// let mut matrix = [0; 48];
/// for position in 0..3 {
///     matrix[16 * position + 1] = 1;
/// }
/// let sizes = kv::Sizes { n: 3, k: 2 };
/// let listed = kv::list_of_multiplicities(sizes, kv::LIMIT, &matrix)?;
/// assert_eq!(listed.rows, [kv::Row { score: 3, message: vec![1, 0] }]);
/// assert_eq!(
///     kv::list_of_multiplicities(sizes, 2, &matrix),
///     Err(kv::Refusal::Cost)
/// );
/// # Ok::<(), kv::Refusal>(())
/// ```
pub fn list_of_multiplicities(
    Sizes { n, k }: Sizes,
    limit: usize,
    matrix: &[u8],
) -> Result<Listed, Refusal> {
    listed(k, |rows, scores| {
        lent::list_of_multiplicities(n, k, limit, matrix, rows, scores)
    })
}

/// The list of the matrix that [`multiplicities`](crate::multiplicities) gives for these
/// reliabilities.
///
/// Refused with [`Refusal::Sizes`], [`Refusal::Setting`], [`Refusal::Length`] where there are not
/// 16n reliabilities, [`Refusal::Column`] where those of a position sum to more than 4096,
/// [`Refusal::Cost`] where the matrix costs more than the limit.
///
/// ```
/// let sizes = kv::Sizes { n: 2, k: 2 };
/// let settings = kv::Settings { level: kv::LEVEL, limit: kv::LIMIT };
/// let mut reliabilities = [256; 32];
/// let listed = kv::list_of_reliabilities(sizes, settings, &reliabilities)?;
/// assert!(listed.rows.is_empty());
/// reliabilities[20] = 257;
/// assert_eq!(
///     kv::list_of_reliabilities(sizes, settings, &reliabilities),
///     Err(kv::Refusal::Column(1))
/// );
/// # Ok::<(), kv::Refusal>(())
/// ```
pub fn list_of_reliabilities(
    Sizes { n, k }: Sizes,
    Settings { level, limit }: Settings,
    reliabilities: &[u16],
) -> Result<Listed, Refusal> {
    listed(k, |rows, scores| {
        lent::list_of_reliabilities(n, k, level, limit, reliabilities, rows, scores)
    })
}

/// The list of a plan from outside, which is taken as [`check_plan`](crate::check_plan) takes it.
///
/// Refused with [`Refusal::Sizes`], [`Refusal::Setting`] where the limit is above
/// [`LIMIT`](crate::LIMIT) or the steps above [`STEPS`](crate::STEPS), [`Refusal::Length`] where
/// there are not 16n reliabilities and 16n entries, [`Refusal::Symbol`] where an entry is above
/// [`LEVEL`](crate::LEVEL), [`Refusal::Column`] where the reliabilities of a position sum to more
/// than 4096, [`Refusal::Cost`] where the plan costs more than the limit, [`Refusal::Plan`] where
/// it is another plan.
///
/// ```
/// use kv::{list_of_plan, plan, Refusal, Row, Sizes, LIMIT};
///
/// let mut reliabilities = [0; 48];
/// for position in 0..3 {
///     reliabilities[16 * position + 1] = 4000;
/// }
/// let sizes = Sizes { n: 3, k: 2 };
/// let plan = plan(3, 3, &reliabilities)?.entries;
/// let listed = list_of_plan(sizes, LIMIT, 3, &reliabilities, &plan)?;
/// assert_eq!(listed.rows, [Row { score: 3, message: vec![1, 0] }]);
/// let of_other_steps = list_of_plan(sizes, LIMIT, 4, &reliabilities, &plan);
/// assert_eq!(of_other_steps, Err(Refusal::Plan));
/// # Ok::<(), kv::Refusal>(())
/// ```
pub fn list_of_plan(
    Sizes { n, k }: Sizes,
    limit: usize,
    steps: usize,
    reliabilities: &[u16],
    plan: &[u8],
) -> Result<Listed, Refusal> {
    listed(k, |rows, scores| {
        lent::list_of_plan(n, k, limit, steps, reliabilities, plan, rows, scores)
    })
}

/// The list of a matrix, made from a polynomial from outside that
/// [`check_proposal`](crate::check_proposal) answers with a yes and whose degree is at most the
/// matrix's bound: of its roots those whose score is above the bound. It is the list that
/// [`list_of_multiplicities`] gives, whoever proposed the polynomial.
///
/// Refused as [`check_proposal`](crate::check_proposal) is, and with [`Refusal::Setting`] where the
/// limit is above [`LIMIT`](crate::LIMIT), [`Refusal::Cost`] where the matrix costs more than the
/// limit, [`Refusal::Setting`] where the degree is above its bound, [`Refusal::Proposal`] where the
/// check answers with a no.
///
/// ```
/// use kv::{list_of_multiplicities, list_of_proposal, Refusal, Sizes, LIMIT};
///
/// let sizes = Sizes { n: 3, k: 2 };
/// let mut matrix = [0; 48];
/// for position in 0..3 {
///     matrix[16 * position + 1] = 1;
/// }
/// let ours = list_of_multiplicities(sizes, LIMIT, &matrix)?;
/// // 1 + y, and x times as much, up to the bound, which is 2.
/// assert_eq!(list_of_proposal(sizes, LIMIT, 1, &matrix, &[1, 0, 1]), Ok(ours.clone()));
/// assert_eq!(list_of_proposal(sizes, LIMIT, 2, &matrix, &[0, 1, 0, 0, 1, 0]), Ok(ours));
/// assert_eq!(list_of_proposal(sizes, LIMIT, 3, &matrix, &[0; 10]), Err(Refusal::Setting));
/// assert_eq!(list_of_proposal(sizes, LIMIT, 2, &matrix, &[0; 6]), Err(Refusal::Proposal));
/// # Ok::<(), kv::Refusal>(())
/// ```
pub fn list_of_proposal(
    Sizes { n, k }: Sizes,
    limit: usize,
    degree: usize,
    matrix: &[u8],
    coefficients: &[u8],
) -> Result<Listed, Refusal> {
    listed(k, |rows, scores| {
        lent::list_of_proposal(n, k, limit, degree, matrix, coefficients, rows, scores)
    })
}
