//! Plans of multiplicities.

use crate::lent;
use crate::limits::ENTRIES;
use crate::refusal::Refusal;

/// A matrix that is made step by step.
#[derive(Clone, Debug, PartialEq, Eq)]
pub struct Plan {
    /// Position i, symbol b at 16i + b.
    pub entries: Vec<u8>,
    /// The steps done, which are the sum of all entries.
    pub steps: usize,
}

/// The plan of so many steps: from all zeros, each raises by one the entry with the largest
/// reliability / (entry + 1), compared exactly, of equal ones the first. At a step whose best entry
/// has reliability 0, or already stands at [`LEVEL`](crate::LEVEL), it stops.
///
/// A plan costs at most three times its steps, and so never more than [`LIMIT`](crate::LIMIT).
///
/// Refused with [`Refusal::Sizes`] unless 2 <= n <= 15, [`Refusal::Setting`] where the steps are
/// above [`STEPS`](crate::STEPS), [`Refusal::Length`] where there are not 16n reliabilities,
/// [`Refusal::Column`] where those of a position sum to more than 4096.
///
/// ```
/// let mut reliabilities = [0; 32];
/// (reliabilities[3], reliabilities[4], reliabilities[16]) = (3000, 1000, 1500);
/// let plan = kv::plan(2, 4, &reliabilities)?;
/// // 3000; 3000 / 2 before the equal 1500, which lies behind it; that; 3000 / 3 before the 1000.
/// assert_eq!((plan.entries[3], plan.entries[4], plan.entries[16]), (3, 0, 1));
/// assert_eq!(plan.steps, 4);
///
/// // At the greatest entry it stops, whatever others could still rise.
/// (reliabilities[4], reliabilities[16]) = (0, 500);
/// let plan = kv::plan(2, 75, &reliabilities)?;
/// assert_eq!((plan.entries[3], plan.entries[16], plan.steps), (5, 0, 5));
/// assert_eq!(kv::plan(2, 76, &reliabilities), Err(kv::Refusal::Setting));
/// # Ok::<(), kv::Refusal>(())
/// ```
pub fn plan(n: usize, steps: usize, reliabilities: &[u16]) -> Result<Plan, Refusal> {
    let mut entries = [0; ENTRIES];
    let answer = lent::plan(n, steps, reliabilities, &mut entries).accepted()?;
    Ok(Plan {
        entries: entries.into_iter().take(answer.count.into()).collect(),
        steps: answer.value.into(),
    })
}

/// The steps done of a plan from outside, which is taken where it has the entries that [`plan`]
/// gives for these reliabilities and steps. One that stopped early is right for every greater number
/// of steps, too.
///
/// Refused with [`Refusal::Sizes`] unless 2 <= n <= 15, [`Refusal::Setting`] where the steps are
/// above [`STEPS`](crate::STEPS), [`Refusal::Length`] where there are not 16n reliabilities and 16n
/// entries, [`Refusal::Symbol`] where an entry is above [`LEVEL`](crate::LEVEL),
/// [`Refusal::Column`] where the reliabilities of a position sum to more than 4096,
/// [`Refusal::Plan`] where it is another plan.
///
/// ```
/// let mut reliabilities = [0; 32];
/// (reliabilities[3], reliabilities[16]) = (3000, 400);
/// let mut plan = kv::plan(2, 10, &reliabilities)?.entries;
/// assert_eq!(kv::check_plan(2, 10, &reliabilities, &plan), Ok(5));
/// assert_eq!(kv::check_plan(2, 75, &reliabilities, &plan), Ok(5));
/// assert_eq!(kv::check_plan(2, 4, &reliabilities, &plan), Err(kv::Refusal::Plan));
/// plan[16] = 1;
/// assert_eq!(kv::check_plan(2, 10, &reliabilities, &plan), Err(kv::Refusal::Plan));
/// # Ok::<(), kv::Refusal>(())
/// ```
pub fn check_plan(
    n: usize,
    steps: usize,
    reliabilities: &[u16],
    plan: &[u8],
) -> Result<usize, Refusal> {
    let answer = lent::check_plan(n, steps, reliabilities, plan).accepted()?;
    Ok(answer.value.into())
}
