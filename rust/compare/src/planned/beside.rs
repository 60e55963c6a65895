//! Plans that are not right, by as little as may be.

use crate::sizes::with_entry;
use second::bound::GREATEST_MULTIPLICITY;
use tags::Random;

/// The plan with one moved to the place from another that has any.
fn moved(plan: &[u8], place: usize, random: &mut Random) -> Option<Vec<u8>> {
    let others = (0..plan.len()).filter(|&other| other != place && plan[other] > 0);
    let others: Vec<usize> = others.collect();
    let from = others[random.between(0, others.len().checked_sub(1)?)];
    let fewer = with_entry(plan, from, plan[from] - 1);
    Some(with_entry(&fewer, place, plan[place] + 1))
}

fn exchanged(plan: &[u8], place: usize, random: &mut Random) -> Option<Vec<u8>> {
    let other = random.between(0, plan.len() - 1);
    let mut changed = plan.to_vec();
    changed.swap(place, other);
    (changed != plan).then_some(changed)
}

/// Plans beside a right one: at the place one moved there, one more or one less, or what another place
/// has. No entry is too great.
pub fn beside(plan: &[u8], place: usize, random: &mut Random) -> Vec<Vec<u8>> {
    let entry = plan[place];
    let may_rise = entry < GREATEST_MULTIPLICITY;
    let moved = moved(plan, place, random).filter(|_| may_rise);
    let more = may_rise.then(|| with_entry(plan, place, entry + 1));
    let less = (entry > 0).then(|| with_entry(plan, place, entry - 1));
    let all = [moved, more, less, exchanged(plan, place, random)];
    all.into_iter().flatten().collect()
}
