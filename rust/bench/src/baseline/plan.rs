//! The planner: in each step all places are gone through, and the best so far is kept.

use second::bound::GREATEST_MULTIPLICITY;

/// Whether place j has a larger reliability over (its multiplicity + 1) than place i.
fn beats(reliabilities: &[u16], plan: &[u8], j: usize, i: usize) -> bool {
    let product = |a: usize, b: usize| u32::from(reliabilities[a]) * (u32::from(plan[b]) + 1);
    product(j, i) > product(i, j)
}

/// The place with the largest, the lowest one of those that have it.
fn best(reliabilities: &[u16], plan: &[u8]) -> usize {
    let keep = |best, place| match beats(reliabilities, plan, place, best) {
        true => place,
        false => best,
    };
    (1..reliabilities.len()).fold(0, keep)
}

/// Writes the plan, and answers the steps done.
pub fn plan(steps: usize, reliabilities: &[u16], out: &mut [u8]) -> usize {
    let plan = &mut out[..reliabilities.len()];
    plan.fill(0);
    for done in 0..steps {
        let best = best(reliabilities, plan);
        if reliabilities[best] == 0 || plan[best] == GREATEST_MULTIPLICITY {
            return done;
        }
        plan[best] += 1;
    }
    steps
}
