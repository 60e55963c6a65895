//! What is proved of plans, asked of the built library: of matrices with few entries, all there are.

use kv::{cost_and_bound, plan, Refusal, Sizes, LEVEL, STEPS, SYMBOLS};

const SIZES: Sizes = Sizes { n: 2, k: 2 };
/// Where the reliabilities lie, and with them every entry that is worth anything.
const PLACES: [usize; 4] = [0, 3, SYMBOLS, 2 * SYMBOLS - 1];
const RELIABILITIES: [[u16; PLACES.len()]; 7] = [
    [0, 0, 0, 0],
    [3, 2, 0, 0],
    [1, 1, 1, 1],
    [12, 6, 4, 3],
    [2100, 1900, 3600, 400],
    [2048, 2048, 4096, 0],
    [1, 4095, 1366, 1365],
];

fn laid<T: Copy + Default>(numbers: [T; PLACES.len()]) -> Vec<T> {
    let mut all = vec![T::default(); SYMBOLS * SIZES.n];
    for (place, number) in PLACES.into_iter().zip(numbers) {
        all[place] = number;
    }
    all
}

/// Every matrix that has no entries elsewhere, with its cost.
fn matrices() -> Result<Vec<(Vec<u8>, usize)>, Refusal> {
    let choices = LEVEL + 1;
    let entry = |number: usize, place: usize| (number / choices.pow(place as u32) % choices) as u8;
    let matrix = |number| laid(std::array::from_fn(|place| entry(number, place)));
    let priced = |number| {
        let matrix = matrix(number);
        let cost = cost_and_bound(SIZES, &matrix)?.cost;
        Ok((matrix, cost))
    };
    (0..choices.pow(PLACES.len() as u32)).map(priced).collect()
}

/// 4,096 times the expected score.
fn expected(reliabilities: &[u16], matrix: &[u8]) -> u32 {
    let pairs = reliabilities.iter().zip(matrix);
    pairs.map(|(&r, &m)| u32::from(r) * u32::from(m)).sum()
}

#[test]
fn no_matrix_that_costs_as_little_expects_more() -> Result<(), Refusal> {
    let matrices = matrices()?;
    for reliabilities in RELIABILITIES.map(laid) {
        for steps in 0..=STEPS {
            let plan = plan(SIZES.n, steps, &reliabilities)?.entries;
            let cost = cost_and_bound(SIZES, &plan)?.cost;
            let most = expected(&reliabilities, &plan);
            for (matrix, other) in &matrices {
                let more = *other <= cost && expected(&reliabilities, matrix) > most;
                assert!(!more, "{matrix:?} for {plan:?}");
            }
        }
    }
    Ok(())
}

#[test]
fn one_whose_entries_sum_to_as_little_may() -> Result<(), Refusal> {
    let reliabilities = laid([3, 2, 0, 0]);
    assert_eq!(
        plan(SIZES.n, 2, &reliabilities)?.entries,
        laid([1, 1, 0, 0])
    );
    assert_eq!(expected(&reliabilities, &laid([1, 1, 0, 0])), 5);
    assert_eq!(expected(&reliabilities, &laid([2, 0, 0, 0])), 6);
    Ok(())
}

#[test]
fn a_step_raises_one_entry_or_none() -> Result<(), Refusal> {
    for reliabilities in RELIABILITIES.map(laid) {
        let mut before = plan(SIZES.n, 0, &reliabilities)?;
        assert_eq!(before.steps, 0);
        for steps in 1..=STEPS {
            let after = plan(SIZES.n, steps, &reliabilities)?;
            let pairs = before.entries.iter().zip(&after.entries);
            let raised: u8 = pairs.map(|(before, after)| after - before).sum();
            assert_eq!(before.steps + usize::from(raised), after.steps);
            assert!(raised == 1 || after == before);
            before = after;
        }
    }
    Ok(())
}
