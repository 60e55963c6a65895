//! The table of faults, continued: reliabilities and a plan from outside, lent as bytes or held in a
//! record.

use crate::columns::{GREATEST_SUM, RELIABILITIES};
use crate::contents::{bad_places, good_and_bad, BAD_MULTIPLICITIES};
use crate::edited::inputs::columns;
use crate::edited::wrongly_held::{every_forged, forged};
use crate::faults::{Input, Made};
use crate::planned::beside::beside;
use crate::planned::weights::any_weights;
use crate::record::Record;
use kv::Refusal;
use second::bound::{cost, GREATEST_MULTIPLICITY};
use second::field::SYMBOLS;
use second::plan::{ruled, GREATEST_STEPS};
use tags::Random;

/// Of the calls with a fault in one place, one in so many is made of a list, and of those whose sizes
/// are refused one in so many at all.
const LISTED_ONE_IN: usize = 19;
const REFUSED_ONE_IN: usize = 5;

/// A plan that is lent as bytes.
pub const STATED_PLAN: Input = Input {
    contents: stated,
    each_place: |made, random| {
        let mut all = Vec::new();
        for position in 0..made.call.n {
            let made = any_right(made, random);
            let plan = made.call.symbols.clone();
            for place in SYMBOLS * position..SYMBOLS * (position + 1) {
                let others = beside(&plan, place, random).into_iter();
                all.extend(others.map(|plan| with_plan(&made, plan, Some(Refusal::Plan))));
            }
        }
        all.extend(bad_entries(made, random));
        all.extend(bad_columns(made, random));
        all
    },
};

/// A plan that is held in a record.
pub const HELD_PLAN: Input = Input {
    contents: |made, random| {
        let made = with_plan_length(made);
        let all = stated(&made, random).into_iter();
        all.flat_map(|made| [held(&made), wrongly_held(&made, random)])
            .collect()
    },
    each_place: |made, random| {
        let made = with_plan_length(made);
        let all = (STATED_PLAN.each_place)(&made, random).into_iter();
        let mut all: Vec<Made> = all.map(|made| held(&made)).collect();
        let right = any_right(&made, random);
        let record = Record::of(made.call.n, &right.call.symbols);
        let forged = every_forged(&record, random).into_iter();
        all.extend(forged.map(|record| with_record(&right, record, Some(Refusal::Length))));
        all
    },
};

/// A plan that is lent as bytes and listed.
pub const LISTED_PLAN: Input = Input {
    each_place: |made, random| some_of((STATED_PLAN.each_place)(made, random), random),
    ..STATED_PLAN
};

/// A plan that is held in a record and listed.
pub const LISTED_HELD_PLAN: Input = Input {
    each_place: |made, random| some_of((HELD_PLAN.each_place)(made, random), random),
    ..HELD_PLAN
};

fn some_of(all: Vec<Made>, random: &mut Random) -> Vec<Made> {
    let first = random.between(0, LISTED_ONE_IN - 1);
    all.into_iter().skip(first).step_by(LISTED_ONE_IN).collect()
}

/// With the faults of a plan, and of what it costs.
pub fn with_plan(made: &Made, plan: Vec<u8>, fault: Option<Refusal>) -> Made {
    let too_dear = (cost(&plan) > made.call.limit).then_some(Refusal::Cost);
    let faults = fault.into_iter().chain(too_dear);
    made.with(faults, |made| made.call.symbols = plan)
}

fn with_record(made: &Made, record: Record, fault: Option<Refusal>) -> Made {
    made.with(fault, |made| made.call.records = vec![record])
}

/// The record of a plan that is lent as bytes.
pub fn held(made: &Made) -> Made {
    let record = Record::of(made.call.n, &made.call.symbols);
    with_record(made, record, None)
}

fn wrongly_held(made: &Made, random: &mut Random) -> Made {
    let record = Record::of(made.call.n, &made.call.symbols);
    with_record(made, forged(&record, random), Some(Refusal::Length))
}

/// A record has a plan of the right length, whatever the reliabilities have.
fn with_plan_length(made: &Made) -> Made {
    made.with([], |made| made.plan_length = SYMBOLS * columns(made.call.n))
}

/// What the rule gives for the reliabilities and the steps, those that are too many being as many as
/// may be.
fn right_plan(made: &Made) -> Vec<u8> {
    let steps = made.call.steps.min(GREATEST_STEPS);
    let mut plan = ruled(steps, &made.call.reliabilities).entries;
    plan.resize(made.plan_length, 0);
    plan
}

/// The first mark clear and the others erased; the same with one too many.
fn weighed(made: &Made) -> [Made; 2] {
    let with = |weight: usize, fault: Option<Refusal>| {
        made.with(fault, |made| {
            made.call.reliabilities = vec![0; made.length];
            let first = made.call.reliabilities.iter_mut().take(1);
            first.for_each(|reliability| *reliability = weight as u16);
        })
    };
    [
        with(GREATEST_SUM, None),
        with(GREATEST_SUM + 1, Some(Refusal::Column(0))),
    ]
}

/// The right plan, one beside it and one that is too dear for any limit, each without and with an
/// entry that is too great; some of them where the sizes are refused.
fn stated(made: &Made, random: &mut Random) -> Vec<Made> {
    let mut all = Vec::new();
    for made in weighed(made) {
        let right = right_plan(&made);
        let costly = vec![GREATEST_MULTIPLICITY; right.len()];
        let mut plans = vec![(right.clone(), None), (costly, Some(Refusal::Plan))];
        if !right.is_empty() {
            let place = random.between(0, right.len() - 1);
            let others = beside(&right, place, random).into_iter();
            plans.extend(others.take(1).map(|plan| (plan, Some(Refusal::Plan))));
        }
        for (plan, fault) in plans {
            let too_dear = (cost(&plan) > made.call.limit).then_some(Refusal::Cost);
            let made = made.with(fault, |_| ());
            all.extend(good_and_bad(
                &made,
                plan,
                &BAD_MULTIPLICITIES,
                too_dear,
                random,
            ));
        }
    }
    match made.faults.contains(&Refusal::Sizes) {
        true => all.into_iter().step_by(REFUSED_ONE_IN).collect(),
        false => all,
    }
}

/// Any reliabilities and any steps, and the right plan for them.
fn any_right(made: &Made, random: &mut Random) -> Made {
    let made = made.with([], |made| {
        made.call.reliabilities = any_weights(random, made.call.n);
        made.call.steps = random.between(0, GREATEST_STEPS);
    });
    let plan = right_plan(&made);
    with_plan(&made, plan, None)
}

fn bad_entries(made: &Made, random: &mut Random) -> Vec<Made> {
    let made = any_right(made, random);
    let plan = made.call.symbols.clone();
    bad_places(&made, |_| plan.clone(), &BAD_MULTIPLICITIES, random)
}

/// With a plan of no steps.
fn bad_columns(made: &Made, random: &mut Random) -> Vec<Made> {
    let bad = (RELIABILITIES.each_place)(made, random).into_iter();
    bad.map(|made| with_plan(&made, vec![0; made.plan_length], None))
        .collect()
}
