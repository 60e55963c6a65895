//! The table of faults, continued: a matrix, lent as bytes or held in a record, and a polynomial
//! from outside.

use crate::contents::{bad_multiplicity, bad_places, BAD_MULTIPLICITIES, BAD_SYMBOLS};
use crate::cost_and_bound::matrix_of_cost;
use crate::edited::inputs::columns;
use crate::edited::wrongly_held::{every_forged, forged};
use crate::faults::{Input, Made};
use crate::planted::monomials;
use crate::proposed::beside::one_off;
use crate::proposed::products::Lines;
use crate::record::Record;
use crate::roots::{seeming_degree, weight};
use kv::Refusal;
use second::bound::{bound, cost, GREATEST_LIMIT, GREATEST_MULTIPLICITY};
use second::field::SYMBOLS;
use second::interpolation::{interpolate, ROOM_FOR_COEFFICIENTS};
use second::roots::MOST_COEFFICIENTS;
use tags::{multiplicity, random_matrix, Random};

/// Of the calls with a fault in one place one in so many is made, and of those whose sizes are
/// refused one in so many at all.
const CHECKED_ONE_IN: usize = 5;
const LISTED_ONE_IN: usize = 19;
const REFUSED_ONE_IN: usize = 7;

/// What is asked of a proposal.
#[derive(Clone, Copy)]
pub enum Asked {
    Check,
    List,
}

pub const CHECKED: Input = Input {
    contents: |made, random| contents(made, Asked::Check, random),
    each_place: |made, random| {
        let all = each_place(made, Asked::Check, random);
        some_of(all, CHECKED_ONE_IN, random)
    },
};

pub const LISTED: Input = Input {
    contents: |made, random| contents(made, Asked::List, random),
    each_place: |made, random| {
        let all = each_place(made, Asked::List, random);
        some_of(all, LISTED_ONE_IN, random)
    },
};

pub const HELD_CHECKED: Input = Input {
    contents: |made, random| held_and_not(contents(&whole(made), Asked::Check, random), random),
    each_place: |made, random| {
        let all = each_held_place(made, Asked::Check, random);
        some_of(all, CHECKED_ONE_IN, random)
    },
};

pub const HELD_LISTED: Input = Input {
    contents: |made, random| held_and_not(contents(&whole(made), Asked::List, random), random),
    each_place: |made, random| {
        let all = each_held_place(made, Asked::List, random);
        some_of(all, LISTED_ONE_IN, random)
    },
};

fn some_of(all: Vec<Made>, one_in: usize, random: &mut Random) -> Vec<Made> {
    let first = random.between(0, one_in - 1);
    all.into_iter().skip(first).step_by(one_in).collect()
}

/// A record has a matrix of the right length.
fn whole(made: &Made) -> Made {
    made.with([], |made| made.length = SYMBOLS * columns(made.call.n))
}

/// The record of a matrix that is lent as bytes.
pub fn held(made: &Made) -> Made {
    let record = Record::of(made.call.n, &made.call.symbols);
    made.with([], |made| made.call.records = vec![record])
}

fn wrongly_held(made: &Made, random: &mut Random) -> Made {
    let record = Record::of(made.call.n, &made.call.symbols);
    made.with([Refusal::Length], |made| {
        made.call.records = vec![forged(&record, random)];
    })
}

fn held_and_not(all: Vec<Made>, random: &mut Random) -> Vec<Made> {
    let both = |made: Made| [held(&made), wrongly_held(&made, random)];
    all.into_iter().flat_map(both).collect()
}

/// A matrix and what is proposed for it, of a degree that N(D) allows or not; whether the
/// polynomial is a yes.
pub fn with_proposal(
    made: &Made,
    asked: Asked,
    matrix: Vec<u8>,
    coefficients: Vec<u8>,
    is_yes: bool,
) -> Made {
    let (v, degree) = (weight(&made.call), made.call.degree);
    let many = || monomials(v, degree).len() > MOST_COEFFICIENTS;
    let too_many = degree >= MOST_COEFFICIENTS || many();
    let cost = cost(&matrix);
    let setting = too_many.then_some(Refusal::Setting);
    let too_dear = (cost > made.call.limit).then_some(Refusal::Cost);
    let above = (degree > bound(v, cost)).then_some(Refusal::Setting);
    let another = (!is_yes).then_some(Refusal::Proposal);
    let faults = setting.into_iter().chain(too_dear);
    made.with(faults, |made| {
        made.call.symbols = matrix;
        made.call.coefficients = coefficients;
        match asked {
            Asked::Check => made.value = Some(is_yes.into()),
            Asked::List => made.late.extend(above.into_iter().chain(another)),
        }
    })
}

/// Matrices on both sides of the degree, by their bound: one that costs as much as any of the bound
/// may, and one that costs one less than the first of it; then zeros, and one that is too dear for
/// any limit.
fn matrices(n: usize, v: usize, degree: usize) -> Vec<Vec<u8>> {
    let most = |degree: usize| matrix_of_cost(n, monomials(v, degree).len() - 1);
    let at = most(degree);
    let below = degree.checked_sub(1).and_then(most);
    let ends = [0, GREATEST_MULTIPLICITY].map(|entry| vec![entry; SYMBOLS * n]);
    at.into_iter().chain(below).chain(ends).collect()
}

/// Lines through every point, where the degree allows them; all but one of these; and zeros. Each
/// with whether it is a yes.
fn proposals(v: usize, degree: usize, matrix: &[u8]) -> Vec<(Vec<u8>, bool)> {
    let lines = Lines::through(matrix);
    let fewer = lines.without_one();
    let right = lines.coefficients(v, degree);
    let fewer = fewer.and_then(|fewer| fewer.coefficients(v, degree));
    let zeros = vec![0; monomials(v, degree).len()];
    let right = right.map(|coefficients| (coefficients, true));
    let others = fewer.into_iter().chain([zeros]);
    let others = others.map(|coefficients| (coefficients, false));
    right.into_iter().chain(others).collect()
}

/// With a multiplicity that is too great, where there is room for it.
fn with_bad_entry(made: &Made, random: &mut Random) -> Option<Made> {
    let place = random.between(0, made.call.symbols.len().checked_sub(1)?);
    let bad = bad_multiplicity(random);
    Some(made.with([Refusal::Symbol(place)], |made| {
        made.call.symbols[place] = bad;
    }))
}

fn with_bad_coefficient(made: &Made, place: usize, bad: u8) -> Made {
    let runs_on = SYMBOLS * columns(made.call.n) + place;
    made.with([Refusal::Symbol(runs_on)], |made| {
        made.call.coefficients[place] = bad;
    })
}

fn with_any_bad_coefficient(made: &Made, random: &mut Random) -> Option<Made> {
    let place = random.between(0, made.call.coefficients.len().checked_sub(1)?);
    let bad = BAD_SYMBOLS[random.between(0, BAD_SYMBOLS.len() - 1)];
    Some(with_bad_coefficient(made, place, bad))
}

/// Without and with a multiplicity that is too great, and a coefficient that is so.
fn good_and_bad(made: Made, random: &mut Random) -> Vec<Made> {
    let entry = with_bad_entry(&made, random);
    let coefficient = with_any_bad_coefficient(&made, random);
    let both = entry
        .as_ref()
        .and_then(|made| with_any_bad_coefficient(made, random));
    let bad = [entry, coefficient, both].into_iter().flatten();
    [made].into_iter().chain(bad).collect()
}

/// Every matrix with every proposal, of the lengths that were chosen; some of them where the sizes
/// are refused.
fn contents(made: &Made, asked: Asked, random: &mut Random) -> Vec<Made> {
    let (v, degree) = (weight(&made.call), seeming_degree(&made.call));
    let mut all = Vec::new();
    for mut matrix in matrices(columns(made.call.n), v, degree) {
        let proposals = proposals(v, degree, &matrix);
        matrix.resize(made.length, 0);
        for (mut coefficients, is_yes) in proposals {
            coefficients.resize(made.coefficients_length, 0);
            let made = with_proposal(made, asked, matrix.clone(), coefficients, is_yes);
            all.extend(good_and_bad(made, random));
        }
    }
    match made.faults.contains(&Refusal::Sizes) {
        true => some_of(all, REFUSED_ONE_IN, random),
        false => all,
    }
}

/// The coefficients up to a degree.
pub type Proposed = (usize, Vec<u8>);

/// What is interpolated for a matrix within the greatest limit, up to its bound.
pub fn interpolated(n: usize, k: usize, matrix: &[u8]) -> Proposed {
    let mut coefficients = vec![0; ROOM_FOR_COEFFICIENTS];
    let answer = interpolate(n, k, GREATEST_LIMIT, matrix, &mut coefficients);
    coefficients.truncate(answer.count.into());
    (answer.bound.into(), coefficients)
}

/// Any matrix, and the polynomial that is interpolated for it.
fn any_right(made: &Made, asked: Asked, random: &mut Random) -> Made {
    let (n, k) = (made.call.n, made.call.k);
    let greatest = multiplicity(random);
    let most_cost = random.between(0, GREATEST_LIMIT);
    let matrix = random_matrix(random, n, greatest, most_cost);
    let (degree, coefficients) = interpolated(n, k, &matrix);
    let made = made.with([], |made| made.call.degree = degree);
    with_proposal(&made, asked, matrix, coefficients, true)
}

/// One coefficient off, each of them.
fn each_off(made: &Made, asked: Asked, random: &mut Random) -> Vec<Made> {
    let right = any_right(made, asked, random);
    let (matrix, coefficients) = (&right.call.symbols, &right.call.coefficients);
    let made = made.with([], |made| made.call.degree = right.call.degree);
    let form = (weight(&made.call), made.call.degree);
    let mut off = |place: usize| {
        let (changed, is_yes) = one_off(form, matrix, coefficients, place, random);
        with_proposal(&made, asked, matrix.clone(), changed, is_yes)
    };
    (0..coefficients.len()).map(&mut off).collect()
}

/// A coefficient that is too great, each of them, and with a multiplicity that is so, too.
fn each_bad_coefficient(made: &Made, asked: Asked, random: &mut Random) -> Vec<Made> {
    let right = any_right(made, asked, random);
    let mut all = Vec::new();
    for place in 0..right.call.coefficients.len() {
        for bad in BAD_SYMBOLS {
            let one = with_bad_coefficient(&right, place, bad);
            all.extend(with_bad_entry(&one, random));
            all.extend(with_any_later(&one, place, random));
            all.push(one);
        }
    }
    all
}

fn with_any_later(made: &Made, place: usize, random: &mut Random) -> Option<Made> {
    let last = made.call.coefficients.len() - 1;
    let later = random.between(place, last);
    (later > place).then(|| with_bad_coefficient(made, later, BAD_SYMBOLS[0]))
}

fn each_place(made: &Made, asked: Asked, random: &mut Random) -> Vec<Made> {
    let mut all = each_off(made, asked, random);
    all.extend(each_bad_coefficient(made, asked, random));
    let right = any_right(made, asked, random);
    let matrix = right.call.symbols.clone();
    all.extend(bad_places(
        &right,
        |_| matrix.clone(),
        &BAD_MULTIPLICITIES,
        random,
    ));
    all
}

/// The same of a record, and one that is wrongly held in every way.
fn each_held_place(made: &Made, asked: Asked, random: &mut Random) -> Vec<Made> {
    let all = each_place(&whole(made), asked, random).into_iter();
    let mut all: Vec<Made> = all.map(|made| held(&made)).collect();
    let right = any_right(made, asked, random);
    for record in every_forged(&Record::of(made.call.n, &right.call.symbols), random) {
        all.push(right.with([Refusal::Length], |made| made.call.records = vec![record]));
    }
    all
}
