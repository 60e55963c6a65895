//! Whatever comes in, each call answers what the same call with lent memory does.

use kv::lent::{self, Answer, Edited, Judgement, Record};
use kv::{
    CostAndBound, Listed, Matrix, Photograph, Plan, Polynomial, Refusal, Row, Settings, Sizes,
    Verdict, POSITIONS, SYMBOLS,
};

const NUMBERS: [usize; 10] = [0, 1, 2, 3, 5, 15, 16, 225, 1 << 32, usize::MAX];
const LENGTHS: [usize; 9] = [0, 1, 2, 3, 6, 31, 32, 240, 257];
const ENTRIES: [u8; 4] = [0, 1, 15, 255];
const RELIABILITIES: [u16; 3] = [0, 256, u16::MAX];
/// Rows and scores, which are lists where k is 2, but for the last four.
const LISTS: [(&[u8], &[u16]); 9] = [
    (&[], &[]),
    (&[1, 0], &[9]),
    (&[0, 1], &[9]),
    (&[1, 0, 0, 1], &[9, 7]),
    (&[0, 1, 1, 0, 1, 1], &[9, 9, 0]),
    (&[1, 0, 0, 1], &[9, 9]),
    (&[1, 0, 1, 0], &[9, 7]),
    (&[1, 255], &[9]),
    (&[1, 0, 0], &[9]),
];
/// More than any call asks for.
const ROOM: usize = 1000;

fn inputs<T: Clone>(entries: &[T]) -> Vec<Vec<T>> {
    let of_length = |&length: &usize| entries.iter().map(move |e| vec![e.clone(); length]);
    LENGTHS.iter().flat_map(of_length).collect()
}

fn pairs() -> impl Iterator<Item = (usize, usize)> {
    let with_each = |a: usize| NUMBERS.into_iter().map(move |b| (a, b));
    NUMBERS.into_iter().flat_map(with_each)
}

/// What the answer and the memory come to, by a call that is lent room for bytes and for scores.
fn lent<T>(
    call: impl FnOnce(&mut [u8], &mut [u16]) -> Answer,
    accepted: impl FnOnce(Answer, &[u8], &[u16]) -> T,
) -> Result<T, Refusal> {
    let (mut bytes, mut scores) = ([99; ROOM], [99; ROOM]);
    let answer = call(&mut bytes, &mut scores);
    match answer.refusal() {
        None => Ok(accepted(answer, &bytes, &scores)),
        Some(refusal) => {
            assert_eq!((bytes, scores), ([99; ROOM], [99; ROOM]));
            Err(refusal)
        }
    }
}

fn first(answer: Answer, bytes: &[u8], _: &[u16]) -> Vec<u8> {
    bytes[..answer.count.into()].to_vec()
}

fn cost_and_bound(answer: Answer, _: &[u8], _: &[u16]) -> CostAndBound {
    CostAndBound {
        cost: answer.cost.into(),
        bound: answer.bound.into(),
    }
}

fn polynomial(answer: Answer, bytes: &[u8], scores: &[u16]) -> Polynomial {
    Polynomial {
        bound: answer.bound.into(),
        coefficients: first(answer, bytes, scores),
    }
}

fn listed(k: usize, answer: Answer, bytes: &[u8], scores: &[u16]) -> Listed {
    let row = |index: usize| Row {
        score: scores[index].into(),
        message: bytes[k * index..][..k].to_vec(),
    };
    Listed {
        rows: (0..answer.count.into()).map(row).collect(),
    }
}

#[test]
fn symbols() {
    for a in 0..=u8::MAX {
        let value = |answer: Answer, _: &[u8], _: &[u16]| answer.value as u8;
        assert_eq!(kv::inverse(a), lent(|_, _| lent::inverse(a), value));
        for b in 0..=u8::MAX {
            assert_eq!(kv::sum(a, b), lent(|_, _| lent::sum(a, b), value));
            assert_eq!(kv::product(a, b), lent(|_, _| lent::product(a, b), value));
        }
    }
}

#[test]
fn inputs_of_bytes() {
    for (n, k) in pairs() {
        let sizes = Sizes { n, k };
        for input in inputs(&ENTRIES) {
            let encoded = lent(|out, _| lent::encode(n, k, &input, out), first);
            assert_eq!(kv::encode(sizes, &input), encoded);
            let found = lent(|_, _| lent::cost_and_bound(n, k, &input), cost_and_bound);
            assert_eq!(kv::cost_and_bound(sizes, &input), found);
            let roots = |answer: Answer, bytes: &[u8], _: &[u16]| {
                let messages = bytes.chunks(k).take(answer.count.into());
                messages.map(<[u8]>::to_vec).collect()
            };
            let found: Result<Vec<_>, _> = lent(|out, _| lent::roots(n, k, &input, out), roots);
            assert_eq!(kv::roots(n, k, &input), found);
        }
    }
}

#[test]
fn matrices_with_limits() {
    for ((n, k), limit) in pairs().flat_map(|pair| NUMBERS.map(|limit| (pair, limit))) {
        let sizes = Sizes { n, k };
        for matrix in inputs(&ENTRIES) {
            let found = lent(
                |out, _| lent::interpolate(n, k, limit, &matrix, out),
                polynomial,
            );
            assert_eq!(kv::interpolate(sizes, limit, &matrix), found);
            let found = lent(
                |rows, scores| lent::list_of_multiplicities(n, k, limit, &matrix, rows, scores),
                |answer, bytes, scores| listed(k, answer, bytes, scores),
            );
            assert_eq!(kv::list_of_multiplicities(sizes, limit, &matrix), found);
        }
    }
}

#[test]
fn reliabilities() {
    for ((n, k), (level, limit)) in pairs().flat_map(|a| pairs().map(move |b| (a, b))) {
        for input in inputs(&RELIABILITIES) {
            let found = lent(|out, _| lent::multiplicities(n, level, &input, out), first);
            assert_eq!(kv::multiplicities(n, level, &input), found);
            let found = lent(
                |rows, scores| {
                    lent::list_of_reliabilities(n, k, level, limit, &input, rows, scores)
                },
                |answer, bytes, scores| listed(k, answer, bytes, scores),
            );
            let settings = Settings { level, limit };
            assert_eq!(
                kv::list_of_reliabilities(Sizes { n, k }, settings, &input),
                found
            );
        }
    }
}

fn planned(answer: Answer, bytes: &[u8], scores: &[u16]) -> Plan {
    Plan {
        entries: first(answer, bytes, scores),
        steps: answer.value.into(),
    }
}

fn steps(answer: Answer, _: &[u8], _: &[u16]) -> usize {
    answer.value.into()
}

/// The right one, where there is one, and others.
fn plans(n: usize, steps: usize, reliabilities: &[u16]) -> Vec<Vec<u8>> {
    let right = kv::plan(n, steps, reliabilities).map(|plan| plan.entries);
    let others = [0, 1, 255].map(|entry| vec![entry; reliabilities.len()]);
    right.into_iter().chain(others).collect()
}

#[test]
fn plans_made_and_checked() {
    for (n, number) in pairs() {
        for input in inputs(&RELIABILITIES) {
            let found = lent(|out, _| lent::plan(n, number, &input, out), planned);
            assert_eq!(kv::plan(n, number, &input), found);
            for plan in plans(n, number, &input).into_iter().chain(inputs(&ENTRIES)) {
                let found = lent(|_, _| lent::check_plan(n, number, &input, &plan), steps);
                assert_eq!(kv::check_plan(n, number, &input, &plan), found);
            }
        }
    }
}

#[test]
fn plans_listed() {
    for ((n, k), (limit, steps)) in pairs().flat_map(|a| pairs().map(move |b| (a, b))) {
        for input in inputs(&RELIABILITIES) {
            for plan in plans(n, steps, &input) {
                let found = lent(
                    |rows, scores| {
                        lent::list_of_plan(n, k, limit, steps, &input, &plan, rows, scores)
                    },
                    |answer, bytes, scores| listed(k, answer, bytes, scores),
                );
                assert_eq!(
                    kv::list_of_plan(Sizes { n, k }, limit, steps, &input, &plan),
                    found
                );
            }
        }
    }
}

fn yes_or_no(answer: Answer, _: &[u8], _: &[u16]) -> bool {
    [false, true][usize::from(answer.value)]
}

/// A degree and coefficients.
type Proposal = (usize, Vec<u8>);

/// What is interpolated, where there is a polynomial, and others.
fn proposals(right: Result<Polynomial, Refusal>) -> Vec<Proposal> {
    let right = right.map(|polynomial| (polynomial.bound, polynomial.coefficients));
    let others = [vec![], vec![0], vec![1], vec![0, 1, 1], vec![255; 6]];
    let of_degree = |degree| others.clone().map(|coefficients| (degree, coefficients));
    let others = NUMBERS.into_iter().flat_map(of_degree);
    right.into_iter().chain(others).collect()
}

#[test]
fn proposals_checked() {
    for (n, k) in pairs() {
        let sizes = Sizes { n, k };
        for matrix in inputs(&ENTRIES) {
            let interpolated = kv::interpolate(sizes, kv::LIMIT, &matrix);
            for (degree, coefficients) in proposals(interpolated) {
                let found = lent(
                    |_, _| lent::check_proposal(n, k, degree, &matrix, &coefficients),
                    yes_or_no,
                );
                assert_eq!(
                    kv::check_proposal(sizes, degree, &matrix, &coefficients),
                    found
                );
            }
        }
    }
}

fn proposal_listed(sizes: Sizes, limit: usize, matrix: &[u8], proposal: &Proposal) {
    let (Sizes { n, k }, (degree, coefficients)) = (sizes, proposal);
    let found = lent(
        |rows, scores| {
            lent::list_of_proposal(n, k, limit, *degree, matrix, coefficients, rows, scores)
        },
        |answer, bytes, scores| listed(k, answer, bytes, scores),
    );
    assert_eq!(
        kv::list_of_proposal(sizes, limit, *degree, matrix, coefficients),
        found
    );
}

#[test]
fn proposals_listed() {
    for (n, k) in pairs() {
        let sizes = Sizes { n, k };
        for matrix in inputs(&ENTRIES) {
            for proposal in proposals(kv::interpolate(sizes, kv::LIMIT, &matrix)) {
                for limit in NUMBERS {
                    proposal_listed(sizes, limit, &matrix, &proposal);
                }
            }
        }
    }
}

/// What a call comes to that makes a matrix in lent memory.
fn lent_matrix(
    n: usize,
    make: impl FnOnce(&mut [u16], &mut [u8]) -> Answer,
) -> Result<Matrix, Refusal> {
    let (mut totals, mut entries) = ([99; POSITIONS], [99; kv::ENTRIES]);
    let answer = make(&mut totals, &mut entries);
    match answer.refusal() {
        None => Ok(Matrix {
            n,
            cost: answer.cost.into(),
            totals,
            entries,
        }),
        Some(refusal) => {
            assert_eq!((totals, entries), ([99; POSITIONS], [99; kv::ENTRIES]));
            Err(refusal)
        }
    }
}

#[test]
fn matrices_made() {
    for n in NUMBERS {
        let fresh = lent_matrix(n, |totals, entries| lent::matrix_fresh(n, totals, entries));
        assert_eq!(Matrix::fresh(n), fresh);
        for input in inputs(&[0, 1, 5, 6]) {
            let found = lent_matrix(n, |totals, entries| {
                lent::matrix_of_bytes(n, &input, totals, entries)
            });
            assert_eq!(Matrix::of_bytes(n, &input), found);
        }
    }
}

/// Rightly held and not, with entries that are too great and others.
fn matrices() -> Vec<Matrix> {
    let of = |(n, m): (usize, u8)| Matrix::of_bytes(n, &vec![m; SYMBOLS * n]).unwrap();
    let right = [(2, 0), (2, 1), (2, 5), (3, 2), (15, 0), (15, 1), (15, 5)].map(of);
    let forged = |matrix: &Matrix| {
        let [mut cost, mut total, mut entry, mut n] = [(); 4].map(|_| matrix.clone());
        cost.cost = usize::MAX;
        total.totals[1] += 1;
        (entry.entries[kv::ENTRIES - 1], entry.totals[POSITIONS - 1]) = (255, 255);
        n.n = 1 << 32;
        [matrix.clone(), cost, total, entry, n]
    };
    let mut all = right.iter().flat_map(forged).collect::<Vec<_>>();
    let six = Matrix {
        n: 15,
        cost: 21,
        totals: std::array::from_fn(|i| if i == 7 { 6 } else { 0 }),
        entries: std::array::from_fn(|place| if place == 115 { 6 } else { 0 }),
    };
    all.push(six);
    all
}

/// What an edit answers, and the matrix afterwards.
type Afterwards = (Result<(), Refusal>, Matrix);

fn edited(matrix: &Matrix, edit: impl FnOnce(&mut Matrix) -> Result<(), Refusal>) -> Afterwards {
    let mut after = matrix.clone();
    (edit(&mut after), after)
}

fn lent_edited(matrix: &Matrix, edit: impl FnOnce(Edited) -> Answer) -> Afterwards {
    let mut after = matrix.clone();
    let answer = edit(Edited {
        n: after.n,
        cost: after.cost,
        totals: &mut after.totals,
        entries: &mut after.entries,
    });
    match answer.refusal() {
        None => {
            after.cost = answer.cost.into();
            (Ok(()), after)
        }
        Some(refusal) => {
            assert_eq!(&after, matrix);
            (Err(refusal), after)
        }
    }
}

fn lent_whole(matrix: &Matrix) -> Record<'_> {
    Record {
        n: matrix.n,
        cost: matrix.cost,
        totals: &matrix.totals,
        entries: &matrix.entries,
    }
}

#[test]
fn matrices_edited() {
    for matrix in matrices() {
        for (position, symbol) in pairs() {
            for entry in [0, 5, 6, 255] {
                assert_eq!(
                    edited(&matrix, |m| m.set_entry(position, symbol, entry)),
                    lent_edited(&matrix, |m| {
                        lent::matrix_set_entry(m, position, symbol, entry)
                    })
                );
            }
            assert_eq!(
                edited(&matrix, |m| m.clear_column(position)),
                lent_edited(&matrix, |m| lent::matrix_clear_column(m, position))
            );
        }
        for other in matrices() {
            assert_eq!(
                edited(&matrix, |m| m.add(&other)),
                lent_edited(&matrix, |m| lent::matrix_add(m, lent_whole(&other)))
            );
        }
    }
}

#[test]
fn matrices_read() {
    for matrix in matrices() {
        let record = lent_whole(&matrix);
        for (k, limit) in pairs() {
            let found = lent(
                |_, _| lent::matrix_cost_and_bound(record, k),
                cost_and_bound,
            );
            assert_eq!(matrix.cost_and_bound(k), found);
            let found = lent(
                |out, _| lent::matrix_interpolate(record, k, limit, out),
                polynomial,
            );
            assert_eq!(matrix.interpolate(k, limit), found);
            let found = lent(
                |rows, scores| lent::matrix_list(record, k, limit, rows, scores),
                |answer, bytes, scores| listed(k, answer, bytes, scores),
            );
            assert_eq!(matrix.list(k, limit), found);
        }
    }
}

fn matrix_planned(matrix: &Matrix, number: usize, input: &[u16]) {
    let record = lent_whole(matrix);
    let found = lent(|_, _| lent::matrix_check_plan(record, number, input), steps);
    assert_eq!(matrix.check_plan(number, input), found);
    for (k, limit) in pairs() {
        let found = lent(
            |rows, scores| lent::matrix_list_of_plan(record, k, limit, number, input, rows, scores),
            |answer, bytes, scores| listed(k, answer, bytes, scores),
        );
        assert_eq!(matrix.list_of_plan(k, limit, number, input), found);
    }
}

#[test]
fn matrices_planned() {
    for number in NUMBERS {
        for input in inputs(&RELIABILITIES) {
            let n = input.len() / SYMBOLS;
            let plans = plans(n, number, &input).into_iter();
            let right = plans.flat_map(|plan| Matrix::of_bytes(n, &plan));
            for matrix in right.chain(matrices()) {
                matrix_planned(&matrix, number, &input);
            }
        }
    }
}

fn matrix_proposed(matrix: &Matrix, k: usize, (degree, coefficients): Proposal) {
    let record = lent_whole(matrix);
    let found = lent(
        |_, _| lent::matrix_check_proposal(record, k, degree, &coefficients),
        yes_or_no,
    );
    assert_eq!(matrix.check_proposal(k, degree, &coefficients), found);
    for limit in NUMBERS {
        let found = lent(
            |rows, scores| {
                let coefficients = &coefficients;
                lent::matrix_list_of_proposal(record, k, limit, degree, coefficients, rows, scores)
            },
            |answer, bytes, scores| listed(k, answer, bytes, scores),
        );
        assert_eq!(
            matrix.list_of_proposal(k, limit, degree, &coefficients),
            found
        );
    }
}

#[test]
fn matrices_proposed() {
    for matrix in matrices() {
        for k in NUMBERS {
            for proposal in proposals(matrix.interpolate(k, kv::LIMIT)) {
                matrix_proposed(&matrix, k, proposal);
            }
        }
    }
}

/// What a call that judges comes to.
fn verdict(answer: Judgement) -> Result<Verdict, Refusal> {
    let verdicts = [Verdict::Open, Verdict::Ask, Verdict::Nothing];
    match answer.refusal() {
        None => Ok(verdicts[usize::from(answer.value) - 1]),
        Some(refusal) => Err(refusal),
    }
}

/// Where the part lies that a call which opens comes to: at the first list's start, or the second's.
fn part(answer: Judgement, rows: &[u8], others: &[u8]) -> (*const u8, usize) {
    let list = [rows, rows, others][usize::from(answer.value)];
    (list.as_ptr(), list[..answer.count.into()].len())
}

fn place(part: &[u8]) -> (*const u8, usize) {
    (part.as_ptr(), part.len())
}

#[test]
fn one_list() {
    let of_any_length = inputs(&ENTRIES).into_iter().flat_map(|rows| {
        let with_each = move |scores| (rows.clone(), scores);
        inputs(&RELIABILITIES).into_iter().map(with_each)
    });
    let lists = LISTS.map(|(rows, scores)| (rows.to_vec(), scores.to_vec()));
    for (rows, scores) in of_any_length.chain(lists) {
        for (k, lead) in pairs() {
            let judged = verdict(lent::judge(k, &rows, &scores, lead));
            assert_eq!(kv::judge(k, &rows, &scores, lead), judged);
            let opened = part(lent::open(k, &rows, &scores, lead), &rows, &[]);
            assert_eq!(place(kv::open(k, &rows, &scores, lead)), opened);
        }
    }
}

fn judged_together(first: Photograph, second: Photograph, lead: usize) {
    let judged = verdict(lent::judge_both(first, second, lead));
    assert_eq!(kv::judge_both(first, second, lead), judged);
    let opened = part(
        lent::open_both(first, second, lead),
        first.rows,
        second.rows,
    );
    assert_eq!(place(kv::open_both(first, second, lead)), opened);
}

#[test]
fn two_lists() {
    for ((n, k), (level, lead)) in pairs().flat_map(|a| pairs().map(move |b| (a, b))) {
        for ((rows, scores), (others, other_scores)) in
            LISTS.into_iter().flat_map(|a| LISTS.map(|b| (a, b)))
        {
            let first = Photograph {
                sizes: Sizes { n, k },
                level,
                rows,
                scores,
            };
            let second = Photograph {
                rows: others,
                scores: other_scores,
                ..first
            };
            judged_together(first, second, lead);
            let coarser = Photograph { level: 1, ..second };
            judged_together(first, coarser, lead);
        }
    }
}
