//! What the desk can rely on, asked of the built library: clean tags and worn ones of all sizes and
//! levels, up to half the distance, and one wrong mark beyond it.

use kv::{
    encode, judge, list_of_reliabilities, open, product, sum, Listed, Refusal, Settings, Sizes,
    Verdict, LEVEL, LIMIT, POSITIONS, SYMBOLS, WHOLE,
};

fn all_sizes() -> impl Iterator<Item = Sizes> {
    (2..=POSITIONS).flat_map(|n| (2..=n).map(move |k| Sizes { n, k }))
}

/// Some message, another for each of the sizes.
fn message(Sizes { n, k }: Sizes) -> Vec<u8> {
    (0..k)
        .map(|place| ((7 * place + 3 * n + k) % SYMBOLS) as u8)
        .collect()
}

/// All the weight on the symbol of each mark; a mark without one is erased.
fn listed(sizes: Sizes, level: usize, marks: &[Option<u8>]) -> Result<Listed, Refusal> {
    let mut weights = vec![0; SYMBOLS * marks.len()];
    for (column, mark) in weights.chunks_mut(SYMBOLS).zip(marks) {
        if let Some(symbol) = mark {
            column[usize::from(*symbol)] = WHOLE;
        }
    }
    let limit = LIMIT;
    list_of_reliabilities(sizes, Settings { level, limit }, &weights)
}

/// The codeword from `from` on, round about: first so many marks wrong, then so many erased.
fn worn(codeword: &[u8], from: usize, wrong: usize, erased: usize) -> Vec<Option<u8>> {
    let n = codeword.len();
    let place = |mark: usize| (mark + n - from % n) % n;
    let mark = |(mark, &symbol): (usize, &u8)| match place(mark) {
        place if place < wrong => Some(symbol ^ (1 + place as u8)),
        place if place < wrong + erased => None,
        _ => Some(symbol),
    };
    codeword.iter().enumerate().map(mark).collect()
}

#[test]
fn a_clean_tag_is_its_message_alone() -> Result<(), Refusal> {
    for sizes in all_sizes() {
        let message = message(sizes);
        let marks = worn(&encode(sizes, &message)?, 0, 0, 0);
        for level in 1..=LEVEL {
            let rows = listed(sizes, level, &marks)?.rows;
            assert_eq!(rows.len(), 1, "{sizes:?} {level}");
            assert_eq!(rows[0].message, message);
            assert_eq!(rows[0].score, sizes.n * level);
        }
    }
    Ok(())
}

#[test]
fn up_to_half_the_distance_the_ticket_leads_and_is_opened() -> Result<(), Refusal> {
    for sizes in all_sizes() {
        let (message, spare) = (message(sizes), sizes.n - sizes.k);
        let codeword = encode(sizes, &message)?;
        for erased in [0, 1, spare / 2, spare]
            .into_iter()
            .filter(|&few| few <= spare)
        {
            let marks = worn(&codeword, sizes.k, (spare - erased) / 2, erased);
            for level in 1..=LEVEL {
                let listed = listed(sizes, level, &marks)?;
                let [first, others @ ..] = &listed.rows[..] else {
                    panic!("{sizes:?} {level} {marks:?}: no row");
                };
                assert_eq!(first.message, message, "{sizes:?} {level} {marks:?}");
                assert!(others.iter().all(|row| first.score >= row.score + level));
                let (rows, scores) = (listed.messages(), listed.scores());
                assert_eq!(judge(sizes.k, &rows, &scores, level), Ok(Verdict::Open));
                assert_eq!(open(sizes.k, &rows, &scores, level), message);
            }
        }
    }
    Ok(())
}

/// The message of the product of x + x_i over the first k - 1 points: its codeword is zero there,
/// and nowhere else.
fn nearest(sizes: Sizes) -> Result<Vec<u8>, Refusal> {
    let mut coefficients = vec![1];
    let points = encode(sizes, &[vec![0, 1], vec![0; sizes.k - 2]].concat())?;
    for point in &points[..sizes.k - 1] {
        let mut more = [&[0], &coefficients[..]].concat();
        for (place, &coefficient) in coefficients.iter().enumerate() {
            more[place] = sum(more[place], product(*point, coefficient)?)?;
        }
        coefficients = more;
    }
    Ok(coefficients)
}

#[test]
fn one_wrong_mark_more_is_too_many() -> Result<(), Refusal> {
    for sizes in all_sizes().filter(|Sizes { n, k }| (n - k) % 2 == 0) {
        let other = nearest(sizes)?;
        let too_many = (sizes.n - sizes.k) / 2 + 1;
        // Zero's marks, but for so many of the other's, which has no more than these besides zeros.
        let keep = sizes.k - 1 + too_many;
        let word = encode(sizes, &other)?;
        let marks = word.iter().enumerate();
        let marks: Vec<_> = marks
            .map(|(i, &s)| Some(if i < keep { s } else { 0 }))
            .collect();
        for level in 1..=LEVEL {
            let rows = listed(sizes, level, &marks)?.rows;
            assert_eq!(rows[0].message, other, "{sizes:?} {level}");
        }
    }
    Ok(())
}
