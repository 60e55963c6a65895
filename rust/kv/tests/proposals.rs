//! What is proved of proposals, asked of the built library: of its own polynomials and of their
//! multiples, of products of lines, and of small polynomials, all there are.

use kv::{
    check_proposal, cost_and_bound, encode, interpolate, list_of_multiplicities, list_of_proposal,
    product, roots, sum, Listed, Matrix, Polynomial, Refusal, Sizes, LEVEL, LIMIT, MONOMIALS,
    POSITIONS, SYMBOLS,
};
use std::collections::BTreeMap;

/// The coefficient of x^a y^b at (a, b), 0 where there is none.
type Terms = BTreeMap<(usize, usize), u8>;

/// (a, b) for each x^a y^b of weighted degree at most `degree`, in order.
fn monomials(v: usize, degree: usize) -> Vec<(usize, usize)> {
    let of_degree = |d: usize| (0..=d / v).map(move |b| (d - v * b, b));
    (0..=degree).flat_map(of_degree).collect()
}

fn terms(v: usize, degree: usize, coefficients: &[u8]) -> Terms {
    let monomials = monomials(v, degree).into_iter();
    monomials.zip(coefficients.iter().copied()).collect()
}

/// Up to a degree that all of the terms have.
fn proposed(v: usize, degree: usize, terms: &Terms) -> Polynomial {
    let coefficient = |monomial| terms.get(&monomial).copied().unwrap_or(0);
    let coefficients: Vec<u8> = monomials(v, degree).into_iter().map(coefficient).collect();
    let kept = coefficients.iter().filter(|&&c| c != 0).count();
    assert_eq!(kept, terms.values().filter(|&&c| c != 0).count());
    Polynomial {
        bound: degree,
        coefficients,
    }
}

fn times(f: &Terms, g: &Terms) -> Result<Terms, Refusal> {
    let mut total = Terms::new();
    let with_each = |term| g.iter().map(move |other| (term, other));
    for (((a, b), c), ((i, j), d)) in f.iter().flat_map(with_each) {
        let cell = total.entry((a + i, b + j)).or_default();
        *cell = sum(*cell, product(*c, *d)?)?;
    }
    Ok(total)
}

fn power(f: &Terms, exponent: usize) -> Result<Terms, Refusal> {
    let one = Terms::from([((0, 0), 1)]);
    (0..exponent).try_fold(one, |total, _| times(&total, f))
}

fn multiplied(symbol: u8, coefficients: &[u8]) -> Result<Vec<u8>, Refusal> {
    coefficients.iter().map(|&c| product(symbol, c)).collect()
}

/// x plus the x of a position.
fn line_in_x(position: usize) -> Result<Terms, Refusal> {
    let mut x = 1;
    for _ in 0..position {
        x = product(x, 2)?;
    }
    Ok(Terms::from([((1, 0), 1), ((0, 0), x)]))
}

/// y plus the polynomial of a message.
fn line_in_y(message: &[u8]) -> Terms {
    let of_message = message.iter().enumerate().map(|(j, &f)| ((j, 0), f));
    of_message.chain([((0, 1), 1)]).collect()
}

fn check(sizes: Sizes, matrix: &[u8], polynomial: &Polynomial) -> Result<bool, Refusal> {
    check_proposal(sizes, polynomial.bound, matrix, &polynomial.coefficients)
}

fn list(sizes: Sizes, matrix: &[u8], polynomial: &Polynomial) -> Result<Listed, Refusal> {
    list_of_proposal(
        sizes,
        LIMIT,
        polynomial.bound,
        matrix,
        &polynomial.coefficients,
    )
}

/// Whatever is proposed: the bytes' answers and the record's are the same.
fn agree(sizes: Sizes, matrix: &[u8], polynomial: &Polynomial) -> Result<(), Refusal> {
    let record = Matrix::of_bytes(sizes.n, matrix)?;
    let (k, degree, coefficients) = (sizes.k, polynomial.bound, &polynomial.coefficients);
    assert_eq!(
        record.check_proposal(k, degree, coefficients),
        check(sizes, matrix, polynomial)
    );
    assert_eq!(
        record.list_of_proposal(k, LIMIT, degree, coefficients),
        list(sizes, matrix, polynomial)
    );
    Ok(())
}

/// A yes, of which the list is the matrix's own.
fn is_taken(sizes: Sizes, matrix: &[u8], polynomial: &Polynomial) -> Result<(), Refusal> {
    assert_eq!(check(sizes, matrix, polynomial), Ok(true), "{matrix:?}");
    let ours = list_of_multiplicities(sizes, LIMIT, matrix)?;
    assert_eq!(list(sizes, matrix, polynomial), Ok(ours), "{matrix:?}");
    agree(sizes, matrix, polynomial)
}

/// A no, which is refused by the list.
fn is_not_taken(sizes: Sizes, matrix: &[u8], polynomial: &Polynomial) -> Result<(), Refusal> {
    assert_eq!(check(sizes, matrix, polynomial), Ok(false), "{matrix:?}");
    let refused = list(sizes, matrix, polynomial);
    assert_eq!(refused, Err(Refusal::Proposal), "{matrix:?}");
    agree(sizes, matrix, polynomial)
}

fn every_sizes() -> impl Iterator<Item = Sizes> {
    let of_n = |n: usize| (2..=n).map(move |k| Sizes { n, k });
    (2..=POSITIONS).flat_map(of_n)
}

fn message(k: usize) -> Vec<u8> {
    (0..k).map(|j| (3 * j + 1) as u8 % SYMBOLS as u8).collect()
}

/// The level at each symbol of a word.
fn marked(word: &[u8], level: u8) -> Vec<u8> {
    let mut matrix = vec![0; SYMBOLS * word.len()];
    for (position, &symbol) in word.iter().enumerate() {
        matrix[SYMBOLS * position + usize::from(symbol)] = level;
    }
    matrix
}

/// Of the codeword of zeros; and at each level of another one, of that with a wrong mark, and with
/// a second symbol faint beneath the first mark, where they cost little enough.
fn matrices(sizes: Sizes) -> Result<Vec<Vec<u8>>, Refusal> {
    let word = encode(sizes, &message(sizes.k))?;
    let mut wrong = word.clone();
    wrong[sizes.n - 1] ^= 5;
    let mut matrices = vec![marked(&vec![0; sizes.n], 1)];
    for level in 1..=LEVEL as u8 {
        let mut beneath = marked(&word, level);
        beneath[usize::from(word[0] ^ 1)] = level - 1;
        matrices.extend([marked(&word, level), marked(&wrong, level), beneath]);
    }
    matrices.retain(|matrix| interpolate(sizes, LIMIT, matrix).is_ok());
    Ok(matrices)
}

fn polynomials() -> Result<Vec<(Sizes, Vec<u8>, Polynomial)>, Refusal> {
    let mut all = Vec::new();
    for sizes in every_sizes() {
        for matrix in matrices(sizes)? {
            let polynomial = interpolate(sizes, LIMIT, &matrix)?;
            all.push((sizes, matrix, polynomial));
        }
    }
    Ok(all)
}

#[test]
fn what_is_interpolated_is_taken_and_its_list_is_the_list() -> Result<(), Refusal> {
    let mut rows = 0;
    for (sizes, matrix, polynomial) in polynomials()? {
        is_taken(sizes, &matrix, &polynomial)?;
        rows += list(sizes, &matrix, &polynomial)?.rows.len();
    }
    assert!(rows > every_sizes().count());
    Ok(())
}

#[test]
fn times_a_symbol_it_is_taken_and_times_0_it_is_not() -> Result<(), Refusal> {
    let symbols = (0..SYMBOLS as u8).cycle();
    for ((sizes, matrix, polynomial), symbol) in polynomials()?.into_iter().zip(symbols) {
        let multiple = Polynomial {
            bound: polynomial.bound,
            coefficients: multiplied(symbol, &polynomial.coefficients)?,
        };
        match symbol {
            0 => is_not_taken(sizes, &matrix, &multiple)?,
            _ => is_taken(sizes, &matrix, &multiple)?,
        }
    }
    Ok(())
}

#[test]
fn times_x_it_is_a_yes_and_taken_up_to_the_bound() -> Result<(), Refusal> {
    let x = Terms::from([((1, 0), 1)]);
    let (mut within, mut above) = (0, 0);
    for (sizes, matrix, polynomial) in polynomials()? {
        let (v, bound) = (sizes.k - 1, polynomial.bound);
        let product = times(&terms(v, bound, &polynomial.coefficients), &x)?;
        let all = monomials(v, bound + 1);
        let reaches = |&(a, b): &(usize, usize)| product.get(&(a, b)).is_some_and(|&c| c != 0);
        let leading = all.iter().rfind(|monomial| reaches(monomial));
        let degree = leading.map_or(0, |&(a, b)| a + v * b);
        if degree <= bound {
            is_taken(sizes, &matrix, &proposed(v, bound, &product))?;
            within += 1;
        } else if all.len() <= MONOMIALS {
            let product = proposed(v, degree, &product);
            assert_eq!(check(sizes, &matrix, &product), Ok(true));
            assert_eq!(list(sizes, &matrix, &product), Err(Refusal::Setting));
            above += 1;
        }
    }
    assert!(within > 0 && above > 0);
    Ok(())
}

/// A monomial passes where y is 0, as often as its power of y, and nowhere else: no x is 0.
fn monomial_passes((_, power_of_y): (usize, usize), matrix: &[u8]) -> bool {
    let entries = matrix.iter().enumerate();
    let passes = |(place, &m): (usize, &u8)| place % SYMBOLS == 0 && usize::from(m) <= power_of_y;
    entries.filter(|(_, &m)| m > 0).all(passes)
}

#[test]
fn one_coefficient_off_it_is_taken_where_the_monomial_passes_too() -> Result<(), Refusal> {
    let (mut taken, mut refused) = (0, 0);
    for (sizes, matrix, polynomial) in polynomials()? {
        let monomials = monomials(sizes.k - 1, polynomial.bound);
        for (place, monomial) in monomials.into_iter().enumerate() {
            let mut off = polynomial.clone();
            off.coefficients[place] ^= 1 + (place % (SYMBOLS - 1)) as u8;
            let is_zero = off.coefficients.iter().all(|&c| c == 0);
            if monomial_passes(monomial, &matrix) && !is_zero {
                is_taken(sizes, &matrix, &off)?;
                taken += 1;
            } else {
                is_not_taken(sizes, &matrix, &off)?;
                refused += 1;
            }
        }
    }
    assert!(taken > 0 && refused > 0);
    Ok(())
}

#[test]
fn zeros_are_a_no_and_refused_up_to_the_bound() -> Result<(), Refusal> {
    for sizes in every_sizes() {
        for matrix in matrices(sizes)? {
            let bound = cost_and_bound(sizes, &matrix)?.bound;
            for degree in 0..=bound {
                let zeros = proposed(sizes.k - 1, degree, &Terms::new());
                is_not_taken(sizes, &matrix, &zeros)?;
            }
            let above = proposed(sizes.k - 1, bound + 1, &Terms::new());
            if above.coefficients.len() <= MONOMIALS {
                assert_eq!(check(sizes, &matrix, &above), Ok(false));
                assert_eq!(list(sizes, &matrix, &above), Err(Refusal::Setting));
            }
        }
    }
    Ok(())
}

/// (y + f)^m for the codeword of f, each mark m times, is of a degree up to the bound.
#[test]
fn a_line_through_a_codeword_is_taken_as_often_as_its_marks_count() -> Result<(), Refusal> {
    for sizes in every_sizes() {
        let line = line_in_y(&message(sizes.k));
        let word = encode(sizes, &message(sizes.k))?;
        for level in 1..=LEVEL {
            let matrix = marked(&word, level as u8);
            let v = sizes.k - 1;
            let degree = v * level;
            let fewer = power(&line, level - 1)?;
            is_taken(sizes, &matrix, &proposed(v, degree, &power(&line, level)?))?;
            is_not_taken(sizes, &matrix, &proposed(v, degree, &fewer))?;
        }
    }
    Ok(())
}

/// Where lines in x and in y cross, their product passes as often as there are lines, not oftener.
#[test]
fn lines_that_cross_pass_together() -> Result<(), Refusal> {
    let (sizes, position, symbol) = (Sizes { n: 4, k: 2 }, 2, 9);
    let counts = 0..=LEVEL;
    for (in_x, in_y) in counts
        .clone()
        .flat_map(|a| counts.clone().map(move |b| (a, b)))
    {
        let (x, y) = (line_in_x(position)?, line_in_y(&[symbol]));
        let product = times(&power(&x, in_x)?, &power(&y, in_y)?)?;
        let product = proposed(1, in_x + in_y, &product);
        for m in 0..=LEVEL {
            let mut matrix = vec![0; SYMBOLS * sizes.n];
            matrix[SYMBOLS * position + usize::from(symbol)] = m as u8;
            let passes = m <= in_x + in_y;
            assert_eq!(check(sizes, &matrix, &product), Ok(passes));
        }
    }
    Ok(())
}

/// A root whose score is at the bound, and above the degree, is not listed.
#[test]
fn roots_are_filtered_by_the_bound_and_not_by_the_degree() -> Result<(), Refusal> {
    let sizes = Sizes { n: 5, k: 2 };
    let mut matrix = marked(&encode(sizes, &[3, 1])?, 1);
    matrix[..SYMBOLS].fill(1);
    let lines = times(&line_in_x(0)?, &line_in_y(&[3, 1]))?;
    let lines = proposed(1, 2, &lines);
    assert_eq!(cost_and_bound(sizes, &matrix)?.bound, 5);
    assert_eq!(roots(2, 2, &lines.coefficients)?, [[3, 1]]);
    assert!(list(sizes, &matrix, &lines)?.rows.is_empty());
    is_taken(sizes, &matrix, &lines)
}

/// A matrix of one number throughout costs up to 3,600; the product of x plus the x of each
/// position, as often as the number says, passes.
#[test]
fn lines_in_x_pass_through_every_symbol_of_their_positions() -> Result<(), Refusal> {
    let mut dearest = 0;
    for sizes in every_sizes() {
        for m in 1..=LEVEL {
            let (v, degree) = (sizes.k - 1, sizes.n * m);
            if monomials(v, degree).len() > MONOMIALS {
                break;
            }
            let lines = (0..sizes.n).map(line_in_x).collect::<Result<Vec<_>, _>>()?;
            let once = lines
                .iter()
                .try_fold(power(&lines[0], 0)?, |f, g| times(&f, g))?;
            let matrix = vec![m as u8; SYMBOLS * sizes.n];
            let all = proposed(v, degree, &power(&once, m)?);
            assert_eq!(check(sizes, &matrix, &all), Ok(true));
            let fewer = proposed(v, degree, &power(&once, m - 1)?);
            assert_eq!(check(sizes, &matrix, &fewer), Ok(false));
            dearest = dearest.max(cost_and_bound(sizes, &matrix)?.cost);
        }
    }
    assert_eq!(dearest, 3600);
    Ok(())
}

/// Whether the polynomial has no term of order below m when x and y are counted from the point: the
/// same as derivatives that are zero there, found by multiplying out.
fn passes_at(f: &Terms, position: usize, symbol: u8, m: usize) -> Result<bool, Refusal> {
    let mut moved = Terms::new();
    let (x, y) = (line_in_x(position)?, line_in_y(&[symbol]));
    for (&(a, b), &c) in f {
        for (monomial, d) in times(&power(&x, a)?, &power(&y, b)?)? {
            let cell = moved.entry(monomial).or_default();
            *cell = sum(*cell, product(c, d)?)?;
        }
    }
    Ok(moved.iter().all(|(&(a, b), &c)| c == 0 || a + b >= m))
}

fn passes(f: &Terms, matrix: &[u8]) -> Result<bool, Refusal> {
    for (place, &m) in matrix.iter().enumerate().filter(|(_, &m)| m > 0) {
        let (position, symbol) = (place / SYMBOLS, (place % SYMBOLS) as u8);
        if !passes_at(f, position, symbol, m.into())? {
            return Ok(false);
        }
    }
    Ok(true)
}

/// Places of two positions, and what a matrix has there; it has 0 elsewhere.
const FEW_ENTRIES: [&[(usize, u8)]; 8] = [
    &[],
    &[(0, 1)],
    &[(0, 2)],
    &[(3, 1), (4, 1)],
    &[(0, 1), (16, 1)],
    &[(7, 1), (31, 1)],
    &[(1, 2), (17, 1)],
    &[(9, 3)],
];

#[test]
fn of_degree_1_just_those_are_a_yes_that_pass() -> Result<(), Refusal> {
    let sizes = Sizes { n: 2, k: 2 };
    let mut yes = [0; FEW_ENTRIES.len()];
    for number in 1..SYMBOLS.pow(3) {
        let digit = |place: u32| (number / SYMBOLS.pow(place) % SYMBOLS) as u8;
        let coefficients = [digit(0), digit(1), digit(2)];
        let f = terms(1, 1, &coefficients);
        for (entries, yes) in FEW_ENTRIES.iter().zip(&mut yes) {
            let mut matrix = [0; 2 * SYMBOLS];
            entries.iter().for_each(|&(place, m)| matrix[place] = m);
            let passes = passes(&f, &matrix)?;
            assert_eq!(check_proposal(sizes, 1, &matrix, &coefficients), Ok(passes));
            *yes += usize::from(passes);
        }
    }
    // Each condition that is new leaves one in sixteen, and 0 is not counted.
    assert_eq!(yes, [4095, 255, 0, 15, 15, 15, 0, 0]);
    Ok(())
}
