//! Monomials in their order, how many there are, and the bound.

/// The powers of x and y of the monomials in order.
pub fn walk(v: usize) -> impl Iterator<Item = (usize, usize)> {
    (0..).flat_map(move |degree: usize| (0..=degree / v).map(move |b| (degree - v * b, b)))
}

/// N(D) for the weight v.
pub fn monomials(v: usize, degree: usize) -> usize {
    (0..=degree / v).map(|b| degree + 1 - v * b).sum()
}

/// The smallest degree with more monomials than the cost, without counting.
pub fn bound(v: usize, cost: usize) -> usize {
    let most = 2 * cost / v;
    let mut m = 1;
    while (m + 1) * m <= most {
        m += 1;
    }
    (2 * cost + v * (m * (m - 1))) / (2 * m)
}
