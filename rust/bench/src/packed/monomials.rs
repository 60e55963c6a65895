//! Monomials in their order, and the bound.

/// The powers of x and y of a monomial.
#[derive(Clone, Copy)]
pub struct Monomial {
    pub a: usize,
    pub b: usize,
}

/// The monomials in order for the weight v.
pub struct Walk {
    v: usize,
    degree: usize,
    next: Monomial,
}

pub fn walk(v: usize) -> Walk {
    Walk {
        v,
        degree: 0,
        next: Monomial { a: 0, b: 0 },
    }
}

impl Iterator for Walk {
    type Item = Monomial;

    fn next(&mut self) -> Option<Monomial> {
        let now = self.next;
        self.next = if now.a >= self.v {
            Monomial {
                a: now.a - self.v,
                b: now.b + 1,
            }
        } else {
            self.degree += 1;
            Monomial {
                a: self.degree,
                b: 0,
            }
        };
        Some(now)
    }
}

pub struct Bound {
    pub degree: usize,
    /// The highest power of y.
    pub height: usize,
    /// N of the degree.
    pub count: usize,
}

/// The smallest degree that has more monomials than the cost.
pub const fn bound(v: usize, cost: usize) -> Bound {
    let (mut degree, mut height, mut count) = (0, 0, 1);
    let mut until_higher = v;
    while count <= cost {
        degree += 1;
        until_higher -= 1;
        if until_higher == 0 {
            height += 1;
            until_higher = v;
        }
        count += height + 1;
    }
    Bound {
        degree,
        height,
        count,
    }
}
