//! The conditions of a matrix: the monomials' values at a point, masked for each derivative.

use super::field::{point, product, SYMBOLS};
use super::monomials::walk;
use super::rows::{Block, Row, BLOCK, BLOCKS, COLUMNS};
use std::slice::IterMut;

/// The powers of a symbol up to the bound, and zeros for the monomials past it.
type Powers = [u8; COLUMNS];

/// The exponents of the first monomials, in blocks.
struct Monomials {
    blocks: usize,
    of_x: Row,
    of_y: Row,
}

impl Monomials {
    fn first(v: usize, blocks: usize) -> Self {
        let (mut of_x, mut of_y) = ([[0; BLOCK]; BLOCKS], [[0; BLOCK]; BLOCKS]);
        let xs = of_x[..blocks].as_flattened_mut().iter_mut();
        let ys = of_y[..blocks].as_flattened_mut();
        for ((x, y), (a, b)) in xs.zip(ys).zip(walk(v)) {
            *x = a as u8;
            *y = b as u8;
        }
        Monomials { blocks, of_x, of_y }
    }

    fn of_x(&self) -> &[Block] {
        &self.of_x[..self.blocks]
    }

    fn of_y(&self) -> &[Block] {
        &self.of_y[..self.blocks]
    }

    fn values(&self, powers_of_x: &Powers, powers_of_y: &Powers) -> Row {
        let mut values = [[0; BLOCK]; BLOCKS];
        let [of_x, of_y] = [self.of_x(), self.of_y()].map(<[Block]>::as_flattened);
        let exponents = of_x.iter().zip(of_y);
        for (value, (&a, &b)) in values.as_flattened_mut().iter_mut().zip(exponents) {
            *value = product(powers_of_x[usize::from(a)], powers_of_y[usize::from(b)]);
        }
        values
    }
}

fn put_powers(symbol: u8, powers: &mut [u8]) {
    let mut next = 1;
    for power in powers {
        *power = next;
        next = product(symbol, next);
    }
}

/// What is left of a block: where the exponent has, of the bits asked for, just those of the order.
fn kept_block(block: &Block, exponents: &Block, asked: u8, order: u8) -> Block {
    std::array::from_fn(|column| {
        let is_left = exponents[column] & asked == order;
        block[column] & if is_left { u8::MAX } else { 0 }
    })
}

fn keep(row: &Row, exponents: &[Block], asked: u8, order: u8, out: &mut Row) {
    for ((out, block), exponents) in out.iter_mut().zip(row).zip(exponents) {
        *out = kept_block(block, exponents, asked, order);
    }
}

/// The binomial of exponent and order is odd where the exponent has the order's bits. At 0 only the
/// power that is the order is left.
fn asked_at(symbol: usize, order: u8) -> u8 {
    if symbol == 0 {
        u8::MAX
    } else {
        order
    }
}

/// The conditions of one order of x: those of the orders of y below m.
fn put_order(rows: &mut IterMut<Row>, left: &Row, monomials: &Monomials, symbol: usize, m: u8) {
    for (order, row) in (0..m).zip(rows) {
        let asked = asked_at(symbol, order);
        keep(left, monomials.of_y(), asked, order, row);
    }
}

/// The conditions of a point of multiplicity m.
fn put_point(rows: &mut IterMut<Row>, values: &Row, monomials: &Monomials, symbol: usize, m: u8) {
    let mut left = [[0; BLOCK]; BLOCKS];
    for order in 0..m {
        keep(values, monomials.of_x(), order, order, &mut left);
        put_order(rows, &left, monomials, symbol, m - order);
    }
}

/// The conditions of a position, no power of y being above the height.
fn put_position(
    rows: &mut IterMut<Row>,
    monomials: &Monomials,
    powers_of_x: &Powers,
    height: usize,
    column: &[u8],
) {
    let mut powers_of_y = [0; COLUMNS];
    for (symbol, &m) in column.iter().enumerate().filter(|&(_, &m)| m > 0) {
        put_powers(symbol.max(1) as u8, &mut powers_of_y[..=height]);
        let values = monomials.values(powers_of_x, &powers_of_y);
        put_point(rows, &values, monomials, symbol, m);
    }
}

/// Puts each condition into a row of zeros, in as many blocks as are asked for.
pub fn put_conditions(rows: &mut [Row], v: usize, degree: usize, blocks: usize, matrix: &[u8]) {
    let monomials = Monomials::first(v, blocks);
    let mut rows = rows.iter_mut();
    let mut powers_of_x = [0; COLUMNS];
    for (position, column) in matrix.chunks_exact(SYMBOLS).enumerate() {
        put_powers(point(position), &mut powers_of_x[..=degree]);
        put_position(&mut rows, &monomials, &powers_of_x, degree / v, column);
    }
}
