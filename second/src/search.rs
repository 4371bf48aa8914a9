//! "Beginnings and the search", length by length as the rule says it.

use crate::field::{binomials, powers, product, sum};
use crate::setting::Setting;
use crate::Symbol;

/// A curve as its polynomials in x, one for each power of y, without zeros at their ends.
pub type Rows = Vec<Vec<Symbol>>;

/// A beginning that is alive, with its curve.
#[derive(Clone, Debug)]
pub struct Beginning {
    pub symbols: Vec<Symbol>,
    pub curve: Rows,
}

/// "The coefficient of x^i·y^t stands at place t·W + i."
pub fn rows(setting: &Setting, curve: &[Symbol]) -> Rows {
    curve.chunks(setting.w).map(|row| trimmed(row.to_vec())).collect()
}

fn trimmed(mut row: Vec<Symbol>) -> Vec<Symbol> {
    while row.last() == Some(&0) {
        row.pop();
    }
    row
}

/// "The curve with its largest common power of x divided out." The zero curve stays as it is.
pub fn stripped(curve: &Rows) -> Rows {
    let power = curve.iter().filter_map(|row| row.iter().position(|&c| c != 0)).min().unwrap_or(0);
    curve.iter().map(|row| row.iter().skip(power).copied().collect()).collect()
}

/// Q(0, g)
fn at_zero(p: u32, curve: &Rows, g: Symbol) -> Symbol {
    let powers = powers(p, g, curve.len());
    curve.iter().zip(powers).fold(0, |v, (row, power)| sum(p, v, product(p, row.first().copied().unwrap_or(0), power)))
}

/// Q(x, x·y + g): y^t becomes the sum over j of binomial(t,j)·g^(t−j)·x^j·y^j.
pub fn lengthened(p: u32, curve: &Rows, g: Symbol) -> Rows {
    let count = curve.len();
    let binomials = binomials(p, count, count);
    let powers = powers(p, g, count);
    let width = curve.iter().map(Vec::len).max().unwrap_or(0);
    let mut next = Vec::new();
    for j in 0..count {
        let mut row = vec![0; j + width];
        for t in j..count {
            let factor = product(p, binomials[t][j], powers[t - j]);
            for (i, &c) in curve[t].iter().enumerate() {
                row[i + j] = sum(p, row[i + j], product(p, factor, c));
            }
        }
        next.push(trimmed(row));
    }
    next
}

/// The alive beginnings of the lengths 0 to k, each length in order. "No early stop."
pub fn alive(p: u32, k: usize, curve: &Rows) -> Vec<Vec<Beginning>> {
    let mut lengths = vec![vec![Beginning { symbols: Vec::new(), curve: stripped(curve) }]];
    for length in 0..k {
        let mut longer = Vec::new();
        for beginning in &lengths[length] {
            for g in (0..p).filter(|&g| at_zero(p, &beginning.curve, g) == 0) {
                let symbols = beginning.symbols.iter().copied().chain([g]).collect();
                longer.push(Beginning { symbols, curve: stripped(&lengthened(p, &beginning.curve, g)) });
            }
        }
        lengths.push(longer);
    }
    lengths
}

/// "The beginnings tried are all alive ones of lengths 0 to k, the empty one counted."
pub fn beginnings(p: u32, k: usize, curve: &Rows) -> usize {
    alive(p, k, curve).iter().map(Vec::len).sum()
}

/// The messages of k symbols that the search reaches and that are roots, in order.
pub fn roots(p: u32, k: usize, curve: &Rows) -> Vec<Vec<Symbol>> {
    let last = alive(p, k, curve).pop().unwrap_or_default();
    last.into_iter().map(|b| b.symbols).filter(|f| is_root(p, curve, f)).collect()
}

/// Q(x, f(x)) = 0, with f's powers multiplied out one after another.
pub fn is_root(p: u32, curve: &Rows, message: &[Symbol]) -> bool {
    let mut total: Vec<Symbol> = Vec::new();
    let mut power = vec![1];
    for row in curve {
        let term = multiplied(p, row, &power);
        total.resize(total.len().max(term.len()), 0);
        for (v, c) in total.iter_mut().zip(term) {
            *v = sum(p, *v, c);
        }
        power = multiplied(p, &power, message);
    }
    total.iter().all(|&c| c == 0)
}

fn multiplied(p: u32, a: &[Symbol], b: &[Symbol]) -> Vec<Symbol> {
    let mut all = vec![0; a.len() + b.len()];
    for (i, &c) in a.iter().enumerate() {
        for (j, &d) in b.iter().enumerate() {
            all[i + j] = sum(p, all[i + j], product(p, c, d));
        }
    }
    trimmed(all)
}
