//! "The curve and its check", and the least curve by elimination.

use crate::field::{binomials, difference, inverse, powers, product, sum};
use crate::setting::Setting;
use crate::Symbol;

/// The terms (i, t) with i + t·(k−1) below W, ordered by that number and on a tie by smaller t first.
pub fn terms(setting: &Setting) -> Vec<(usize, usize)> {
    let mut all = Vec::new();
    for weight in 0..setting.w {
        for t in 0..=setting.l {
            if t * (setting.k - 1) <= weight {
                all.push((weight - t * (setting.k - 1), t));
            }
        }
    }
    all
}

/// Tables for the Hasse derivatives at one place.
struct Place {
    p: u32,
    point_powers: Vec<Symbol>,
    symbol_powers: Vec<Symbol>,
    binomials: Vec<Vec<Symbol>>,
}

impl Place {
    fn new(setting: &Setting, point: Symbol, symbol: Symbol) -> Place {
        let count = setting.w.max(setting.l + 1);
        Place {
            p: setting.p,
            point_powers: powers(setting.p, point, count),
            symbol_powers: powers(setting.p, symbol, count),
            binomials: binomials(setting.p, count, setting.s),
        }
    }

    /// binomial(i,a)·binomial(t,b)·α^(i−a)·r^(t−b), and 0 where i < a or t < b.
    fn weight(&self, (i, t): (usize, usize), (a, b): (usize, usize)) -> Symbol {
        if i < a || t < b {
            return 0;
        }
        let in_x = product(self.p, self.binomials[i][a], self.point_powers[i - a]);
        let in_y = product(self.p, self.binomials[t][b], self.symbol_powers[t - b]);
        product(self.p, in_x, in_y)
    }
}

/// The pairs a, b with a + b < s.
fn pairs(s: usize) -> Vec<(usize, usize)> {
    (0..s).flat_map(|a| (0..s - a).map(move |b| (a, b))).collect()
}

/// The Hasse derivative of the curve at (α, r) for the pair a, b.
pub fn hasse(setting: &Setting, curve: &[Symbol], point: Symbol, symbol: Symbol, pair: (usize, usize)) -> Symbol {
    derivative(setting, curve, &Place::new(setting, point, symbol), pair)
}

fn derivative(setting: &Setting, curve: &[Symbol], place: &Place, pair: (usize, usize)) -> Symbol {
    let mut total = 0;
    for t in 0..=setting.l {
        for i in 0..setting.w {
            let coefficient = curve[t * setting.w + i];
            if coefficient != 0 {
                let term = product(setting.p, place.weight((i, t), pair), coefficient);
                total = sum(setting.p, total, term);
            }
        }
    }
    total
}

/// "It passes .. when three things hold"
pub fn passes(setting: &Setting, points: &[Symbol], word: &[Symbol], curve: &[Symbol]) -> bool {
    not_zero(curve) && weighted(setting, curve) && vanishes(setting, points, word, curve)
}

fn not_zero(curve: &[Symbol]) -> bool {
    curve.iter().any(|&c| c != 0)
}

/// "each coefficient with i + t·(k−1) ≥ W is zero"
fn weighted(setting: &Setting, curve: &[Symbol]) -> bool {
    (0..=setting.l)
        .all(|t| (0..setting.w).all(|i| i + t * (setting.k - 1) < setting.w || curve[t * setting.w + i] == 0))
}

/// "at each (α_j, r_j) and each pair a, b with a + b < s, the Hasse derivative is zero"
fn vanishes(setting: &Setting, points: &[Symbol], word: &[Symbol], curve: &[Symbol]) -> bool {
    points.iter().zip(word).all(|(&point, &symbol)| {
        let place = Place::new(setting, point, symbol);
        pairs(setting.s).into_iter().all(|pair| derivative(setting, curve, &place, pair) == 0)
    })
}

/// Of the curves that pass the one with the least greatest term, with coefficient 1 there: it is the only one.
/// The columns of the conditions are taken in the order of terms; the first that depends on those before it gives the curve.
pub fn least(setting: &Setting, points: &[Symbol], word: &[Symbol]) -> Vec<Symbol> {
    let terms = terms(setting);
    let mut matrix = conditions(setting, points, word, &terms);
    let last = eliminate(setting.p, &mut matrix);
    let solution = solve(setting.p, &matrix, last);
    let mut curve = vec![0; setting.curve_length()];
    for (&(i, t), coefficient) in terms.iter().zip(solution) {
        curve[t * setting.w + i] = coefficient;
    }
    curve
}

/// A row for each condition, a column for each term. C+1 columns are enough: one of them depends on those before it.
fn conditions(setting: &Setting, points: &[Symbol], word: &[Symbol], terms: &[(usize, usize)]) -> Vec<Vec<Symbol>> {
    let columns = &terms[..setting.c + 1];
    let mut matrix = Vec::new();
    for (&point, &symbol) in points.iter().zip(word) {
        let place = Place::new(setting, point, symbol);
        for pair in pairs(setting.s) {
            matrix.push(columns.iter().map(|&term| place.weight(term, pair)).collect());
        }
    }
    matrix
}

/// Row by row to the upper triangle with ones on its diagonal, up to the first column without a pivot, which is returned.
fn eliminate(p: u32, matrix: &mut [Vec<Symbol>]) -> usize {
    for column in 0..matrix.len() {
        let Some(found) = (column..matrix.len()).find(|&row| matrix[row][column] != 0) else {
            return column;
        };
        matrix.swap(column, found);
        let factor = inverse(p, matrix[column][column]);
        matrix[column].iter_mut().for_each(|c| *c = product(p, *c, factor));
        let (above, below) = matrix.split_at_mut(column + 1);
        for row in below {
            subtract(p, &mut row[column..], &above[column][column..]);
        }
    }
    matrix.len()
}

/// The row loses that multiple of the pivot's row which leaves 0 in its first place.
fn subtract(p: u32, row: &mut [Symbol], pivot: &[Symbol]) {
    let factor = difference(p, 0, row[0]);
    if factor != 0 {
        for (c, &v) in row.iter_mut().zip(pivot) {
            *c = (*c + factor * v) % p;
        }
    }
}

/// The one solution with 1 at the column `last` and zeros behind it.
fn solve(p: u32, matrix: &[Vec<Symbol>], last: usize) -> Vec<Symbol> {
    let mut solution = vec![0; last + 1];
    solution[last] = 1;
    for column in (0..last).rev() {
        let rest = (column + 1..=last).fold(0, |v, j| sum(p, v, product(p, matrix[column][j], solution[j])));
        solution[column] = difference(p, 0, rest);
    }
    solution
}
