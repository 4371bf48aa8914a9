//! Worked examples of source document 000.

mod common;

use common::*;
use second::curve::{least, passes, terms};
use second::readings::{readings, Way};
use second::search::{alive, beginnings, roots, rows, Rows};
use second::setting::Setting;

/// The largest τ that is accepted.
fn largest(p: u64, n: u64, k: u64, s: u64) -> Setting {
    (0..n).rev().find_map(|tau| Setting::accept(p, n, k, s, tau).ok()).unwrap()
}

/// L_m of eq. 42: the greatest power of y among the first C+1 terms.
fn greatest_power(setting: &Setting) -> usize {
    terms(setting)[..=setting.c].iter().map(|&(_, t)| t).max().unwrap()
}

/// Examples 2 to 6: t_m and L_m for the multiplicities up to 4.
#[test]
fn decoding_radius() {
    for (n, k, table) in [
        (32, 8, vec![(1, 14, Some(2)), (2, 15, Some(4)), (3, 15, None), (4, 16, Some(8))]),
        (16, 4, vec![(1, 7, Some(2)), (2, 8, Some(4)), (3, 8, None), (4, 8, None)]),
        (31, 15, vec![(1, 8, None), (2, 8, None), (3, 9, Some(4)), (4, 9, None)]),
        (18, 2, vec![(1, 12, Some(4)), (2, 13, Some(9)), (3, 13, None)]),
        (6, 4, vec![(1, 1, None), (2, 1, None), (3, 1, None), (4, 1, None)]),
    ] {
        for (s, tau, power) in table {
            let setting = largest(929, n, k, s);
            assert_eq!(setting.tau, tau, "n {n}, k {k}, s {s}");
            if let Some(power) = power {
                assert_eq!(greatest_power(&setting), power, "n {n}, k {k}, s {s}");
            }
        }
    }
}

/// Example 15's curve, modulo 19.
fn example_15() -> Rows {
    vec![vec![4, 12, 5, 11, 8, 13], vec![14, 14, 9, 16, 8], vec![14, 13, 1], vec![2, 11, 1], vec![17]]
}

#[test]
fn example_15_beginnings_and_roots() {
    let alive = alive(19, 2, &example_15());
    let symbols = |length: usize| alive[length].iter().map(|b| b.symbols.clone()).collect::<Vec<_>>();
    assert_eq!(symbols(0), [[]]);
    assert_eq!(symbols(1), [[8], [14], [18]]);
    assert_eq!(symbols(2), [[8, 8], [14, 16], [18, 14], [18, 15]]);
    assert_eq!(beginnings(19, 2, &example_15()), 8);
    assert_eq!(roots(19, 2, &example_15()), [[8, 8], [14, 16], [18, 14]]);
}

/// The curves at the vertices 1 to 7, with the numbers that the example prints.
#[test]
fn example_15_curves() {
    let alive = alive(19, 2, &example_15());
    let same = |symbols: &[u32], printed: [&[u32]; 5]| {
        let found = alive[symbols.len()].iter().find(|b| b.symbols == symbols).unwrap();
        assert_eq!(found.curve, printed.map(<[u32]>::to_vec));
    };
    same(&[18], [&[15, 14, 0, 13], &[2, 10, 16, 8], &[15, 18, 17], &[0, 10, 11, 1], &[0, 0, 17]]);
    same(&[18, 14], [&[], &[4, 10, 18, 7], &[0, 15, 1, 8, 4], &[0, 0, 0, 10, 13, 1], &[0, 0, 0, 0, 0, 17]]);
    same(&[18, 15], [&[2, 18, 12], &[15, 4, 8, 18], &[0, 15, 12, 16, 7], &[0, 0, 0, 10, 5, 1], &[0, 0, 0, 0, 0, 17]]);
    same(&[14], [&[13, 12, 7, 6, 13], &[17, 6, 17, 16, 8], &[0, 7, 0, 5], &[0, 0, 4, 11, 1], &[0, 0, 0, 17]]);
    same(&[14, 16], [&[], &[17, 2, 11, 5, 16], &[0, 0, 7, 2, 7, 10], &[0, 0, 0, 0, 4, 16, 1], &[0, 0, 0, 0, 0, 0, 17]]);
    same(&[8], [&[14, 7, 6, 15, 13], &[3, 16, 8, 16, 8], &[0, 16, 11, 6], &[0, 0, 14, 11, 1], &[0, 0, 0, 17]]);
    same(&[8, 8], [&[], &[3, 6, 3, 9, 10], &[0, 0, 16, 5, 15, 5], &[0, 0, 0, 0, 14, 4, 1], &[0, 0, 0, 0, 0, 0, 17]]);
}

/// Example C-1: the curve found, and the one message within one error.
#[test]
fn example_c1() {
    let (points, word) = ([0, 1, 2, 3, 4], [1, 3, 3, 2, 4]);
    let setting = accepted(5, 5, 2, 1, 1);
    let printed = curve(&setting, &[(1, 1, 1), (0, 1, 3), (2, 0, 3), (1, 0, 3), (0, 0, 2)]);
    assert_eq!(least(&setting, &points, &word), printed);
    assert_eq!(roots(5, 2, &rows(&setting, &printed)), [[1, 2]]);
    assert_eq!(readings(&setting, &points, &word, Way::All), [[1, 2]]);
    let wider = accepted(5, 5, 2, 1, 0);
    let other = curve(&wider, &[(2, 1, 3), (1, 1, 4), (0, 1, 1), (4, 0, 3), (2, 0, 1), (1, 0, 3), (0, 0, 4)]);
    assert!(passes(&wider, &points, &word, &other));
}

/// Example C-2: no message of two symbols within one error, one of three symbols, and two of two within two errors.
#[test]
fn example_c2() {
    let (points, word) = ([0, 1, 2, 3, 4], [1, 3, 3, 3, 4]);
    let setting = accepted(5, 5, 2, 1, 1);
    let first = curve(&setting, &[(1, 1, 1), (0, 1, 4), (3, 0, 2), (2, 0, 3), (1, 0, 4), (0, 0, 1)]);
    let second = curve(&setting, &[(2, 1, 1), (1, 1, 1), (2, 0, 2), (1, 0, 2)]);
    for (found, list) in [(&first, vec![]), (&second, vec![vec![3, 0]])] {
        assert!(passes(&setting, &points, &word, found));
        assert_eq!(roots(5, 2, &rows(&setting, found)), list);
    }
    for way in [Way::All, Way::Subsets, Way::Curve] {
        assert!(readings(&setting, &points, &word, way).is_empty());
        assert_eq!(readings(&accepted(5, 5, 3, 1, 1), &points, &word, way), [[1, 0, 3]]);
        let two_wrong = readings(&accepted(5, 5, 2, 1, 2), &points, &word, way);
        assert!(two_wrong.contains(&vec![1, 2]) && two_wrong.contains(&vec![3, 0]));
    }
}
