//! Document 01's "Numbers to hold against the build" and "Errors that look right".

mod common;

use common::*;
use second::calls::*;
use second::curve::{hasse, passes};
use second::patch;
use second::search::{beginnings, roots, rows};

fn list(parameters: &Parameters) -> Vec<Vec<u16>> {
    let setting = parameters.accept().unwrap();
    let outcome = read_call(parameters, &POINTS, &WORD, Buffers::for_setting(&setting, 0).lent(), None);
    assert_eq!(outcome.refusal, 0);
    outcome.output.chunks(2).take(outcome.found).map(<[u16]>::to_vec).collect()
}

#[test]
fn moduli_and_inverses() {
    assert_eq!(sum_call(929, 900, 30), Answer { refusal: 0, symbol: 1 });
    assert_eq!(difference_call(929, 0, 1), Answer { refusal: 0, symbol: 928 });
    assert_eq!(product_call(929, 928, 928), Answer { refusal: 0, symbol: 1 });
    for p in [0, 1, 928, 930, 937, u64::MAX] {
        assert_eq!(sum_call(p, 0, 0), Answer { refusal: 1, symbol: 0 });
    }
    assert_eq!(inverse_call(929, 2), Answer { refusal: 0, symbol: 465 });
    assert_eq!(inverse_call(929, 3), Answer { refusal: 0, symbol: 310 });
    assert_eq!(inverse_call(929, 0), Answer { refusal: 0, symbol: 0 });
    assert_eq!(inverse_call(929, 929), Answer { refusal: 6, symbol: 0 });
    assert_eq!(inverse_call(928, 929), Answer { refusal: 1, symbol: 0 });
    assert_eq!(product_call(7, 6, u64::MAX), Answer { refusal: 6, symbol: 0 });
    assert_eq!((0..1000).filter(|&p| second::field::is_modulus(p)).count(), 158);
}

#[test]
fn seven_is_written() {
    let outcome = encode_call(7, 7, 2, &POINTS, &[3, 2], &[9; 8]);
    assert_eq!(outcome, Encoded { refusal: 0, output: vec![3, 5, 0, 2, 4, 6, 1, 9] });
}

#[test]
fn seven_settings_and_lists() {
    let numbers = |parameters: &Parameters| {
        let d = setting_call(parameters);
        (d.refusal, d.w, d.l, d.u, d.c)
    };
    assert_eq!(numbers(&seven(1, 3)), (0, 4, 3, 10, 7));
    assert_eq!(list(&seven(1, 3)), [[0, 0], [0, 1]]);
    assert_eq!(list(&seven(1, 2)), Vec::<Vec<u16>>::new());
    assert_eq!(setting_call(&seven(1, 4)), Derived { refusal: 3, ..Derived::default() });
    assert_eq!(setting_call(&seven(2, 4)).refusal, 3);
    assert_eq!(numbers(&seven(3, 4)), (0, 9, 8, 45, 42));
    assert_eq!(list(&seven(3, 4)), [[0, 0], [0, 1]]);
}

#[test]
fn seven_curves() {
    let mut proposed = vec![0; 16];
    proposed[5] = 6;
    proposed[8] = 1;
    assert_eq!(check_call(&seven(1, 3), &POINTS, &WORD, &proposed), Checked { refusal: 0, yes: true });
    let buffers = Buffers::new(7, 0, 145);
    let lent = Lent { curve: &[], ..buffers.lent() };
    let outcome = list_call(&seven(1, 3), &POINTS, &WORD, &proposed, lent, None);
    assert_eq!((outcome.refusal, outcome.found, outcome.tried), (0, 2, 4));
    assert_eq!(outcome.output, [0, 0, 0, 1, 9, 9, 9]);
    assert_eq!(outcome.work, [vec![0; 144], vec![7]].concat());
    let mut only_y = vec![0; 16];
    only_y[4] = 1;
    // x²·(y² − x·y) vanishes at every place, but its terms have i + t·(k−1) = W
    let mut heavy = vec![0; 16];
    heavy[7] = 6;
    heavy[10] = 1;
    for refused in [only_y, heavy, vec![0; 16]] {
        assert_eq!(check_call(&seven(1, 3), &POINTS, &WORD, &refused), Checked { refusal: 0, yes: false });
        let outcome = list_call(&seven(1, 3), &POINTS, &WORD, &refused, lent, None);
        assert_eq!((outcome.refusal, outcome.found, outcome.tried), (9, 0, 0));
        assert_eq!((outcome.output, outcome.work), (vec![9; 7], vec![7; 145]));
    }
}

#[test]
fn settings_not_marked_p() {
    for (s, takes) in [(1, 14), (2, 15), (4, 16)] {
        assert_eq!(refusal(929, 32, 8, s, takes), 0);
        assert_eq!(refusal(929, 32, 8, s, takes + 1), 3);
    }
    let setting = accepted(929, 32, 8, 4, 16);
    assert_eq!((setting.u, setting.c), (325, 320));
    assert_eq!(refusal(929, 64, 2, 1, 38), 4);
    assert_eq!(refusal(929, 64, 2, 1, 39), 0);
    assert_eq!(refusal(929, 64, 2, 1, 53), 0);
    assert_eq!(refusal(929, 64, 2, 1, 54), 3);
    assert_eq!(refusal(929, 64, 2, 4, 56), 3);
    assert_eq!(accepted(929, 64, 32, 4, 16).r, 56_448);
    let record = [12, 0, 1, 0, 161, 3, 64, 0, 32, 0, 4, 0, 16, 0];
    assert_eq!(patch::run(&record, None), "1 1 8\n");
}

#[test]
fn ranges() {
    for (p, n, k, s, tau, number) in [
        (928, 1, 1, 0, 99, 1),
        (7, 1, 2, 1, 0, 2),
        (7, 65, 2, 1, 0, 2),
        (7, 7, 1, 1, 0, 2),
        (7, 7, 8, 1, 0, 2),
        (7, 7, 2, 0, 3, 2),
        (7, 7, 2, 5, 3, 2),
        (7, 7, 2, 1, 7, 2),
        (7, u64::MAX, u64::MAX, u64::MAX, u64::MAX, 2),
        (u64::MAX, 7, 2, 1, 3, 1),
        (2, 2, 2, 1, 0, 0),
        (2, 64, 64, 1, 0, 0),
    ] {
        assert_eq!(refusal(p, n, k, s, tau), number, "{p} {n} {k} {s} {tau}");
    }
}

/// "Every accepted setting then has n−τ ≥ k", and every output of ℓ·k is long enough for its lists.
#[test]
fn accepted_settings_leave_k_places() {
    let mut count = 0;
    for n in 2..=64 {
        for (k, s, tau) in (2..=n).flat_map(|k| (1..=4).flat_map(move |s| (0..n).map(move |tau| (k, s, tau)))) {
            if let Ok(setting) = second::setting::Setting::accept(929, n, k, s, tau) {
                assert!(setting.needed() >= setting.k && setting.l >= setting.s);
                count += 1;
            }
        }
    }
    assert_eq!(count, 94_148);
}

#[test]
fn whole_case() {
    let input = [
        0x0C, 0, 1, 0, 7, 0, 7, 0, 2, 0, 1, 0, 3, 0, //
        0x10, 0, 2, 0, 0, 0, 1, 0, 2, 0, 3, 0, 4, 0, 5, 0, 6, 0, //
        0x10, 0, 3, 0, 0, 0, 0, 0, 0, 0, 0, 0, 4, 0, 5, 0, 6, 0,
    ];
    assert_eq!(patch::run(&input, None), "1 1 0\n2 2 0\n3 3 0 2\n+ 0 0\n+ 0 1\n");
}

/// Modulo 3 all ordinary derivatives of x³ vanish at 0, though its multiplicity there is 3.
#[test]
fn hasse_derivatives_are_not_ordinary_ones() {
    let setting = accepted(3, 2, 2, 4, 0);
    let cube = curve(&setting, &[(3, 0, 1)]);
    let at_zero = [0, 1, 2, 3].map(|a| hasse(&setting, &cube, 0, 0, (a, 0)));
    assert_eq!(at_zero, [0, 0, 0, 1]);
    // An ordinary derivative is a! times the Hasse one. Those of x³·(x−1)³ = x⁶ − x³ all vanish at 0 and 1.
    let both = curve(&setting, &[(6, 0, 1), (3, 0, 2)]);
    for (a, factorial) in [(0, 1), (1, 1), (2, 2), (3, 6)] {
        for point in [0, 1] {
            assert_eq!(factorial * hasse(&setting, &both, point, 0, (a, 0)) % 3, 0);
        }
    }
    assert!(!passes(&setting, &[0, 1], &[0, 0], &both));
}

/// "a beginning that is already a root is still lengthened"
#[test]
fn no_early_stop() {
    let setting = seven(1, 3).accept().unwrap();
    let proposed = rows(&setting, &curve(&setting, &[(1, 1, 6), (0, 2, 1)]));
    assert_eq!(roots(7, 2, &proposed), [[0, 0], [0, 1]]);
    assert_eq!(beginnings(7, 3, &proposed), 6);
}

/// "Taking every root of the curve as a candidate without counting agreement."
#[test]
fn agreement_is_counted() {
    let setting = seven(1, 2).accept().unwrap();
    let proposed = curve(&setting, &[(1, 1, 6), (0, 2, 1)]);
    assert!(passes(&setting, &[0, 1, 2, 3, 4, 5, 6], &[0, 0, 0, 0, 4, 5, 6], &proposed));
    assert_eq!(roots(7, 2, &rows(&setting, &proposed)).len(), 2);
    let buffers = Buffers::for_setting(&setting, 0);
    let lent = Lent { curve: &[], ..buffers.lent() };
    let outcome = list_call(&seven(1, 2), &POINTS, &WORD, &narrow(&proposed), lent, None);
    assert_eq!((outcome.refusal, outcome.found, outcome.tried), (0, 0, 4));
    assert_eq!(outcome.output, buffers.output);
}

/// "Leaving the common power of x in: Q(0, y) is then zero and every symbol seems to fit."
#[test]
fn the_common_power_is_divided_out() {
    let setting = seven(1, 3).accept().unwrap();
    let proposed = curve(&setting, &[(2, 1, 6), (1, 2, 1)]);
    assert!(passes(&setting, &[0, 1, 2, 3, 4, 5, 6], &[0, 0, 0, 0, 4, 5, 6], &proposed));
    assert_eq!(beginnings(7, 2, &rows(&setting, &proposed)), 4);
}
