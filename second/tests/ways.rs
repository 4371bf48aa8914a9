//! The ways of listing agree; the least curve passes and is the least; search and enumeration give the same roots.

mod common;

use common::*;
use second::calls::{read_call, symbols as wide};
use second::curve::{least, passes, terms};
use second::random::Random;
use second::readings::{advance, choices, listed, messages_count, readings, Way};
use second::search::{alive, is_root, roots, rows};
use second::setting::Setting;

#[test]
fn the_ways_agree() {
    let mut random = Random::new(1);
    let mut lengths = [0; 8];
    for _ in 0..400 {
        let (setting, points) = small_setting(&mut random, &[2, 3, 5, 7, 11, 13], 13);
        let word = some_word(&mut random, &setting, &points);
        let by_all = readings(&setting, &points, &word, Way::All);
        assert_eq!(by_all, readings(&setting, &points, &word, Way::Subsets), "{setting:?} {points:?} {word:?}");
        assert_eq!(by_all, readings(&setting, &points, &word, Way::Curve), "{setting:?} {points:?} {word:?}");
        lengths[by_all.len().min(7)] += 1;
    }
    // Words with none, one and several readings are among them.
    assert!(lengths[0] > 20 && lengths[1] > 20 && lengths[2..].iter().sum::<u32>() > 20, "{lengths:?}");
}

#[test]
fn larger_words_by_subsets_and_curve() {
    let mut random = Random::new(2);
    for (p, n, k, s, tau) in
        [(929, 32, 8, 1, 12), (929, 20, 3, 2, 9), (37, 24, 4, 3, 11), (929, 64, 2, 1, 45), (31, 31, 15, 3, 5)]
    {
        let setting = accepted(p, n, k, s, tau);
        let points: Vec<u32> = (0..setting.n as u32).collect();
        for _ in 0..3 {
            let word = some_word(&mut random, &setting, &points);
            let list = readings(&setting, &points, &word, Way::Subsets);
            assert_eq!(list, readings(&setting, &points, &word, Way::Curve));
        }
    }
}

#[test]
fn the_least_curve_passes_and_is_the_least() {
    let mut random = Random::new(3);
    let mut tried = 0;
    for _ in 0..200 {
        let (setting, points) = small_setting(&mut random, &[2, 3, 5, 7, 929], 10);
        let word = some_word(&mut random, &setting, &points);
        let found = least(&setting, &points, &word);
        assert!(passes(&setting, &points, &word, &found));
        let greatest = terms(&setting).into_iter().rfind(|&(i, t)| found[t * setting.w + i] != 0).unwrap();
        assert_eq!(found[greatest.1 * setting.w + greatest.0], 1);
        let smaller: Vec<_> = terms(&setting).into_iter().take_while(|&term| term != greatest).collect();
        if messages_count(setting.p, smaller.len()) < 5000 {
            tried += 1;
            assert_eq!(any_of(&setting, &points, &word, &smaller), None);
        }
    }
    assert!(tried > 30);
}

/// A curve of these terms that passes, by trying all of them.
fn any_of(setting: &Setting, points: &[u32], word: &[u32], smaller: &[(usize, usize)]) -> Option<Vec<u32>> {
    let mut coefficients = vec![0; smaller.len()];
    while advance(setting.p, &mut coefficients) {
        let all: Vec<_> = smaller.iter().zip(&coefficients).map(|(&(i, t), &c)| (i, t, c)).collect();
        let other = curve(setting, &all);
        if passes(setting, points, word, &other) {
            return Some(other);
        }
    }
    None
}

/// On any curve, passing or not: the search reaches each root, and at most ℓ beginnings of a length are alive.
#[test]
fn the_search_finds_every_root() {
    let mut random = Random::new(4);
    for _ in 0..300 {
        let (setting, _) = small_setting(&mut random, &[2, 3, 5, 7], 7);
        let numbers: Vec<(usize, usize, u32)> = terms(&setting)
            .into_iter()
            .map(|(i, t)| (i, t, if random.below(3) == 0 { random.below(setting.p as u64) as u32 } else { 0 }))
            .collect();
        let proposed = rows(&setting, &curve(&setting, &numbers));
        if proposed.iter().all(Vec::is_empty) {
            continue;
        }
        let mut message = vec![0; setting.k];
        let mut all = Vec::new();
        loop {
            if is_root(setting.p, &proposed, &message) {
                all.push(message.clone());
            }
            if !advance(setting.p, &mut message) {
                break;
            }
        }
        assert_eq!(roots(setting.p, setting.k, &proposed), all);
        for length in alive(setting.p, setting.k, &proposed) {
            assert!(length.len() <= setting.l.max(1));
        }
    }
}

/// The list does not depend on the passing curve: multiples of the least one by x − a give it too.
#[test]
fn every_passing_curve_gives_the_list() {
    let mut random = Random::new(5);
    let mut wider = 0;
    for _ in 0..200 {
        let (setting, points) = small_setting(&mut random, &[5, 7, 11], 9);
        let word = some_word(&mut random, &setting, &points);
        let found = least(&setting, &points, &word);
        let a = random.below(setting.p as u64) as u32;
        let mut other = vec![0; found.len()];
        for place in 0..found.len() {
            other[place] += (setting.p - a) * found[place];
            if (place + 1) % setting.w != 0 {
                other[place + 1] += found[place];
            }
        }
        other.iter_mut().for_each(|c| *c %= setting.p);
        if passes(&setting, &points, &word, &other) {
            wider += 1;
            let list = readings(&setting, &points, &word, Way::All);
            for way in [Way::All, Way::Subsets, Way::Curve] {
                assert_eq!(listed(&setting, &points, &word, &other, way), list);
            }
        }
    }
    assert!(wider > 50);
}

/// n 64, k 32, s 4, τ 16: a patch with 16 wrong symbols is read.
#[test]
fn the_largest_case_of_document_01() {
    let mut random = Random::new(6);
    let setting = accepted(929, 64, 32, 4, 16);
    let points: Vec<u32> = (0..64).map(|j| 13 * j + 5).collect();
    let message = symbols(&mut random, 929, 32);
    let mut word = second::code::patch(929, &points, &message);
    for j in 0..16 {
        word[3 * j + 7] = (word[3 * j + 7] + 1 + j as u32) % 929;
    }
    let buffers = Buffers::for_setting(&setting, 2);
    let outcome = read_call(&parameters(929, 64, 32, 4, 16), &narrow(&points), &narrow(&word), buffers.lent(), None);
    assert_eq!((outcome.refusal, outcome.found), (0, 1));
    assert_eq!(wide(&outcome.output[..32]), message);
    assert!(outcome.tried >= 33 && outcome.tried <= 1 + setting.l * setting.k);
}

#[test]
fn costs() {
    assert_eq!(messages_count(929, 2), 863_041);
    assert_eq!(messages_count(929, 64), u64::MAX);
    assert_eq!(choices(22, 8), 319_770);
    assert_eq!(choices(64, 64), 1);
    assert_eq!(Way::cheapest(&accepted(7, 7, 2, 1, 3)), Way::Subsets);
    assert_eq!(Way::cheapest(&accepted(2, 2, 2, 1, 0)), Way::Subsets);
    assert_eq!(Way::cheapest(&accepted(2, 16, 3, 2, 8)), Way::All);
    assert_eq!(Way::cheapest(&accepted(929, 64, 32, 4, 16)), Way::Curve);
}
