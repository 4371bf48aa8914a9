//! Patch files from a seed: good ones, damaged words, each refusal of the program, cut files, random bytes.

use crate::code::patch;
use crate::patch::WORK;
use crate::random::Random;
use crate::setting::Setting;
use crate::Symbol;

mod endings;
pub mod requests;

/// What a file is made around. Seeds that follow one another go through all of them.
#[derive(Clone, Copy, Debug, PartialEq, Eq)]
pub enum Theme {
    Small,
    Middle,
    Largest,
    Smallest,
    ManyReadings,
    WorkEdge,
    MorePlacesThanSymbols,
    SettingRefused(u64),
    PointsRefused(u64),
    WordRefused(u64),
    OtherKind,
    NotHeld,
    Cut,
    BadLength,
    BadSettingLength,
    RandomRecords,
    RandomBytes,
    FlippedBytes,
}

pub const THEMES: [Theme; 29] = [
    Theme::Small,
    Theme::Middle,
    Theme::Largest,
    Theme::Smallest,
    Theme::ManyReadings,
    Theme::WorkEdge,
    Theme::MorePlacesThanSymbols,
    Theme::SettingRefused(1),
    Theme::SettingRefused(2),
    Theme::SettingRefused(3),
    Theme::SettingRefused(4),
    Theme::SettingRefused(8),
    Theme::PointsRefused(5),
    Theme::PointsRefused(6),
    Theme::PointsRefused(7),
    Theme::WordRefused(5),
    Theme::WordRefused(6),
    Theme::OtherKind,
    Theme::NotHeld,
    Theme::Cut,
    Theme::BadLength,
    Theme::BadSettingLength,
    Theme::RandomRecords,
    Theme::RandomBytes,
    Theme::FlippedBytes,
    Theme::Small,
    Theme::Middle,
    Theme::ManyReadings,
    Theme::NotHeld,
];

/// The file of a seed.
pub fn file(seed: u64) -> Vec<u8> {
    let theme = THEMES[(seed % THEMES.len() as u64) as usize];
    let mut maker = Maker { random: Random::new(seed), bytes: Vec::new() };
    if maker.random.below(3) == 0 {
        maker.filler();
    }
    maker.part(theme);
    if maker.random.below(2) == 0 {
        maker.filler();
    }
    if maker.random.below(8) == 0 {
        let ending = maker.random.pick(&[Theme::Cut, Theme::BadLength, Theme::BadSettingLength]);
        maker.part(ending);
    }
    maker.bytes
}

struct Maker {
    random: Random,
    bytes: Vec<u8>,
}

impl Maker {
    /// A cheap part beside the theme.
    fn filler(&mut self) {
        let number = self.random.pick(&[1, 2, 3, 4, 8]);
        let theme = self.random.pick(&[
            Theme::Small,
            Theme::Smallest,
            Theme::OtherKind,
            Theme::NotHeld,
            Theme::PointsRefused(7),
            Theme::WordRefused(6),
            Theme::SettingRefused(number),
        ]);
        self.part(theme);
    }

    fn part(&mut self, theme: Theme) {
        match theme {
            Theme::Small => self.block(&[5, 7, 11, 13, 17, 19, 23], 3..=12, 4),
            Theme::Middle => self.block(&[29, 31, 37, 41, 101, 257, 929], 8..=32, 2),
            Theme::Largest => self.block(&[67, 127, 509, 919, 929], 64..=64, 1),
            Theme::Smallest => self.block(&[2, 3, 929], 2..=3, 4),
            Theme::ManyReadings => self.many_readings(),
            Theme::WorkEdge => self.work_edge(),
            Theme::MorePlacesThanSymbols => self.more_places(),
            Theme::SettingRefused(number) => self.setting_refused(number),
            Theme::PointsRefused(number) => self.points_refused(number),
            Theme::WordRefused(number) => self.word_refused(number),
            Theme::OtherKind => self.other_kind(),
            Theme::NotHeld => self.not_held(),
            Theme::Cut => self.cut(),
            Theme::BadLength => self.bad_length(),
            Theme::BadSettingLength => self.bad_setting_length(),
            Theme::RandomRecords => self.random_records(),
            Theme::RandomBytes => self.random_bytes(),
            Theme::FlippedBytes => self.flipped_bytes(),
        }
    }

    fn number(&mut self, number: u64) {
        self.bytes.extend((number as u16).to_le_bytes());
    }

    fn record(&mut self, kind: u64, body: &[u64]) {
        self.number(2 + 2 * body.len() as u64);
        self.number(kind);
        body.iter().for_each(|&a| self.number(a));
    }

    fn symbols_record(&mut self, kind: u64, body: &[Symbol]) {
        self.record(kind, &body.iter().map(|&a| a as u64).collect::<Vec<_>>());
    }

    fn setting_record(&mut self, s: &Setting) {
        self.record(1, &[s.p as u64, s.n as u64, s.k as u64, s.s as u64, s.tau as u64]);
    }

    /// A setting that the program holds, with a modulus of these and n in this range; half of the time with the largest τ.
    fn accepted(&mut self, moduli: &[u64], places: std::ops::RangeInclusive<u64>) -> Setting {
        loop {
            let p = self.random.pick(moduli);
            let n = self.random.between(*places.start(), *places.end()).min(p);
            let k =
                if self.random.below(2) == 0 { self.random.between(2, n) } else { self.random.between(2, n.min(5)) };
            let s = self.random.between(1, 4);
            let held = |tau: &u64| Setting::accept(p, n, k, s, *tau).is_ok_and(|setting| setting.r <= WORK);
            let all: Vec<u64> = (0..n).filter(held).collect();
            if let Some(&most) = all.last() {
                let tau = if self.random.below(2) == 0 { most } else { self.random.pick(&all) };
                return Setting::accept(p, n, k, s, tau).expect("held above");
            }
        }
    }

    /// n distinct symbols: the first ones, or any in any order.
    fn points(&mut self, setting: &Setting) -> Vec<Symbol> {
        let mut all: Vec<Symbol> = (0..setting.p).collect();
        if self.random.below(3) > 0 {
            self.random.shuffle(&mut all);
        }
        all.truncate(setting.n);
        all
    }

    fn symbols(&mut self, p: u32, count: usize) -> Vec<Symbol> {
        (0..count).map(|_| self.random.below(p as u64) as Symbol).collect()
    }

    fn word(&mut self, setting: &Setting, points: &[Symbol]) -> Vec<Symbol> {
        match self.random.below(8) {
            0 => self.symbols(setting.p, setting.n),
            1 => vec![0; setting.n],
            2 | 3 => self.mixed(setting, points),
            _ => self.damaged(setting, points),
        }
    }

    /// Each place has the symbol of one of a few patches, so that several messages agree often.
    fn mixed(&mut self, setting: &Setting, points: &[Symbol]) -> Vec<Symbol> {
        let count = self.random.between(2, 4) as usize;
        let patches: Vec<Vec<Symbol>> = (0..count).map(|_| self.clean(setting, points)).collect();
        (0..setting.n).map(|j| patches[self.random.below(count as u64) as usize][j]).collect()
    }

    /// A patch with 0 to more than τ wrong symbols.
    fn damaged(&mut self, setting: &Setting, points: &[Symbol]) -> Vec<Symbol> {
        let (n, tau) = (setting.n as u64, setting.tau as u64);
        let any = self.random.between(0, n);
        let wrong = self.random.pick(&[0, 1, tau / 2, tau, tau, tau + 1, any]);
        let mut word = self.clean(setting, points);
        let mut places: Vec<usize> = (0..setting.n).collect();
        self.random.shuffle(&mut places);
        for &j in places.iter().take(wrong as usize) {
            word[j] = (word[j] + self.random.between(1, setting.p as u64 - 1) as Symbol) % setting.p;
        }
        word
    }

    /// The patch of a message, now and then one with zeros behind its first symbols.
    fn clean(&mut self, setting: &Setting, points: &[Symbol]) -> Vec<Symbol> {
        let mut message = self.symbols(setting.p, setting.k);
        if self.random.below(4) == 0 {
            let from = self.random.below(setting.k as u64) as usize;
            message[from..].fill(0);
        }
        patch(setting.p, points, &message)
    }

    /// A setting, points and at most so many words.
    fn block(&mut self, moduli: &[u64], places: std::ops::RangeInclusive<u64>, words: u64) {
        let setting = self.accepted(moduli, places);
        self.block_of(&setting, words);
    }

    fn block_of(&mut self, setting: &Setting, words: u64) -> Vec<Symbol> {
        self.setting_record(setting);
        let points = self.points(setting);
        self.symbols_record(2, &points);
        for _ in 0..self.random.between(1, words) {
            let word = self.word(setting, &points);
            self.symbols_record(3, &word);
        }
        points
    }

    fn many_readings(&mut self) {
        let setting = self.several();
        self.block_of(&setting, 3);
        let points: Vec<Symbol> = (0..setting.n as Symbol).collect();
        self.symbols_record(2, &points);
        let word = self.mixed(&setting, &points);
        self.symbols_record(3, &word);
    }

    /// Settings whose R is 24,000, the nearest ones above it, and the most conditions that are held.
    fn work_edge(&mut self) {
        let setting = self.one_of(&[
            (64, 11, 2, 14),
            (54, 11, 4, 29),
            (64, 40, 2, 0),
            (61, 24, 2, 0),
            (54, 8, 4, 33),
            (25, 2, 1, 0),
        ]);
        self.block_of(&setting, 1);
    }

    /// One of these accepted n, k, s and τ, with a modulus that has points enough for all of them.
    fn one_of(&mut self, settings: &[(u64, u64, u64, u64)]) -> Setting {
        let (n, k, s, tau) = self.random.pick(settings);
        let p = self.random.pick(&[67, 929]);
        Setting::accept(p, n, k, s, tau).expect("these are accepted")
    }

    /// n above p: points are then refused with 6 or 7.
    fn more_places(&mut self) {
        let p = self.random.pick(&[2, 3, 5, 7, 13, 31]);
        let n = self.random.between(p + 1, (p + 20).min(64));
        let setting = (0..n).rev().find_map(|tau| Setting::accept(p, n, 2, 1, tau).ok()).expect("one is accepted");
        self.setting_record(&setting);
        let above = self.random.below(2);
        let points: Vec<Symbol> = (0..n).map(|j| (j % (p + above)) as Symbol).collect();
        self.symbols_record(2, &points);
        let word = self.symbols(setting.p, setting.n);
        self.symbols_record(3, &word);
    }

    /// A setting refused with this number, between records that show what stays dropped.
    fn setting_refused(&mut self, number: u64) {
        let held = self.accepted(&[7, 11, 13], 4..=8);
        let points = self.block_of(&held, 1);
        let refused = self.refused_parameters(number);
        self.record(1, &refused);
        if self.random.below(2) == 0 {
            self.symbols_record(2, &points);
        }
        let word = self.word(&held, &points);
        self.symbols_record(3, &word);
    }

    fn refused_parameters(&mut self, number: u64) -> Vec<u64> {
        loop {
            let parameters = self.any_parameters(number);
            let [p, n, k, s, tau] = parameters;
            let refusal = match Setting::accept(p, n, k, s, tau) {
                Ok(setting) if setting.r > WORK => 8,
                Ok(_) => 0,
                Err(refusal) => refusal,
            };
            if refusal == number {
                return parameters.to_vec();
            }
        }
    }

    /// Parameters among which refusal `number` is not rare.
    fn any_parameters(&mut self, number: u64) -> [u64; 5] {
        let n = self.random.between(2, 64);
        let k = if number == 4 { self.random.between(2, 4) } else { self.random.between(2, n) };
        let mut all = [self.random.pick(&[67, 127, 929]), n, k, self.random.between(1, 4), self.random.below(n)];
        let any = self.random.below(65536);
        if number == 1 {
            all[0] = self.random.pick(&[0, 1, 4, 9, 25, 529, 841, 899, 928, 930, 937, 941, 1024, 65535, any]);
        } else if number == 2 {
            let place = self.random.between(1, 4) as usize;
            all[place] = self.random.pick(&[0, 1, 5, 65, n, n + 1, 256, 65535, any]);
        }
        all
    }

    /// Points refused with this number after good ones, and a word that finds none held.
    fn points_refused(&mut self, number: u64) {
        let setting = self.accepted(&[5, 7, 13, 929], 3..=9);
        let mut points = self.block_of(&setting, 1);
        match number {
            5 => self.wrong_length(&mut points),
            6 => self.not_below(setting.p, &mut points),
            _ => {
                let last = points.len() - 1;
                let first = self.random.below(last as u64) as usize;
                points[last] = points[first];
            }
        }
        self.symbols_record(2, &points);
        let word = self.symbols(setting.p, setting.n);
        self.symbols_record(3, &word);
    }

    /// A word refused with this number, and a good one: the points are still held.
    fn word_refused(&mut self, number: u64) {
        let setting = self.accepted(&[5, 7, 13, 929], 3..=9);
        let points = self.block_of(&setting, 1);
        let mut word = self.word(&setting, &points);
        match number {
            5 => self.wrong_length(&mut word),
            _ => self.not_below(setting.p, &mut word),
        }
        self.symbols_record(3, &word);
        let word = self.word(&setting, &points);
        self.symbols_record(3, &word);
    }

    /// Another number of symbols, from none to 64; sometimes one not below p with it.
    fn wrong_length(&mut self, symbols: &mut Vec<Symbol>) {
        let n = symbols.len();
        let length = self.random.pick(&[0, 1, n - 1, n + 1, 64]);
        let more = self.random.pick(&[0, 1, 65535]);
        symbols.resize(if length == n { n + 1 } else { length }, more);
    }

    fn not_below(&mut self, p: u32, symbols: &mut [Symbol]) {
        let place = self.random.below(symbols.len() as u64) as usize;
        symbols[place] = self.random.pick(&[p, p + 1, 65535, 256 * (p % 256)]).max(p);
    }

    fn other_kind(&mut self) {
        for _ in 0..self.random.between(1, 3) {
            let any = self.random.between(4, 65535);
            let kind = self.random.pick(&[0, 4, 5, 256, 257, 512, 768, 65535, any]);
            let length = self.random.pick(&[0, 1, 5, 63, 64]);
            let body: Vec<u64> = (0..length).map(|_| self.random.below(65536)).collect();
            self.record(kind, &body);
        }
    }

    /// Points with no setting held or a word with no points held, with bodies good and bad.
    fn not_held(&mut self) {
        let setting = self.accepted(&[5, 7, 11], 3..=6);
        match self.random.below(4) {
            0 => self.record(1, &[4, 7, 2, 1, 3]),
            1 => self.record(1, &[929, 64, 32, 4, 16]),
            2 => self.setting_record(&setting),
            _ => {}
        }
        for _ in 0..self.random.between(1, 3) {
            let kind = self.random.between(2, 3);
            let length = self.random.pick(&[0, 1, setting.n, 64]);
            let body = self.symbols(setting.p + 1, length);
            self.symbols_record(kind, &body);
        }
    }
}
