//! Calls from a seed: accepted ones, and each refusal of each call, with other causes beside it now and then.

use super::Maker;
use crate::curve::least;
use crate::field::{is_modulus, product, sum};
use crate::random::Random;
use crate::request::{Form, Request};
use crate::setting::Setting;
use crate::Symbol;

/// Each call with the refusals aimed at: 0 for none, and for the check 9 for a curve that does not pass.
const PLAN: [(&str, &[u64]); 11] = [
    ("is_modulus", &[0, 1]),
    ("sum", &[0, 1, 6]),
    ("difference", &[0, 1, 6]),
    ("product", &[0, 1, 6]),
    ("inverse", &[0, 1, 6]),
    ("setting", &[0, 0, 1, 2, 3, 4]),
    ("encode", &[0, 0, 1, 2, 5, 6, 7, 8]),
    ("check", &[0, 0, 1, 2, 3, 4, 5, 6, 7, 9]),
    ("find", &[0, 0, 0, 1, 2, 3, 4, 5, 6, 7, 8]),
    ("list", &[0, 0, 0, 1, 2, 3, 4, 5, 6, 7, 8, 9]),
    ("read", &[0, 0, 0, 0, 0, 1, 2, 3, 4, 5, 6, 7, 8]),
];

/// So many seeds in a row meet every pair of the plan.
pub fn round() -> u64 {
    PLAN.iter().map(|(_, aims)| aims.len() as u64).sum()
}

/// The call of a seed.
pub fn request(seed: u64) -> Request {
    let pairs = PLAN.iter().flat_map(|(name, aims)| aims.iter().map(move |&aim| (*name, aim)));
    let (name, aim) = pairs.cycle().nth((seed % round()) as usize).expect("the plan is not empty");
    let form = Form::of(name).expect("the plan names calls");
    let mut maker = Maker { random: Random::new(seed), bytes: Vec::new() };
    let mut request = maker.accepted_request(form);
    // The lowest refusal is given, so a cause of a higher one must not show.
    if (1..9).contains(&aim) && maker.random.below(3) == 0 {
        let higher = maker.random.between(aim + 1, 9);
        maker.spoil(&mut request, higher);
    }
    maker.spoil(&mut request, aim);
    request
}

impl Maker {
    /// A call that is accepted, with garbage in all that is lent.
    fn accepted_request(&mut self, form: &'static Form) -> Request {
        let (numbers, runs) = match form.name {
            "encode" => self.encoding(),
            _ if form.runs > 0 => self.with_word(form),
            _ => (self.numbers_only(form), Vec::new()),
        };
        let symbols = self.symbols(numbers[0] as u32, form.symbols);
        let answer = if form.results > 0 { self.answer(form.results) } else { Vec::new() };
        Request { form, numbers, symbols: narrow(&symbols), runs, answer }
    }

    fn numbers_only(&mut self, form: &Form) -> Vec<u64> {
        if form.numbers == 1 {
            return vec![self.modulus()];
        }
        parameters(&self.any_setting())
    }

    fn modulus(&mut self) -> u64 {
        loop {
            let p = self.random.between(2, 929);
            if is_modulus(p) {
                return p;
            }
        }
    }

    fn encoding(&mut self) -> (Vec<u64>, Vec<Vec<u16>>) {
        let p = self.modulus();
        let n = self.random.between(2, p.min(64));
        let k = self.random.between(2, n);
        let mut points: Vec<Symbol> = (0..p as Symbol).collect();
        self.random.shuffle(&mut points);
        points.truncate(n as usize);
        let message = self.symbols(p as u32, k as usize);
        let output = self.lent(n as usize);
        (vec![p, n, k], vec![narrow(&points), narrow(&message), output])
    }

    fn with_word(&mut self, form: &Form) -> (Vec<u64>, Vec<Vec<u16>>) {
        let setting = self.any_setting();
        let points = self.points(&setting);
        let word = self.word(&setting, &points);
        let mut runs = vec![narrow(&points), narrow(&word)];
        if form.runs - form.lent == 3 {
            runs.push(narrow(&self.passing(&setting, &points, &word)));
        }
        let (output, curve, work) = (setting.l * setting.k, setting.curve_length(), setting.r);
        let rooms = match form.name {
            "find" => vec![curve, work],
            "list" => vec![output, work],
            "read" => vec![output, curve, work],
            _ => vec![],
        };
        runs.extend(rooms.into_iter().map(|room| self.lent(room)));
        (parameters(&setting), runs)
    }

    /// Mostly small ones, some of them with several readings; one in twenty may need more work than the patch program has.
    fn any_setting(&mut self) -> Setting {
        match self.random.below(20) {
            0..=4 => self.several(),
            5..=11 => self.accepted(&[2, 3, 5, 7, 11, 13, 17, 19, 23], 2..=12),
            12..=16 => self.accepted(&[29, 31, 37, 41, 101, 257, 929], 8..=32),
            17 | 18 => self.accepted(&[67, 127, 509, 919, 929], 33..=64),
            _ => self.largest(),
        }
    }

    /// A setting under which several readings are not rare.
    pub(super) fn several(&mut self) -> Setting {
        let (p, n, k, s, tau) = self.random.pick(&[
            (7, 7, 2, 1, 3),
            (7, 7, 2, 3, 4),
            (5, 5, 2, 1, 2),
            (11, 11, 3, 2, 5),
            (13, 12, 2, 1, 7),
            (19, 18, 2, 2, 13),
            (17, 16, 3, 3, 9),
            (31, 30, 2, 1, 22),
        ]);
        Setting::accept(p, n, k, s, tau).expect("these are accepted")
    }

    fn largest(&mut self) -> Setting {
        self.one_of(&[
            (64, 32, 4, 16),
            (64, 2, 1, 39),
            (64, 2, 1, 53),
            (64, 5, 1, 0),
            (64, 64, 4, 0),
            (64, 64, 1, 0),
            (40, 6, 4, 18),
            (64, 20, 2, 18),
        ])
    }

    /// The least curve times a symbol, and times x + c for a few c, 0 among them, while its degree leaves room.
    fn passing(&mut self, setting: &Setting, points: &[Symbol], word: &[Symbol]) -> Vec<Symbol> {
        let p = setting.p;
        let factor = self.random.between(1, p as u64 - 1) as Symbol;
        let mut curve: Vec<Symbol> = least(setting, points, word).iter().map(|&c| product(p, c, factor)).collect();
        for _ in 0..self.random.below(4) {
            if !room_for_x(setting, &curve) {
                break;
            }
            let c = self.random.below(p as u64) as Symbol * self.random.below(2) as Symbol;
            let before = [&[0], &curve[..]].concat();
            curve = curve.iter().zip(before).map(|(&here, less)| sum(p, product(p, c, here), less)).collect();
        }
        curve
    }

    /// A lent run: this room and now and then some more, with garbage in it.
    fn lent(&mut self, room: usize) -> Vec<u16> {
        let length = room + self.random.pick(&[0, 0, 0, 1, 7]);
        let any = self.random.below(65536) as u16;
        if length <= 200 || (length <= 3000 && self.random.below(3) == 0) {
            (0..length).map(|_| self.random.below(65536) as u16).collect()
        } else {
            vec![self.random.pick(&[0, 1, 65535, any]); length]
        }
    }

    /// Often as long as the results, and sometimes shorter or longer; garbage of any size.
    fn answer(&mut self, results: usize) -> Vec<u64> {
        let length = self.random.pick(&[results, results, results, 0, 1, results - 1, results + 3]);
        (0..length).map(|_| self.random.draw() >> self.random.below(64)).collect()
    }

    /// Gives the call a cause for this refusal, if it has any; 0 is none.
    fn spoil(&mut self, request: &mut Request, number: u64) {
        let given = request.form.runs - request.form.lent;
        match number {
            1 => request.numbers[0] = self.no_modulus(),
            2 if request.numbers.len() > 1 => self.out_of_range(&mut request.numbers),
            3 | 4 if request.numbers.len() == 5 => request.numbers = self.refused_parameters(number),
            5 if given > 0 => {
                let place = self.random.below(given as u64) as usize;
                self.other_length(&mut request.runs[place]);
            }
            6 => self.no_symbol(request, given),
            7 if given > 0 => self.equal_points(&mut request.runs[0]),
            8 if request.form.lent > 0 => {
                let place = self.random.between(given as u64, request.form.runs as u64 - 1) as usize;
                self.shorter(&mut request.runs[place], request.form.name == "encode");
            }
            9 if given == 3 => self.no_curve(request.numbers[0], &mut request.runs[2]),
            _ => {}
        }
    }

    fn no_modulus(&mut self) -> u64 {
        let any = self.random.draw();
        let wide = (1 << self.random.pick(&[16, 32, 63])) + self.random.pick(&[2, 7, 929]);
        self.random.pick(&[0, 1, 4, 9, 25, 529, 841, 899, 928, 930, 937, 941, 1024, 65535, u64::MAX, wide, any])
    }

    fn out_of_range(&mut self, numbers: &mut [u64]) {
        let place = self.random.between(1, numbers.len() as u64 - 1) as usize;
        let wide = numbers[place] + (1 << self.random.pick(&[8, 16, 32, 63]));
        let near = match place {
            1 => vec![0, 1, 65, 66],
            2 => vec![0, 1, numbers[1] + 1],
            3 => vec![0, 5, 6],
            _ => vec![numbers[1], numbers[1] + 1],
        };
        let near = self.random.pick(&near);
        numbers[place] = self.random.pick(&[near, near, wide, u64::MAX]);
    }

    fn other_length(&mut self, run: &mut Vec<u16>) {
        let n = run.len();
        let length = self.random.pick(&[0, 1, n.saturating_sub(1), n + 1, 2 * n + 1]);
        let more = self.random.pick(&[0, 1, 65535]);
        run.resize(if length == n { n + 1 } else { length }, more);
    }

    fn no_symbol(&mut self, request: &mut Request, given: usize) {
        let place = self.random.below(given.max(1) as u64) as usize;
        let run = if given == 0 { &mut request.symbols } else { &mut request.runs[place] };
        if !run.is_empty() {
            let p = request.numbers[0].min(65534) as u32;
            let mut symbols: Vec<Symbol> = run.iter().map(|&a| a.into()).collect();
            self.not_below(p, &mut symbols);
            *run = narrow(&symbols);
        }
    }

    fn equal_points(&mut self, points: &mut [u16]) {
        self.random.shuffle(points);
        if let [first, second, ..] = points {
            *second = *first;
        }
        self.random.shuffle(points);
    }

    /// Encode's output may be anything under n; the rooms of the other calls are some places longer than asked at most.
    fn shorter(&mut self, run: &mut Vec<u16>, any: bool) {
        let most = run.len().saturating_sub(if any { 1 } else { 8 });
        let length = self.random.below(most as u64 + 1) as usize;
        run.truncate(self.random.pick(&[0, length, most, run.len().saturating_sub(1)]));
    }

    /// Mostly one coefficient changed, which may stand where the degree is too high.
    fn no_curve(&mut self, p: u64, curve: &mut [u16]) {
        match self.random.below(4) {
            0 => curve.fill(0),
            1 => curve.iter_mut().for_each(|c| *c = self.random.below(p.clamp(1, 65535)) as u16),
            _ if curve.is_empty() => {}
            _ => {
                let place = self.random.below(curve.len() as u64) as usize;
                curve[place] = ((curve[place] as u64 + 1) % p.clamp(2, 65535)) as u16;
            }
        }
    }
}

fn parameters(s: &Setting) -> Vec<u64> {
    vec![s.p as u64, s.n as u64, s.k as u64, s.s as u64, s.tau as u64]
}

/// Each term's weight may grow by one, and so each row's last place is 0.
fn room_for_x(setting: &Setting, curve: &[Symbol]) -> bool {
    (0..curve.len())
        .filter(|&place| curve[place] != 0)
        .all(|place| place % setting.w + place / setting.w * (setting.k - 1) + 1 < setting.w)
}

fn narrow(symbols: &[Symbol]) -> Vec<u16> {
    symbols.iter().map(|&a| a as u16).collect()
}
