//! The parts after which a file is mostly not read on: cuts, bad lengths, random and flipped bytes.

use super::{Maker, Theme};

impl Maker {
    /// The file ends inside a record: after the first byte of its length, before or in its kind, or in its body.
    pub(super) fn cut(&mut self) {
        self.block(&[5, 7, 11], 3..=6, 2);
        let kept = self.bytes.len();
        let theme = self.random.pick(&[Theme::Small, Theme::OtherKind]);
        self.part(theme);
        let last = (self.bytes.len() - kept) as u64;
        let any = self.random.between(1, last - 1);
        let left = self.random.pick(&[1, 2, 3, any]);
        self.bytes.truncate(kept + left as usize);
    }

    /// A length below 2, above 130 or odd; what follows it is not looked at.
    pub(super) fn bad_length(&mut self) {
        let odd = 2 * self.random.between(1, 32767) + 1;
        let above = self.random.between(131, 65535);
        let length = self.random.pick(&[0, 1, 3, 13, 15, 129, 131, 132, 256, 65534, 65535, odd, above]);
        self.number(length);
        let kind = self.random.between(0, 4);
        self.number(kind);
        for _ in 0..self.random.below(80) {
            let any = self.random.below(20);
            self.number(any);
        }
    }

    /// A kind 1 record of another length, whole or cut, and good records after it.
    pub(super) fn bad_setting_length(&mut self) {
        let length = self.random.pick(&[0, 1, 4, 6, 7, 64]);
        let body: Vec<u64> = [7, 7, 2, 1, 3].into_iter().cycle().take(length).collect();
        self.record(1, &body);
        self.block(&[5, 7], 3..=6, 1);
    }

    /// Records of every kind with small numbers in them, in any order.
    pub(super) fn random_records(&mut self) {
        for _ in 0..self.random.between(5, 25) {
            match self.random.below(6) {
                0 => {
                    let any = self.random.between(2, 9);
                    let p = self.random.pick(&[2, 3, 5, 7, any]);
                    let body = [
                        p,
                        self.random.between(1, 4),
                        self.random.between(1, 3),
                        self.random.between(1, 4),
                        self.random.below(3),
                    ];
                    self.record(1, &body);
                }
                1 | 2 => {
                    let body: Vec<u64> = (0..self.random.between(1, 4)).collect();
                    self.record(2, &body);
                }
                3 | 4 => {
                    let body: Vec<u64> = (0..self.random.between(2, 4)).map(|_| self.random.below(3)).collect();
                    self.record(3, &body);
                }
                _ => self.other_kind(),
            }
        }
    }

    pub(super) fn random_bytes(&mut self) {
        for _ in 0..self.random.below(300) {
            let byte = self.random.below(256) as u8;
            let small = self.random.below(5) as u8;
            let byte = self.random.pick(&[byte, small, 0]);
            self.bytes.push(byte);
        }
    }

    /// A good file with up to four bytes replaced, or one taken out or put in.
    pub(super) fn flipped_bytes(&mut self) {
        self.block(&[5, 7, 11, 13], 3..=8, 3);
        self.block(&[5, 7, 11, 13], 3..=8, 3);
        for _ in 0..self.random.between(1, 4) {
            let place = self.random.below(self.bytes.len() as u64) as usize;
            let byte = self.random.below(256) as u8;
            match self.random.below(6) {
                0 => drop(self.bytes.remove(place)),
                1 => self.bytes.insert(place, byte),
                2 => self.bytes[place] = byte,
                _ => self.bytes[place] ^= byte & 7,
            }
        }
    }
}
