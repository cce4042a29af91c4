//! Random numbers, bytes and blocks from a seed.
//!
//!   Random                    the generator
//!   below, byte               any number below a limit, any byte
//!   number, number_of, far    a number of a width or of a length, a place past the end
//!   bytes, damaged, lengthen, longest, part   bytes that may be a form or not
//!   block, list_block         a block of groups of every kind, or of forms alone

use crate::cases::FAR;
use crate::numbers::{form, power, Rule};
use Rule::*;

/// splitmix64: the same numbers from the same seed on every machine.
pub struct Random(pub u64);

impl Random {
    fn next(&mut self) -> u64 {
        self.0 = self.0.wrapping_add(0x9e3779b97f4a7c15);
        let mut x = self.0;
        x = (x ^ (x >> 30)).wrapping_mul(0xbf58476d1ce4e5b9);
        x = (x ^ (x >> 27)).wrapping_mul(0x94d049bb133111eb);
        x ^ (x >> 31)
    }

    pub fn below(&mut self, limit: usize) -> usize {
        (self.next() % limit as u64) as usize
    }

    pub fn byte(&mut self) -> u8 {
        self.below(256) as u8
    }

    /// Bytes of which one in `low` is below 128 by choice, so that long runs of others come up too.
    pub fn bytes(&mut self, count: usize) -> Vec<u8> {
        let low = [2, 4, 16][self.below(3)];
        let mut bytes = Vec::new();
        for _ in 0..count {
            let seven = self.byte() % 128;
            bytes.push(if self.below(low) == 0 {
                seven
            } else {
                seven + 128
            });
        }
        bytes
    }

    /// A number of the width; each length is about as likely as another, and so are both sides of
    /// the values at which it grows.
    pub fn number(&mut self, rule: Rule) -> i128 {
        let k = 1 + self.below(rule.most());
        let limit = match rule {
            U64 | U32 => power(7 * k).min(rule.largest() + 1),
            I64 => power(7 * k - 1).min(rule.largest() + 1),
        };
        let v = match self.below(4) {
            0 => limit - 2 + self.below(4) as i128,
            _ => self.next() as i128 % limit,
        };
        let v = if rule == I64 && self.below(2) == 0 {
            -v
        } else {
            v
        };
        v.clamp(rule.smallest(), rule.largest())
    }

    /// A number whose unsigned form has just so many bytes, at times the lowest or the highest.
    pub fn number_of(&mut self, count: usize) -> i128 {
        let least = if count == 1 {
            0
        } else {
            power(7 * (count - 1))
        };
        let above = power(7 * count).min(U64.largest() + 1);
        match self.below(8) {
            0 => least,
            1 => above - 1,
            _ => least + self.next() as i128 % (above - least),
        }
    }

    /// A place past the end of every buffer here, up to the largest there is.
    pub fn far(&mut self) -> u64 {
        match self.below(3) {
            0 => FAR - self.below(20) as u64,
            1 => (1 << 32) + self.below(20) as u64,
            _ => self.next() | 1 << 63,
        }
    }

    /// A form as it is, or with a bit turned over, a byte removed, one put in, one replaced, or one
    /// added that may be one too many.
    pub fn damaged(&mut self, mut bytes: Vec<u8>) -> Vec<u8> {
        let at = self.below(bytes.len());
        match self.below(6) {
            0 => bytes[at] ^= 1 << self.below(8),
            1 => {
                bytes.remove(at);
            }
            2 => {
                let byte = self.byte();
                bytes.insert(at, byte);
            }
            3 => bytes[at] = self.byte(),
            4 => self.lengthen(&mut bytes),
            _ => {}
        }
        bytes
    }

    /// Adds a byte that may be one too many.
    pub fn lengthen(&mut self, bytes: &mut Vec<u8>) {
        *bytes.last_mut().unwrap() |= 128;
        bytes.push([0, 127][self.below(2)]);
    }

    /// Bytes up to the greatest length, the last of them in and out of what the width allows.
    pub fn longest(&mut self, rule: Rule) -> Vec<u8> {
        let mut bytes: Vec<u8> = (1..rule.most()).map(|_| self.byte() | 128).collect();
        bytes.push([0, 1, 2, 15, 16, 63, 64, 126, 127, 128][self.below(10)]);
        bytes
    }

    /// Mostly one group: a form, a damaged one, one with a byte added, the longest, one longer than
    /// that; or any bytes.
    pub fn part(&mut self) -> Vec<u8> {
        let rule = [U64, I64][self.below(2)];
        match self.below(8) {
            0 => {
                let count = self.below(14);
                self.bytes(count)
            }
            1 => self.longest(rule),
            2 => {
                let count = 9 + self.below(5);
                let mut bytes: Vec<u8> = (0..count).map(|_| self.byte() | 128).collect();
                bytes.push(self.byte() % 128);
                bytes
            }
            3 => {
                let number = form(rule, self.number(rule));
                self.damaged(number)
            }
            4 => {
                let mut number = form(rule, self.number(rule));
                self.lengthen(&mut number);
                number
            }
            _ => form(rule, self.number(rule)),
        }
    }

    /// A block of just so many bytes: parts of all kinds, the last cut where the block ends.
    pub fn block(&mut self, count: usize) -> Vec<u8> {
        let mut block = Vec::new();
        while block.len() < count {
            block.extend(self.part());
        }
        block.truncate(count);
        block
    }

    /// A block of at most so many bytes that strict reading takes.
    pub fn list_block(&mut self, most: usize) -> Vec<u8> {
        let mut block = Vec::new();
        loop {
            let number = form(U64, self.number(U64));
            if block.len() + number.len() > most {
                return block;
            }
            block.extend(number);
        }
    }
}
