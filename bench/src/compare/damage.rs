//! Damaged bytes.

use super::maker::Maker;

impl Maker {
    /// Some bytes are turned, lost, cut, put in or told twice.
    pub fn damage(&mut self, bytes: &mut Vec<u8>) {
        for _ in 0..1 + self.random.below(3) {
            if bytes.is_empty() {
                bytes.push(self.random.draw() as u8);
                continue;
            }
            let at = self.random.place(bytes.len());
            match self.random.below(7) {
                0..=1 => bytes[at] ^= 1 << self.random.below(8),
                2 => bytes[at] = self.random.draw() as u8,
                3 => {
                    let end = (at + 1 + self.random.place(40)).min(bytes.len());
                    bytes.drain(at..end);
                }
                4 => bytes.truncate(at),
                5 => {
                    let more = (0..1 + self.random.place(9)).map(|_| self.random.draw() as u8);
                    let more: Vec<u8> = more.collect();
                    bytes.splice(at..at, more);
                }
                _ => {
                    let end = (at + 60).min(bytes.len());
                    let again = bytes[at..end].to_vec();
                    bytes.extend(again);
                }
            }
        }
    }
}
