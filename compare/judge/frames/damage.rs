//! Damaged lines, and frames around the edges of what is one.
use super::Gen;
use super::values::LAST_TIME;
use crate::limited::{Input, Outcome, RequestId};
use crate::view::hex;

/// RFC 3629's examples, and bytes at and past the edges of what it allows.
pub const ODD_TEXTS: [&[u8]; 26] = [
    b"\x41\xe2\x89\xa2\xce\x91\x2e",
    b"\xed\x95\x9c\xea\xb5\xad\xec\x96\xb4",
    b"\xe6\x97\xa5\xe6\x9c\xac\xe8\xaa\x9e",
    b"\xef\xbb\xbf\xf0\xa3\x8e\xb4",
    b"\xc0\x80",
    b"\xc1\xbf",
    b"\xc2\x80",
    b"\xdf\xbf",
    b"\xe0\x9f\xbf",
    b"\xe0\xa0\x80",
    b"\xed\x9f\xbf",
    b"\xed\xa0\x80",
    b"\xed\xbf\xbf",
    b"\xee\x80\x80",
    b"\xef\xbf\xbf",
    b"\xf0\x8f\xbf\xbf",
    b"\xf0\x90\x80\x80",
    b"\xf4\x8f\xbf\xbf",
    b"\xf4\x90\x80\x80",
    b"\xf5\x80\x80\x80",
    b"\xff",
    b"\x80",
    b"\xc2",
    b"\xe2\x89",
    b"\xf0\x9f\x98",
    b"\xc2\x41",
];

impl Gen<'_> {
    pub(super) fn damage(&mut self) {
        let frame = self.good_frame();
        let line = match self.rng.below(18) {
            n @ 0..=9 => hex(&self.damaged_frame(n, frame)),
            15 => hex(&self.odd_text()),
            16 => hex(&self.edge_time()),
            17 => hex(&self.crowded_page()),
            n => return self.damaged_line(n, hex(&frame)),
        };
        self.raw(line.into_bytes());
    }

    /// The last frame or a new one.
    fn good_frame(&mut self) -> Vec<u8> {
        if self.rng.chance(50) {
            return self.last_frame.clone();
        }
        let input = match self.rng.below(4) {
            0 => Input::Edit(self.edit()),
            1 => {
                let request = self.view.in_flight.keys().next().copied().unwrap_or(RequestId::new(0));
                Input::Outcome { request, outcome: Outcome::Listed(self.page()) }
            }
            2 => Input::Tick { now: self.time() },
            _ => Input::Outcome { request: RequestId::new(self.view.next_request), outcome: self.any_outcome() },
        };
        serde::save(&input)
    }

    /// Cut short, lengthened, with a byte changed or taken out.
    fn damaged_frame(&mut self, how: usize, mut f: Vec<u8>) -> Vec<u8> {
        match how {
            0 => f.truncate(self.rng.below(f.len() + 1)),
            1 => f.push(self.rng.next() as u8),
            9 => {
                f.remove(self.rng.below(f.len()));
            }
            _ => {
                let at = self.rng.below(f.len());
                f[at] = match self.rng.below(6) {
                    0 => f[at].wrapping_add(1),
                    1 => f[at].wrapping_sub(1),
                    2 => f[at] ^ 0x80,
                    3 => 33,
                    4 => 9,
                    _ => self.rng.next() as u8,
                };
            }
        }
        f
    }

    /// In capitals, of odd length, empty, with another byte, about as long as a line may be or longer.
    fn damaged_line(&mut self, how: usize, digits: String) {
        let mut line = digits.into_bytes();
        match how {
            10 => line.make_ascii_uppercase(),
            11 => {
                line.pop();
            }
            12 => line.clear(),
            13 => {
                let at = self.rng.below(line.len());
                line[at] = *self.rng.pick(&[b' ', b'\r', b'g', b'/', b':', b'`', b'G', 0, 0xff, b'F']);
            }
            _ => line.resize(*self.rng.pick(&[16_382, 16_384, 16_385, 16_386, 20_000]), b'0'),
        }
        self.raw(line);
    }

    /// A tick at or around an end of the range of times.
    fn edge_time(&mut self) -> Vec<u8> {
        let ends = [LAST_TIME, LAST_TIME + 1, -LAST_TIME, -LAST_TIME - 1, i64::MIN, i64::MAX, 0, -1];
        let mut f = vec![3];
        f.extend(self.rng.pick(&ends).to_be_bytes());
        f
    }

    /// A page of seven to nine changes whose last case may be unknown.
    fn crowded_page(&mut self) -> Vec<u8> {
        let mut f = vec![2];
        f.extend(self.view.next_request.to_be_bytes());
        f.push(0);
        let n = 7 + self.rng.below(3);
        f.push(n as u8);
        for _ in 0..n {
            f.extend([1, 1, b'a']);
        }
        f.extend([self.rng.below(3) as u8, 1, b'c']);
        f
    }

    /// A delete whose id is some odd text.
    fn odd_text(&mut self) -> Vec<u8> {
        let mut t = self.rng.pick(&ODD_TEXTS).to_vec();
        if self.rng.chance(50) {
            let n = *self.rng.pick(&[30usize, 31, 32, 33, 34]);
            while t.len() < n {
                t.insert(0, b'p');
            }
        }
        let mut f = vec![1, t.len() as u8];
        f.extend(&t);
        f.extend([1, b'r', 2, 0, 0]);
        f
    }
}
