//! Document 01's lines on frames, texts, times and lines.
use super::*;

pub const CHECKS: &[Check] = &[
    ("the worked example", || {
        let input = "00\n0200000000000000000000010141\n030000000000000005\n01016101720200010000000000000005\n05";
        let want = "000001\n0000000000000000000000\n000001\n0100\n000000\n000001\n01040161\n030000\n";
        let mut run = Run::fresh();
        let answers: Vec<Vec<u8>> = input.split('\n').map(|l| run.engine.line(l.as_bytes()).lines()).collect();
        answers.concat() == want.as_bytes()
    }),
    ("text of 32 bytes passes, 33 gives 3; a reason of 64 passes, 65 gives 3", || {
        let mut ok = true;
        for (n, want) in [(0usize, 0), (32, 0), (33, 3), (255, 3)] {
            let mut f = vec![1, n as u8];
            f.extend(vec![b'x'; n]);
            f.extend([1, b'r', 2, 0, 0]);
            ok &= Run::fresh().bytes(&f).number == want;
        }
        for (n, want) in [(64usize, 0), (65, 3)] {
            let mut f = vec![2, 0, 0, 0, 0, 0, 0, 0, 9, 4, 5, n as u8];
            f.extend(vec![b'x'; n]);
            ok &= Run::fresh().bytes(&f).number == want;
        }
        ok
    }),
    ("RFC 3629's examples, and what it shuts out", || {
        let t = |text: &[u8]| {
            let mut f = vec![1, text.len() as u8];
            f.extend(text);
            f.extend([1, b'r', 2, 0, 0]);
            Run::fresh().bytes(&f).number
        };
        let good: [&[u8]; 12] = [
            b"\x41\xe2\x89\xa2\xce\x91\x2e",
            b"\xed\x95\x9c\xea\xb5\xad\xec\x96\xb4",
            b"\xe6\x97\xa5\xe6\x9c\xac\xe8\xaa\x9e",
            b"\xef\xbb\xbf\xf0\xa3\x8e\xb4",
            b"\x00",
            b"\x7f",
            b"\xc2\x80",
            b"\xdf\xbf",
            b"\xe0\xa0\x80",
            b"\xed\x9f\xbf\xee\x80\x80",
            b"\xf0\x90\x80\x80",
            b"\xf4\x8f\xbf\xbf",
        ];
        let bad: [&[u8]; 14] = [
            b"\xc0\x80",
            b"\x2f\xc0\xae\x2e\x2f",
            b"\xc1\xbf",
            b"\xe0\x9f\xbf",
            b"\xed\xa0\x80",
            b"\xed\xbf\xbf",
            b"\xed\xa1\x8c\xed\xbe\xb4",
            b"\xf0\x8f\xbf\xbf",
            b"\xf4\x90\x80\x80",
            b"\xf5\x80\x80\x80",
            b"\xff",
            b"\x80",
            b"\xe2\x89",
            b"\xf0\x9f\x98",
        ];
        good.iter().all(|g| t(g) == 0) && bad.iter().all(|b| t(b) == 3)
    }),
    ("timestamps: the ends pass, one beyond gives 3", || {
        let t = |ms: i64| Run::fresh().put(ticks(ms)).number;
        t(200_000_000_000_000) == 0
            && t(-200_000_000_000_000) == 0
            && t(200_000_000_000_001) == 3
            && t(-200_000_000_000_001) == 3
            && t(0) == 0
            && t(-1) == 0
            && t(i64::MIN) == 3
            && t(i64::MAX) == 3
    }),
    ("eight attendees pass, nine give 3; eight changes pass, nine give 3; left-over bytes give 3", || {
        let mut ok = true;
        for (n, want) in [(8usize, 0u8), (9, 3)] {
            // By hand: the derived writer holds to the limit.
            let mut f = vec![2, 0, 0, 0, 0, 0, 0, 0, 9, 0, n as u8];
            (0..n).for_each(|_| f.extend([1, 1, b'r']));
            f.extend([1, 0]);
            ok &= Run::fresh().bytes(&f).number == want;
            f.push(0);
            ok &= Run::fresh().bytes(&f).number == 3;
            let mut f = vec![1, 1, b'e', 1, b'r', 1];
            for side in 0..2 {
                f.extend([0, 0, 0, 0, 0, 0, 0, 0, 0, 0, 0]);
                let n = if side == 0 { 0 } else { n };
                f.push(n as u8);
                (0..n).for_each(|_| f.extend([1, b'a', 0, 0, 0, 0]));
                f.extend([0, 0, 0, 0, 0, 0, 0, 0, 0, 0, 0, 0, 0]);
            }
            f.extend([0, 0]);
            ok &= Run::fresh().bytes(&f).number == want;
        }
        ok
    }),
    ("lines: 16,384 digits are looked at, more give 3; odd, empty and other bytes give 3", || {
        let f = |n: usize| frame(&vec![b'0'; n]);
        f(16_384).is_some()
            && f(16_386).is_none()
            && f(16_385).is_none()
            && f(3).is_none()
            && f(0).is_none()
            && frame(b"0A").is_none()
            && frame(b"00\r").is_none()
            && frame(b" 00").is_none()
            && frame(b"0a") == Some(vec![10])
    }),
];
