//! Compares the compiled program `intake` with a second reading of messages, written from documents 01 and 02 and sharing nothing
//! with the proved one: values are taken apart as binary32 fields and rounded in 128-bit integers. Every message that is sent
//! is damaged or bent towards an edge in some way; the seed is printed, and another may be given.
//!
//! usage: messages PROGRAM COUNT [SEED]

use std::cmp::Ordering;
use std::io::{Read, Write};
use std::process::{Command, Stdio};

struct Random(u64);

impl Random {
    fn next(&mut self) -> u64 {
        self.0 ^= self.0 << 13;
        self.0 ^= self.0 >> 7;
        self.0 ^= self.0 << 17;
        self.0.wrapping_mul(0x2545_f491_4f6c_dd1d)
    }

    fn below(&mut self, n: u64) -> u64 {
        (self.next() >> 11) % n
    }

    fn pick(&mut self, from: &[f64]) -> f64 {
        from[self.below(from.len() as u64) as usize]
    }
}

/// `times` times the value of a finite binary32 pattern, to the nearest whole number, on an exact half to the even one; and whether it
/// was one.
fn rounded(bits: u32, times: u128) -> (i128, bool) {
    let field = (bits >> 23 & 0xff) as i32;
    let fraction = (bits & 0x7f_ffff) as u128;
    let (digits, exponent) = if field == 0 { (fraction, -149) } else { (fraction | 1 << 23, field - 150) };
    let size = digits * times;
    let (whole, half) = if exponent >= 60 {
        (1 << 90, false) // beyond every limit
    } else if exponent >= 0 {
        (size << exponent, false)
    } else if exponent <= -64 {
        (0, false)
    } else {
        let down = 1u128 << -exponent;
        let (below, rest) = (size / down, size % down);
        match (2 * rest).cmp(&down) {
            Ordering::Less => (below, false),
            Ordering::Greater => (below + 1, false),
            Ordering::Equal => (below.next_multiple_of(2), true),
        }
    };
    (if bits >> 31 == 1 { -(whole as i128) } else { whole as i128 }, half)
}

/// The line that the documents ask for.
fn expected(m: &[u8], mm_hg: bool) -> String {
    if m.len() != 16 {
        return "refused 1".into();
    }
    let word = |at: usize| u32::from_le_bytes([m[at], m[at + 1], m[at + 2], m[at + 3]]);
    let (channel, minute, x, y) = (m[0], word(4), word(8), word(12));
    let infinite = |bits: u32| bits >> 23 & 0xff == 0xff;
    if channel > 5 {
        return "refused 2".into();
    }
    let two = channel == 2 || channel == 3;
    if m[2] != 0 || m[3] != 0 || (channel != 5 && m[1] != 0) || (!two && m[12..] != [0; 4]) {
        return "refused 3".into();
    }
    if m[1] > 2 {
        return "refused 4".into();
    }
    if minute > 16_777_215 {
        return "refused 5".into();
    }
    if infinite(x) || infinite(y) {
        return "refused 6".into();
    }
    let (low, high) = match channel {
        0 if mm_hg => (6400, 8250),
        0 => (8500, 11000),
        1 => (-400, 600),
        2 => (0, 750),
        3 => (0, 400),
        _ => (-400, 500),
    };
    let (first, _) = rounded(x, 10);
    let (angle, _) = rounded(y, 1);
    if first < low || first > high || two && !(0..=360).contains(&angle) {
        return "refused 7".into();
    }
    if two {
        format!("{channel} {minute} {first} {}", angle % 360)
    } else if channel == 5 {
        format!("{channel} {minute} {first} {}", m[1])
    } else {
        format!("{channel} {minute} {first}")
    }
}

/// A value near something that matters: a limit, half a tenth, half a degree, zero; or any pattern at all.
fn value(r: &mut Random) -> u32 {
    let near = match r.below(8) {
        0 => return r.next() as u32,
        1 => return (r.next() as u32) & 0x8000_0000 | [0, 1, 0x7f_ffff, 0x80_0000, 0x7f7f_ffff, 0x7f80_0000, 0x7fc0_0000][r.below(7) as usize],
        2 => r.pick(&[850.0, 1100.0, 640.0, 825.0, -40.0, 60.0, 50.0, 75.0, 40.0, 360.0, 0.0]) + r.below(5) as f64 * 0.05 - 0.1,
        3 => r.below(250) as f64 * 0.05 - 2.0,
        4 => r.below(724) as f64 * 0.5 - 1.0,
        5 => 640.0 + r.below(9300) as f64 * 0.05,
        6 => r.below(1_100_000) as f64 * 0.001,
        _ => r.below(100_000) as f64 * 0.001 - 45.0,
    };
    let bits = (near as f32).to_bits();
    bits.wrapping_add(r.below(3) as u32).wrapping_sub(1)
}

fn message(r: &mut Random) -> [u8; 16] {
    let mut m = [0u8; 16];
    m[0] = if r.below(20) == 0 { r.next() as u8 } else { r.below(6) as u8 };
    let minute = match r.below(20) {
        0 => r.next() as u32,
        1 => 16_777_214 + r.below(4) as u32,
        _ => r.below(10_000) as u32,
    };
    m[4..8].copy_from_slice(&minute.to_le_bytes());
    m[8..12].copy_from_slice(&value(r).to_le_bytes());
    if m[0] == 2 || m[0] == 3 || r.below(20) == 0 {
        m[12..].copy_from_slice(&value(r).to_le_bytes());
    }
    if m[0] == 5 || r.below(20) == 0 {
        m[1] = if r.below(8) == 0 { r.next() as u8 } else { r.below(4) as u8 };
    }
    if r.below(10) == 0 {
        m[r.below(16) as usize] ^= 1 << r.below(8);
    }
    m
}

/// Whether a value of a message is an exact half, of a tenth or of a degree.
fn has_half(m: &[u8]) -> bool {
    let word = |at: usize| u32::from_le_bytes([m[at], m[at + 1], m[at + 2], m[at + 3]]);
    rounded(word(8), 10).1 || rounded(word(12), 1).1
}

/// How many lines were compared, or the first that differs. Messages that are kept and have a half are counted by channel.
fn compare(program: &str, unit: &str, sent: &[u8], halves: &mut [usize; 6]) -> Result<usize, String> {
    let mut child = Command::new("tests/x86")
        .args([program, unit])
        .stdin(Stdio::piped())
        .stdout(Stdio::piped())
        .spawn()
        .map_err(|e| format!("{program}: {e}"))?;
    let mut input = child.stdin.take().unwrap();
    let bytes = sent.to_vec();
    let feeder = std::thread::spawn(move || input.write_all(&bytes));
    let mut text = String::new();
    child.stdout.take().unwrap().read_to_string(&mut text).map_err(|e| e.to_string())?;
    feeder.join().unwrap().map_err(|e| e.to_string())?;
    child.wait().map_err(|e| e.to_string())?;
    let mut lines = text.lines();
    let mut count = 0;
    for m in sent.chunks(16) {
        let wants = expected(m, unit == "mmHg");
        let says = lines.next().unwrap_or("nothing");
        if says != wants {
            return Err(format!("{unit} {m:02x?}: the program says '{says}', the documents '{wants}'"));
        }
        count += 1;
        if !wants.starts_with("refused") && has_half(m) {
            halves[usize::from(m[0])] += 1;
        }
    }
    match lines.next() {
        None => Ok(count),
        Some(more) => Err(format!("{unit}: a line too many, '{more}'")),
    }
}

fn main() {
    let words: Vec<String> = std::env::args().collect();
    let count: usize = words[2].parse().expect("COUNT is a number");
    let seed: u64 = words.get(3).map_or(20_261_115, |w| w.parse().expect("SEED is a number"));
    let mut r = Random(seed.max(1));
    let mut total = 0;
    let mut halves = [0; 6];
    for unit in ["hPa", "mmHg"] {
        let mut sent: Vec<u8> = (0..count).flat_map(|_| message(&mut r)).collect();
        sent.truncate(sent.len() - r.below(15) as usize - 1);
        match compare(&words[1], unit, &sent, &mut halves) {
            Ok(n) => total += n,
            Err(e) => {
                eprintln!("messages: seed {seed}: {e}");
                std::process::exit(1);
            }
        }
    }
    if halves.contains(&0) {
        eprintln!("messages: seed {seed}: no half was compared on some channel: {halves:?}");
        std::process::exit(1);
    }
    println!("messages: {total} compared, 0 differ; halves kept, by channel: {halves:?} (seed {seed})");
}
