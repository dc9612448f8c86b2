//! Checks that each entry of the sine table is the nearest millionth to the true sine, by arithmetic of its own.
//!
//! The sine of i half degrees is the imaginary part of w^i, where w = cos(0.5°) + j sin(0.5°). Its two numbers are enclosed by
//! Taylor's series of pi/360, pi being enclosed by Machin's formula, and the powers by exact products of intervals. All are whole
//! numbers of 2^-96 with the error carried along as the interval's width: no floating point, no table, no library of sines.
//!
//! usage: sine FILE..    (files that hold the 181 numbers: crates/sine/specs/Sines.antt, crates/sine/src/lib.rt)

use std::process::exit;

const BITS: u32 = 96;

/// A number of 2^-96 that lies between two whole numbers of them.
#[derive(Clone, Copy)]
struct Between {
    low: i128,
    high: i128,
}

/// a · b / 2^96, rounded down. Both are at most 2^98 in size, so they are multiplied by halves of 49 bits and joined exactly.
fn product_down(a: i128, b: i128) -> i128 {
    let part = 1i128 << 49;
    let (a1, a0) = (a.div_euclid(part), a.rem_euclid(part));
    let (b1, b0) = (b.div_euclid(part), b.rem_euclid(part));
    // a·b = high · 2^98 + middle · 2^49 + low; divided by 2^96 piece by piece, the remainders kept
    let (high, middle, low) = (a1 * b1, a1 * b0 + a0 * b1, a0 * b0);
    let below = 1i128 << (BITS - 49);
    let rest = middle.rem_euclid(below) * part + low;
    high * 4 + middle.div_euclid(below) + rest.div_euclid(1i128 << BITS)
}

fn product_up(a: i128, b: i128) -> i128 {
    -product_down(-a, b)
}

impl Between {
    fn whole(n: i128) -> Between {
        Between { low: n << BITS, high: n << BITS }
    }

    fn plus(self, b: Between) -> Between {
        Between { low: self.low + b.low, high: self.high + b.high }
    }

    fn minus(self, b: Between) -> Between {
        Between { low: self.low - b.high, high: self.high - b.low }
    }

    fn times(self, b: Between) -> Between {
        let ends = [(self.low, b.low), (self.low, b.high), (self.high, b.low), (self.high, b.high)];
        Between {
            low: ends.iter().map(|&(x, y)| product_down(x, y)).min().unwrap(),
            high: ends.iter().map(|&(x, y)| product_up(x, y)).max().unwrap(),
        }
    }

    fn by(self, n: i128) -> Between {
        Between { low: self.low * n, high: self.high * n }
    }

    fn over(self, n: i128) -> Between {
        Between { low: self.low.div_euclid(n), high: -(-self.high).div_euclid(n) }
    }

    /// Widened by `by` units on both sides.
    fn wider(self, by: i128) -> Between {
        Between { low: self.low - by, high: self.high + by }
    }
}

/// The arctangent of 1 / n: 1/n - 1/(3n³) + 1/(5n⁵) - ..; terms fall and alternate, so what is left is no more than the next.
fn arctangent_of_one_over(n: i128) -> Between {
    let mut power = Between::whole(1).over(n);
    let mut sum = power;
    let mut k = 1;
    loop {
        power = power.over(n * n);
        k += 2;
        let term = power.over(k);
        if term.high <= 1 {
            return sum.wider(term.high);
        }
        sum = if k % 4 == 1 { sum.plus(term) } else { sum.minus(term) };
    }
}

/// x - x³/3! + .. (from 1) or 1 - x²/2! + .. (from 0), for x below 1; bounded as above.
fn series(x: Between, from: i128) -> Between {
    let mut term = if from == 1 { x } else { Between::whole(1) };
    let mut sum = term;
    let mut k = from;
    let mut minus = true;
    loop {
        term = term.times(x).over(k + 1).times(x).over(k + 2);
        k += 2;
        if term.high <= 1 {
            return sum.wider(2);
        }
        sum = if minus { sum.minus(term) } else { sum.plus(term) };
        minus = !minus;
    }
}

/// The sines of 0 to 180 half degrees, each enclosed.
fn sines() -> Vec<Between> {
    let pi = arctangent_of_one_over(5).by(16).minus(arctangent_of_one_over(239).by(4));
    let half_degree = pi.over(360);
    let (sine, cosine) = (series(half_degree, 1), series(half_degree, 0));
    let (mut s, mut c) = (Between::whole(0), Between::whole(1));
    let mut all = Vec::new();
    for _ in 0..=180 {
        all.push(s);
        (s, c) = (s.times(cosine).plus(c.times(sine)), c.times(cosine).minus(s.times(sine)));
    }
    all
}

/// Whether an entry lies strictly within half a millionth of every number of the interval.
fn is_nearest(entry: i128, sine: Between) -> bool {
    // 2 · 10^6 · sine lies strictly between 2 · entry - 1 and 2 · entry + 1
    let (low, high) = (sine.low * 2_000_000, sine.high * 2_000_000);
    (2 * entry - 1) << BITS < low && high < (2 * entry + 1) << BITS
}

/// The numbers of a file's table: of the list between `sines =` and `[]`, or of the const array between `SINES: [u32; 181] = [` and `]`.
fn numbers(text: &str) -> Vec<i128> {
    let between = |from: &str, to: &str| {
        let rest = text.split_once(from)?.1;
        Some(rest.split_once(to)?.0.to_string())
    };
    let list = between("sines =", "[]").or_else(|| between("SINES: [u32; 181] = [", "]")).unwrap_or_default();
    list.split(['∷', ',']).filter_map(|n| n.trim().parse().ok()).collect()
}

fn fail(say: String) -> ! {
    println!("sine: {say}");
    exit(1)
}

fn main() {
    let files: Vec<String> = std::env::args().skip(1).collect();
    if files.is_empty() {
        fail("usage: sine FILE..".into());
    }
    let sines = sines();
    let width = sines.iter().map(|s| s.high - s.low).max().unwrap();
    for file in &files {
        let text = std::fs::read_to_string(file).unwrap_or_else(|e| fail(format!("{file}: {e}")));
        let table = numbers(&text);
        if table.len() != 181 {
            fail(format!("{file} has {} entries, not 181", table.len()));
        }
        for (i, (&entry, &sine)) in table.iter().zip(&sines).enumerate() {
            if !is_nearest(entry, sine) {
                fail(format!("{file}: entry {i}, {entry}, is not the nearest millionth to the sine of {i} half degrees"));
            }
            // the check can fail: one more and one less are not the nearest
            if is_nearest(entry + 1, sine) || is_nearest(entry - 1, sine) {
                fail(format!("{file}: entry {i}: the check takes a number next to the nearest"));
            }
        }
    }
    println!(
        "sine: {} tables, 181 entries each the nearest millionth, one more and one less refused; sines to {width} of 2^-{BITS}",
        files.len()
    );
}
