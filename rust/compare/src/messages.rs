//! Messages: random, damaged, and bent towards every edge of a value. Each is sent beside good readings of the other channels, so
//! that the questions then show what was kept of it. Every state on every channel. Messages that are repeated or late, by every edge
//! of how late. And silences of every length.

use crate::pair::{barometer, message, not_later, tenths, Chosen, Pair, LAST};
use crate::random::Random;
use crate::tally::Tally;

/// What is sent on the channels that are not tried: the two values of a good message.
const FIRST: [f32; 6] = [1000.0, 12.4, 8.0, 10.0, 20.0, 15.0];
const SECOND: [f32; 6] = [0.0, 0.0, 40.0, 90.0, 0.0, 0.0];

fn good(channel: u8, minute: u32, mm_hg: bool) -> [u8; 16] {
    let first = if channel == 0 && mm_hg {
        750.0
    } else {
        FIRST[channel as usize]
    };
    message(channel, minute, first, SECOND[channel as usize])
}

/// The limits of a channel's first value, in tenths.
pub fn limits(channel: u8, mm_hg: bool) -> (i32, i32) {
    match channel {
        0 => barometer(mm_hg),
        1 => (-400, 600),
        2 => (0, 750),
        3 => (0, 400),
        _ => (-400, 500),
    }
}

/// The pattern next to this one, or the same.
fn beside(value: f64, r: &mut Random) -> u32 {
    (value as f32)
        .to_bits()
        .wrapping_add(r.below(5) as u32)
        .wrapping_sub(2)
}

/// A binary32 pattern for a value of tenths between limits: inside, at half a tenth, at a limit and half a tenth beside it,
/// subnormal, huge, infinite, not a number, or any pattern at all.
fn first_value(r: &mut Random, (low, high): (i32, i32)) -> u32 {
    match r.below(16) {
        0 => r.next() as u32,
        1 => {
            let sign = (r.next() as u32) & 0x8000_0000;
            sign | r.pick(&[
                0,
                1,
                2,
                0x7f_fffe,
                0x7f_ffff,
                0x80_0000,
                0x80_0001,
                0x7f7f_ffff,
                0x7f80_0000,
                0x7f80_0001,
                0x7fc0_0000,
                0x7fff_ffff,
            ])
        }
        2 => (r.next() as u32) & 0x807f_ffff,
        3 => {
            let limit = f64::from(r.pick(&[low, high])) / 10.0;
            beside(limit + r.pick(&[-0.1, -0.05, 0.0, 0.05, 0.1]), r)
        }
        4 | 5 => {
            let tenth = f64::from(r.within(low, high)) / 10.0;
            beside(tenth + 0.05, r)
        }
        6 => beside(f64::from(r.within(-20, 20)) * 0.05, r),
        7 => beside(
            r.pick(&[
                1e-3,
                -1e-3,
                429_496_729.5,
                1e9,
                -1e9,
                3.4e38,
                1e-38,
                0.049_999_9,
            ]),
            r,
        ),
        _ => ((f64::from(r.within(low, high)) / 10.0) as f32).to_bits(),
    }
}

/// The same for a direction in degrees.
fn second_value(r: &mut Random) -> u32 {
    match r.below(12) {
        0 => first_value(r, (0, 3600)),
        1 => beside(
            r.pick(&[
                -1.0, -0.5, -0.49, -0.0, 0.0, 0.49, 0.5, 359.49, 359.5, 360.0, 360.49, 360.5, 361.0,
            ]),
            r,
        ),
        2 | 3 => beside(f64::from(r.within(0, 360)) + 0.5, r),
        4 => beside(f64::from(r.within(0, 720)) * 0.5, r),
        _ => (r.within(0, 360) as f32).to_bits(),
    }
}

fn tried(r: &mut Random, channel: u8, minute: u32, mm_hg: bool) -> Vec<u8> {
    let state = r.pick(&[0.0, 0.0, 1.0, 2.0]);
    let mut m = message(channel, minute, 0.0, state);
    m[8..12].copy_from_slice(&first_value(r, limits(channel, mm_hg)).to_le_bytes());
    if channel == 2 || channel == 3 || r.once_in(30) {
        m[12..].copy_from_slice(&second_value(r).to_le_bytes());
    }
    let mut m = m.to_vec();
    match r.below(24) {
        0 => m[r.below(16) as usize] ^= 1 << r.below(8),
        1 => m[r.below(4) as usize] = r.next() as u8,
        2 => m[4..8].copy_from_slice(
            &r.pick(&[0, 16_777_214, 16_777_215, 16_777_216, u32::MAX, 1 << 31])
                .to_le_bytes(),
        ),
        3 => {
            for _ in 0..r.below(6) {
                m[r.below(16) as usize] = r.next() as u8;
            }
        }
        4 => m.truncate(r.below(16) as usize),
        5 => m.extend((0..=r.below(20)).map(|_| r.next() as u8)),
        6 => m[1] = r.pick(&[0, 1, 2, 3, 255]),
        _ => {}
    }
    m
}

pub fn compare(tally: &mut Tally, r: &mut Random, rounds: u64) {
    for _ in 0..rounds {
        let mm_hg = r.once_in(2);
        let mut chosen = Chosen::plain(mm_hg);
        chosen.coefficient = r.pick(&[-50, 50, 0]);
        let mut pair = Pair::open(tally, &chosen).expect("plain settings open");
        let mut minute = r.pick(&[0, 200, 16_777_000]);
        for _ in 0..40 {
            minute += r.pick(&[1, 1, 1, 2, 180]);
            if minute > LAST {
                break;
            }
            let channel = r.below(6) as u8;
            for other in (0..6).filter(|&c| c != channel) {
                pair.hear(tally, "messages, good", &good(other, minute, mm_hg));
            }
            let m = tried(r, channel, minute, mm_hg);
            pair.hear(tally, "messages, tried", &m);
            pair.ask_all(tally, "messages, what was kept", minute);
        }
    }
}

/// A good message in frost, where water, ice and a state unknown each have a humidity of their own.
fn frosty(channel: u8, minute: u32) -> [u8; 16] {
    match channel {
        4 => message(4, minute, -4.8, 0.0),
        5 => message(5, minute, -5.0, 0.0),
        _ => good(channel, minute, false),
    }
}

/// What is wrong besides the state: nothing, or what refusal 3, 5, 6 or 7 is for.
const BESIDES: [fn(&mut [u8; 16]); 5] = [
    |_| {},
    |m| m[3] = 1,
    |m| m[7] = 1,
    |m| m[8..12].copy_from_slice(&f32::NAN.to_le_bytes()),
    |m| m[8..12].copy_from_slice(&2000.0f32.to_le_bytes()),
];

/// Every state on every channel.
pub fn states(tally: &mut Tally) {
    let mut pair = Pair::open(tally, &Chosen::plain(false)).expect("plain settings open");
    let mut minute = 0;
    for tried in 0..6 {
        for (state, besides) in (0..=255).flat_map(|state| BESIDES.map(|b| (state, b))) {
            minute += 1;
            for channel in 0..6 {
                let mut m = frosty(channel, minute);
                if channel == tried {
                    m[1] = state;
                    besides(&mut m);
                }
                pair.hear(tally, "messages, states", &m);
            }
            pair.ask_all(tally, "messages, what was kept", minute);
            pair.forget_but(6 * 260);
        }
    }
}

/// Each channel has a newest of its own. Then come messages of that minute, of earlier ones and now and then of a later one; some are
/// wrong besides, and are no newest.
pub fn repeated_or_late(tally: &mut Tally, r: &mut Random, rounds: u64) {
    for _ in 0..rounds {
        let mm_hg = r.once_in(2);
        let mut pair = Pair::open(tally, &Chosen::plain(mm_hg)).expect("plain settings open");
        let mut newest = [None; 6];
        for _ in 0..40 {
            let channel = r.below(6) as u8;
            let minute = match newest[channel as usize] {
                None => r.pick(&[0, 1, 2, 255, 256, 257, 1_000, 65_536, LAST - 1, LAST]),
                Some(newest) if r.once_in(8) => newest + r.pick(&[1, 2, 180, 256, 70_000]),
                Some(newest) => not_later(r, newest),
            };
            let m = if r.once_in(4) {
                tried(r, channel, minute, mm_hg)
            } else {
                good(channel, minute, mm_hg).to_vec()
            };
            if pair.hear(tally, "messages, repeated or late", &m) {
                let minute = u32::from_le_bytes([m[4], m[5], m[6], m[7]]);
                newest[m[0] as usize] = Some(minute);
                pair.ask_all(tally, "messages, what was kept", minute);
            }
        }
    }
}

/// The minutes that a channel keeps, and the longest silence.
const KEPT: u32 = reference::store::KEPT as u32;
const SILENT: u32 = 1_100;

/// The barometer sent each minute, falls silent and sends again: silences of every length, begun at every place of its window. Each
/// minute that can still be kept is then asked for, and one on either side; the wheelhouse had its reading until the silence, so a
/// minute that is left is answered with its own pressure.
pub fn silences(tally: &mut Tally) {
    for place in 0..KEPT {
        let mut full = Pair::open(tally, &Chosen::plain(false)).expect("plain settings open");
        let newest = 4 * KEPT + place;
        for minute in newest - (KEPT - 1)..=newest {
            full.hear(
                tally,
                "silences, heard",
                &tenths(0, minute, 9_000 + (minute % 1_000) as i32, 0),
            );
            full.hear(tally, "silences, heard", &good(1, minute, false));
        }
        let mut pair = full.clone();
        for silent in 0..=SILENT {
            pair.back_to(&full);
            let minute = newest + silent + 1;
            pair.hear(tally, "silences, heard", &good(0, minute, false));
            for asked in minute - KEPT..=minute + 1 {
                pair.pressure(tally, "silences, asked", asked);
            }
        }
    }
}
