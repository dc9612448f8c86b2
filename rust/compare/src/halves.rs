//! Messages whose values are exact halves, of a tenth or of a degree: each one that a channel's limits reach, and some beyond them, with
//! both signs, and the values next to it on either side. What is kept is asked for by its minute, since an answer can hide it.

use reference::message::{receive, Reading};
use reference::settings::Unit;
use zhitomrak::raw;

use crate::blocks;
use crate::messages::limits;
use crate::pair::{hear_line, independent_refusal, message, Chosen};
use crate::tally::{Answer, Tally, To};

/// A value with either sign, and its neighbours.
fn around(half: f32) -> impl Iterator<Item = f32> {
    [half, -half].into_iter().flat_map(|half| {
        let bits = half.to_bits();
        [bits - 1, bits, bits + 1].map(f32::from_bits)
    })
}

/// Ten times an odd quarter is a half: all that limits in tenths reach, and two beyond them.
fn half_tenths(most: i32) -> impl Iterator<Item = f32> {
    (0..most * 4 / 10 / 2 + 2).map(|n| (2 * n + 1) as f32 / 4.0)
}

/// All half degrees to 360.5, and two beyond.
fn half_degrees() -> impl Iterator<Item = f32> {
    (0..=362).map(|n| n as f32 + 0.5)
}

/// The figures that the proved side keeps of a channel's minute, as it tells them.
fn kept(block: &raw::Block, channel: u8, minute: u32) -> Answer {
    let told = raw::reading(block, channel.into(), minute);
    match told.refusal.number {
        0 => Answer::Given([told.first, told.second as i32, 0, 0, 0]),
        number => Answer::Refused(
            number,
            told.refusal.channel as usize,
            told.refusal.minute as usize,
        ),
    }
}

/// Those of the independent side.
fn keeps(reading: Reading) -> Answer {
    let (first, second) = match reading {
        Reading::Barometer(x) | Reading::Wheelhouse(x) | Reading::DryBulb(x) => (x, 0),
        Reading::ApparentWind(wind) => (wind.speed, wind.from_bow),
        Reading::ShipMotion(ship) => (ship.speed, ship.course),
        Reading::WetBulb(bulb) => (bulb.temperature, bulb.state as i16),
    };
    Answer::Given([first.into(), second.into(), 0, 0, 0])
}

struct Block {
    words: Box<raw::Block>,
    unit: Unit,
    minute: u32,
}

impl Block {
    fn open(mm_hg: bool) -> Block {
        let mut words = Box::new([0; raw::STORE_WORDS]);
        let number = blocks::open(&mut words, &Chosen::plain(mm_hg));
        assert_eq!(number, 0, "plain settings open");
        let unit = if mm_hg { Unit::MmHg } else { Unit::HPa };
        Block {
            words,
            unit,
            minute: 0,
        }
    }

    /// Sends a message of the next minute, and compares what is kept of it, or why nothing is.
    fn send(&mut self, tally: &mut Tally, channel: u8, first: f32, second: f32) {
        self.minute += 1;
        let m = message(channel, self.minute, first, second);
        let a = match raw::hear(&mut self.words, &m).number {
            0 => kept(&self.words, channel, self.minute),
            number => Answer::Refused(number, 0, 0),
        };
        let b = receive(&m, self.unit).map_or_else(independent_refusal, |m| keeps(m.reading));
        tally.answers_to(To::Message, "halves, kept", a, b, || hear_line(&m));
    }
}

pub fn compare(tally: &mut Tally) {
    for mm_hg in [false, true] {
        let mut block = Block::open(mm_hg);
        for channel in 0..6 {
            let (low, high) = limits(channel, mm_hg);
            let seconds: Vec<f32> = match channel {
                2 | 3 => half_degrees().flat_map(around).collect(),
                _ => vec![0.0],
            };
            for first in half_tenths(high.max(-low)).flat_map(around) {
                for &second in &seconds {
                    block.send(tally, channel, first, second);
                }
            }
        }
    }
}
