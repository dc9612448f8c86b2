//! The proved library, through its static library, beside the independent implementation: the same inputs have to get the same
//! answers. Stops at the first difference with the input that makes it.
//!
//! usage: compare [--long] [--only KIND] [SEED]

mod blocks;
mod dial;
mod files;
mod halves;
mod heights;
mod humidity;
mod library;
mod messages;
mod pair;
mod random;
mod tally;
mod watches;
mod wind;

use random::Random;
use tally::Tally;

fn main() {
    let (mut long, mut only, mut seed) = (false, None, 20_261_115);
    let mut words = std::env::args().skip(1);
    while let Some(word) = words.next() {
        match word.as_str() {
            "--long" => long = true,
            "--only" => only = words.next(),
            number => {
                seed = number
                    .parse()
                    .expect("usage: compare [--long] [--only KIND] [SEED]")
            }
        }
    }
    println!(
        "compare: seed {seed}{}",
        if long { ", the long run" } else { "" }
    );
    let times = if long { 100 } else { 10 };
    let mut tally = Tally::new(seed, only);
    let mut r = Random::new(seed);
    watches::openings(&mut tally, &mut r, 20_000 * times);
    messages::compare(&mut tally, &mut r, 2_500 * times);
    messages::states(&mut tally);
    halves::compare(&mut tally);
    messages::repeated_or_late(&mut tally, &mut r, 400 * times);
    messages::silences(&mut tally);
    watches::compare(&mut tally, &mut r, 100 * times);
    heights::compare(&mut tally);
    wind::compare(&mut tally, &mut r, 100_000 * times, 400 * times);
    dial::certificates(&mut tally);
    dial::edges(&mut tally, &mut r, times);
    dial::lines(&mut tally, &mut r, times);
    dial::limits(&mut tally);
    dial::directions(&mut tally);
    dial::silences(&mut tally);
    humidity::dew_points(&mut tally);
    humidity::pairs(&mut tally);
    files::compare(&mut tally, &mut r, 10_000 * times);
    files::damage(&mut tally, &mut r, 4 * times);
    library::placing(&mut tally, &mut r, 4_000 * times);
    library::sentences(&mut tally, &mut r, 20_000 * times);
    blocks::compare(&mut tally, &mut r, 1_000 * times);
    blocks::other_origin(&mut tally, &mut r, 1_000 * times);
    blocks::other_anemometers(&mut tally, &mut r, 2_000 * times);
    blocks::directions(&mut tally);
    tally.print();
}
