//! Readings that were struck out: a person may not change what came, and it stays in the journal; but a wrong entry, or a minute years
//! ahead, can be taken out of the reckoning. The watch then answers as if it had never come, and what was refused because of it is heard.
//!
//! The file `struck` of a watch has a line for each, `barometer 1082`: the first reading of that instrument and minute that would be
//! heard is passed over; of two lines the same, the first two.

use std::fs::File;
use std::path::Path;

use zhitomrak::Store;

use crate::fault::{cannot, say, Result};
use crate::files::{self, Old};
use crate::hand::{named, INSTRUMENTS};
use crate::journal::Sent;

/// The file's name.
pub const STRUCK: &str = "struck";

/// An instrument's channel by its number, and a minute.
pub type Place = (u32, u32);

/// What is struck out in a folder, in the order in which it was. A line that says nothing of the kind is told of.
pub fn read(folder: &Path) -> Result<Vec<Place>> {
    let path = folder.join(STRUCK);
    if !path.exists() {
        return Ok(Vec::new());
    }
    let bytes = files::read(&path, 1 << 20)?;
    let mut struck = Vec::new();
    for (number, line) in String::from_utf8_lossy(&bytes).lines().enumerate() {
        match place(line) {
            Some(place) => struck.push(place),
            None => say!(
                "{}, line {}: it strikes nothing out: {line}",
                path.display(),
                number + 1
            ),
        }
    }
    Ok(struck)
}

fn place(line: &str) -> Option<Place> {
    let (name, minute) = line.split_once(' ')?;
    Some((named(name)?.channel.number(), minute.parse().ok()?))
}

/// Changes what is struck out, whole or not at all; nobody else does meanwhile.
pub fn change(folder: &Path, change: impl FnOnce(&mut Vec<Place>)) -> Result<()> {
    let lock = File::open(folder).map_err(cannot("open", folder))?;
    lock.lock().map_err(cannot("lock", folder))?;
    files::clear_away(folder, STRUCK);
    let mut struck = read(folder)?;
    change(&mut struck);
    let line = |&(channel, minute): &Place| {
        format!(
            "{} {minute}\n",
            INSTRUMENTS[channel as usize % INSTRUMENTS.len()].name
        )
    };
    let text: String = struck.iter().map(line).collect();
    files::save(&folder.join(STRUCK), text.as_bytes(), Old::Replaced)
}

/// What is still to be passed over.
#[derive(Default)]
pub struct Struck {
    left: Vec<Place>,
}

impl Struck {
    pub fn new(struck: &[Place]) -> Struck {
        Struck {
            left: struck.to_vec(),
        }
    }

    /// Whether a line is to be passed over: it is of an instrument and a minute that are struck out, and would be heard.
    pub fn takes(&mut self, sent: &Sent, store: &Store) -> bool {
        if self.left.is_empty() {
            return false;
        }
        let place = match sent {
            Sent::Message { bytes, length: 16 } => (
                u32::from(bytes[0]),
                u32::from_le_bytes([bytes[4], bytes[5], bytes[6], bytes[7]]),
            ),
            Sent::Entry(entry) => (zhitomrak::Channel::ApparentWind.number(), entry.minute),
            _ => return false,
        };
        let found = self.left.iter().position(|&struck| struck == place);
        match found {
            Some(index) if sent.send(&mut store.clone()).is_ok() => {
                self.left.remove(index);
                true
            }
            _ => false,
        }
    }
}
