//! Messages among bytes that come. A message has no mark of its beginning, so bytes are cut at 16; but where one is lost, or a device is
//! joined in the middle of a message, every later cut would be wrong. So where three cuts in a row are no message, and three some bytes
//! further on are, those bytes are taken for the rest of a message that was cut. Every byte is handed on, in its order.

use zhitomrak::{Refused, Settings, Store};

use crate::journal::Sent;

const BYTES: usize = 16;

/// How many cuts have to be messages, or none, for the cut to be moved.
const RUN: usize = 3;

/// How many bytes decide that.
const LOOK: usize = RUN * BYTES + BYTES - 1;

/// Bytes that came, and are not handed on yet.
pub struct Frames {
    bytes: Vec<u8>,
    /// A store that says what is a message. What it has heard does not matter.
    judge: Box<Store>,
}

/// What was made of the bytes.
#[derive(Default)]
pub struct Cut {
    pub sent: Vec<Sent>,
    /// How many bytes were none of a message, each time that the cut was moved.
    pub slips: Vec<usize>,
}

impl Frames {
    /// For a station of these settings; they are such that a store was opened with.
    pub fn new(settings: &Settings) -> Frames {
        let judge = Store::open(settings).unwrap_or(Store::from_words([0; Store::WORDS]));
        Frames {
            bytes: Vec::new(),
            judge: Box::new(judge),
        }
    }

    /// Whether the 16 bytes at a place are a message: whether it was sent before, or came late, does not matter.
    fn is_message(&mut self, at: usize) -> bool {
        match self.bytes.get(at..at + BYTES) {
            Some(bytes) => matches!(
                self.judge.hear(bytes),
                Ok(()) | Err(Refused::Repeated | Refused::Late { .. })
            ),
            None => false,
        }
    }

    /// How many bytes stand before the next message, where the cut at a place is wrong.
    fn slip(&mut self, at: usize) -> Option<usize> {
        let none = (0..RUN).all(|n| !self.is_message(at + n * BYTES));
        let mut found = (1..BYTES)
            .filter(|slip| none && (0..RUN).all(|n| self.is_message(at + slip + n * BYTES)));
        found.next()
    }

    /// Whether any 16 bytes of those that came are a message.
    pub fn has_any(&mut self) -> bool {
        (0..self.bytes.len()).any(|at| self.is_message(at))
    }

    /// How many bytes wait.
    pub fn waiting(&self) -> usize {
        self.bytes.len()
    }

    pub fn push(&mut self, bytes: &[u8]) {
        self.bytes.extend_from_slice(bytes);
    }

    /// What the bytes are by now. Where nothing more comes, for now or for good, bytes that are too few for a message are handed on
    /// too; otherwise they wait, and so does what may be a wrong cut until that can be decided.
    pub fn take(&mut self, over: bool) -> Cut {
        let mut cut = Cut::default();
        let mut at = 0;
        while at < self.bytes.len() {
            let left = self.bytes.len() - at;
            let length = if self.is_message(at) {
                BYTES
            } else if let Some(slip) = self.slip(at) {
                cut.slips.push(slip);
                slip
            } else if !over && left < LOOK {
                break;
            } else {
                left.min(BYTES)
            };
            cut.sent
                .extend(Sent::messages(&self.bytes[at..at + length]));
            at += length;
        }
        self.bytes.drain(..at);
        cut
    }
}

#[cfg(test)]
mod tests {
    use super::*;
    use zhitomrak::Message;

    fn settings() -> Settings {
        Settings {
            certificate: [(8500, 0), (11000, 0)].into(),
            ..Settings::default()
        }
    }

    /// A night of good messages.
    fn night() -> Vec<u8> {
        let messages = (0..200).flat_map(|minute| {
            [
                Message::barometer(minute, 1004.25),
                Message::ship_motion(minute, 12.5, 260.0),
            ]
        });
        messages.flat_map(|message| *message.as_bytes()).collect()
    }

    fn bytes_of(sent: &[Sent]) -> Vec<u8> {
        let mut bytes = Vec::new();
        for one in sent {
            let Sent::Message { bytes: all, length } = one else {
                panic!("only messages come")
            };
            bytes.extend_from_slice(&all[..*length]);
        }
        bytes
    }

    /// What comes of bytes that come so many at a time.
    fn cut(bytes: &[u8], at_a_time: usize) -> (Vec<Sent>, Vec<usize>) {
        let mut frames = Frames::new(&settings());
        let (mut sent, mut slips) = (Vec::new(), Vec::new());
        let mut add = |cut: Cut| {
            sent.extend(cut.sent);
            slips.extend(cut.slips);
        };
        for piece in bytes.chunks(at_a_time) {
            frames.push(piece);
            add(frames.take(false));
        }
        add(frames.take(true));
        assert_eq!(frames.waiting(), 0);
        (sent, slips)
    }

    #[test]
    fn every_byte_is_handed_on_however_they_come() {
        let mut bytes = night();
        // a bad message among good ones moves no cut
        bytes[160..164].fill(0xff);
        let whole: Vec<Sent> = Sent::messages(&bytes).collect();
        for at_a_time in [1, 7, 16, 40, 4096] {
            assert_eq!(
                cut(&bytes, at_a_time),
                (whole.clone(), vec![]),
                "{at_a_time}"
            );
        }
        // nor do bytes that hold no message at all
        let text =
            b"$GPGGA,123519,4807.038,N,01131.000,E,1,08,0.9,545.4,M,46.9,M,,*47\r\n".repeat(5);
        let (sent, slips) = cut(&text, 33);
        assert_eq!((bytes_of(&sent), slips), (text, vec![]));
    }

    #[test]
    fn a_byte_that_is_lost_costs_a_message() {
        let night = night();
        for lost in 800..816 {
            let mut bytes = night.clone();
            bytes.remove(lost);
            for at_a_time in [5, 4096] {
                let (sent, slips) = cut(&bytes, at_a_time);
                assert_eq!(bytes_of(&sent), bytes);
                assert_eq!(slips, [15], "{lost}");
                assert_eq!(
                    sent.iter()
                        .filter(|one| matches!(one, Sent::Message { length: 16, .. }))
                        .count(),
                    399
                );
            }
        }
    }

    #[test]
    fn a_device_may_be_joined_in_the_middle_of_a_message() {
        let night = night();
        for missing in 1..16 {
            let (sent, slips) = cut(&night[missing..], 32);
            assert_eq!(slips, [16 - missing]);
            assert_eq!(sent[1..], Sent::messages(&night[16..]).collect::<Vec<_>>());
        }
    }
}
