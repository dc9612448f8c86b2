//! Many messages at once.

mod ship;

use reference::refusal::Refused;
use reference::station::{Memory, COUNTS};
use ship::{message, plain_settings, wet_bulb, Ship};

/// The numbers that were counted, with how often.
fn counted(counts: &[u64; COUNTS]) -> Vec<(usize, u64)> {
    let counts = counts.iter().copied().enumerate();
    counts.filter(|(_, count)| *count > 0).collect()
}

fn opened() -> Memory {
    let mut memory = Memory::default();
    assert_eq!(memory.open(&plain_settings()), Ok(()));
    memory
}

/// Messages that come to 0 five times, to each of 2 to 8 once and to 19 twice.
fn mixed() -> Vec<u8> {
    let mut not_zero = message(1, 10, 5.0, 0.0);
    not_zero[2] = 1;
    [
        message(0, 10, 1000.0, 0.0),
        message(1, 10, 5.0, 0.0),
        message(6, 10, 5.0, 0.0),
        not_zero,
        wet_bulb(10, 3, 5.0),
        message(0, 16_777_216, 1000.0, 0.0),
        message(0, 11, f32::NAN, 0.0),
        message(0, 11, 1100.1, 0.0),
        message(0, 10, 1001.0, 0.0),
        message(0, 9, 1001.0, 0.0),
        message(0, 12, 1002.0, 0.0),
        message(0, 11, 1001.0, 0.0),
        message(2, 10, 8.5, 30.0),
        wet_bulb(10, 2, 5.0),
    ]
    .concat()
}

#[test]
fn each_message_is_counted_by_what_it_came_to() {
    let mut memory = opened();
    let mut counts = [0; COUNTS];
    let bytes = mixed();
    memory.hear_all(&bytes, &mut counts);
    let each = [
        (0, 5),
        (2, 1),
        (3, 1),
        (4, 1),
        (5, 1),
        (6, 1),
        (7, 1),
        (8, 1),
        (19, 2),
    ];
    assert_eq!(counted(&counts), each);
    // They were heard in order.
    assert_eq!(memory.newest(0), Ok(12));
    let first = |channel, minute| memory.reading(channel, minute).map(|kept| kept.first);
    assert_eq!(first(0, 10), Ok(10000));
    let missing = Refused::Absent {
        channel: 0,
        minute: 11,
    };
    assert_eq!(first(0, 11), Err(missing));
    assert_eq!(first(0, 12), Ok(10020));
    assert_eq!(first(5, 10), Ok(50));
    // Again: four of the five that were heard are their channels' newest, and repeated;
    // the barometer's at 9, 10, 10 and 11 are late. Counts go on from what they are.
    memory.hear_all(&bytes, &mut counts);
    let twice = [
        (0, 5),
        (2, 2),
        (3, 2),
        (4, 2),
        (5, 2),
        (6, 2),
        (7, 2),
        (8, 5),
        (19, 6),
    ];
    assert_eq!(counted(&counts), twice);
}

#[test]
fn a_store_counts_as_its_memory() {
    let (mut ship, mut memory) = (Ship::plain(), opened());
    let (mut of_store, mut of_memory) = ([0; COUNTS], [0; COUNTS]);
    let bytes = mixed();
    ship.store.hear_all(&bytes[..100], &mut of_store);
    memory.hear_all(&bytes[..100], &mut of_memory);
    assert_eq!(of_store, of_memory);
    assert_eq!(
        counted(&of_store),
        [(0, 2), (1, 1), (2, 1), (3, 1), (4, 1), (5, 1)]
    );
}

#[test]
fn too_few_bytes_at_the_end_are_refused_1() {
    let whole = [message(0, 10, 1000.0, 0.0), message(0, 11, 1000.0, 0.0)].concat();
    for length in 0..=whole.len() {
        let mut memory = opened();
        let mut counts = [0; COUNTS];
        memory.hear_all(&whole[..length], &mut counts);
        assert_eq!(counts[0], length as u64 / 16);
        assert_eq!(counts[1], u64::from(length % 16 > 0));
        assert!(counts[2..].iter().all(|count| *count == 0));
    }
}

#[test]
fn memory_that_was_never_opened_counts_255_each() {
    let mut memory = Memory::default();
    let mut counts = [0; COUNTS];
    memory.hear_all(&mixed(), &mut counts);
    assert_eq!(counted(&counts), [(255, 14)]);
    memory.hear_all(&[9; 17], &mut counts);
    assert_eq!(counted(&counts), [(255, 16)]);
    memory.hear_all(&[], &mut counts);
    assert_eq!(counted(&counts), [(255, 16)]);
    assert!(memory.store().is_err());
}

#[test]
fn a_count_at_its_largest_stays() {
    let mut memory = opened();
    let mut counts = [u64::MAX - 1; COUNTS];
    for _ in 0..3 {
        memory.hear_all(&[0; 5], &mut counts);
    }
    assert_eq!(counts[1], u64::MAX);
    let others = counts.iter().filter(|count| **count == u64::MAX - 1);
    assert_eq!(others.count(), 255);
    let mut counts = [u64::MAX; COUNTS];
    memory.hear_all(&message(0, 10, 1000.0, 0.0), &mut counts);
    assert_eq!(counts, [u64::MAX; COUNTS]);
    assert_eq!(memory.newest(0), Ok(10));
}
