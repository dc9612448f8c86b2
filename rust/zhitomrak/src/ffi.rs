//! The functions of the static library as `include/zhitomrak.h` declares them, and the only unsafe code of this crate: each is
//! called here, with references whose pointers and lengths are right by their types.
#![allow(unsafe_code)]

/// The words of a store's block.
pub const STORE_WORDS: usize = 1609;
/// The most points of the barometer's certificate.
pub const CERTIFICATE_MAX_POINTS: usize = 16;
/// The most points of the hand anemometer's certificate.
pub const ANEMOMETER_MAX_POINTS: usize = 20;
/// A place for each number of one byte.
pub const COUNTS: usize = 256;
/// The bytes of a sentence, and zeros behind it.
pub const SENTENCE_MAX_BYTES: usize = 160;
/// What taking out a record that is not there answers, none of the documents' numbers.
pub const NO_RECORD: u32 = 254;
/// What a block that was never opened answers, none of the documents' numbers.
pub const NO_STORE: u32 = 255;
/// The words of a record.
const RECORD_WORDS: usize = 7;

/// A store's block.
pub type Block = [u64; STORE_WORDS];

/// A certificate: how many points it has, and those that there is room for.
#[derive(Clone, Copy, Debug, PartialEq, Eq, Hash)]
#[repr(C)]
pub struct Points<P, const ROOM: usize> {
    pub(crate) count: u32,
    pub(crate) points: [P; ROOM],
}

/// A point of the barometer's certificate, in tenths of its unit.
#[derive(Clone, Copy, Debug, Default, PartialEq, Eq, Hash)]
#[repr(C)]
pub struct Point {
    /// The reading.
    pub reading: i32,
    /// What is added to it.
    pub correction: i32,
}

/// A point of the hand anemometer's certificate.
#[derive(Clone, Copy, Debug, Default, PartialEq, Eq, Hash)]
#[repr(C)]
pub struct AnemometerPoint {
    /// Whole divisions a second.
    pub rate: i32,
    /// Tenths of m/s.
    pub speed: i32,
}

#[derive(Clone, Copy, Debug)]
#[repr(C)]
pub struct Settings {
    pub unit: u32,
    pub height: i32,
    pub difference: i32,
    pub coefficient: i32,
    pub psychrometer: i32,
    pub certificate: Points<Point, CERTIFICATE_MAX_POINTS>,
    pub anemometer: Points<AnemometerPoint, ANEMOMETER_MAX_POINTS>,
}

#[derive(Clone, Copy, Debug, PartialEq, Eq)]
#[repr(C)]
pub struct Heard {
    pub number: u32,
    pub late: u64,
}

/// The wind as a mate notes it by the hand anemometer, right or wrong.
#[derive(Clone, Copy, Debug, Default, PartialEq, Eq, Hash)]
#[repr(C)]
pub struct Entry {
    /// The minute it is for.
    pub minute: u32,
    /// The degrees that the apparent wind comes from, by the compass: 0 to 360.
    pub direction: u32,
    /// The dial before, 0 to 9999 divisions.
    pub first: u32,
    /// The dial after; below the first it has passed 9999, once.
    pub second: u32,
    /// The seconds between the two, 1 to 600.
    pub seconds: u32,
}

#[derive(Clone, Copy, Debug, PartialEq, Eq)]
#[repr(C)]
pub struct Noted {
    pub number: u32,
    pub channel: u32,
    pub minute: u32,
    pub late: u64,
}

#[derive(Clone, Copy, Debug, Default, PartialEq, Eq)]
#[repr(C)]
pub struct Refusal {
    pub number: u32,
    pub channel: u32,
    pub minute: u32,
}

#[derive(Clone, Copy, Debug, Default, PartialEq, Eq)]
#[repr(C)]
pub struct Pressure {
    pub refusal: Refusal,
    pub pressure: i64,
}

#[derive(Clone, Copy, Debug, Default, PartialEq, Eq)]
#[repr(C)]
pub struct Tendency {
    pub refusal: Refusal,
    pub change: i64,
    pub absent: u64,
}

#[derive(Clone, Copy, Debug, Default, PartialEq, Eq)]
#[repr(C)]
pub struct Wind {
    pub refusal: Refusal,
    pub speed: u32,
    pub direction: u32,
}

#[derive(Clone, Copy, Debug, Default, PartialEq, Eq)]
#[repr(C)]
pub struct Humidity {
    pub refusal: Refusal,
    pub vapour_pressure: u32,
    pub saturation: u32,
    pub deficit: u32,
    pub relative_humidity: u32,
    pub dew_point: i32,
}

#[derive(Clone, Copy, Debug, PartialEq, Eq)]
#[repr(C)]
pub struct Newest {
    pub number: u32,
    pub minute: u64,
}

#[derive(Clone, Copy, Debug, Default, PartialEq, Eq)]
#[repr(C)]
pub struct Reading {
    pub refusal: Refusal,
    pub channel: u32,
    pub unit: u32,
    pub first: i32,
    pub second: u32,
}

/// A record: its kind, its minute and its body's figures, 0 where the kind has fewer.
#[derive(Clone, Copy, Debug, Default, PartialEq, Eq, Hash)]
#[repr(C)]
pub struct Record {
    pub kind: u32,
    pub minute: u32,
    pub figures: [i32; 5],
}

#[derive(Clone, Copy, Debug, PartialEq, Eq)]
#[repr(C)]
pub struct File {
    pub number: u32,
    pub place: usize,
    pub count: usize,
}

#[derive(Clone, Copy, Debug, PartialEq, Eq)]
#[repr(C)]
pub struct Written {
    pub number: u32,
    pub index: usize,
    pub bytes: usize,
}

#[derive(Clone, Copy, Debug, PartialEq, Eq)]
#[repr(C)]
pub struct Placed {
    pub number: u32,
    pub index: usize,
    pub place: usize,
    pub bytes: usize,
}

#[derive(Clone, Copy, Debug, PartialEq, Eq)]
#[repr(C)]
pub struct Listed {
    pub number: u32,
    pub bytes: usize,
}

/// A sentence's bytes, with zeros behind it.
pub type Sentence = [u8; SENTENCE_MAX_BYTES];

extern "C" {
    fn zhitomrak_version() -> u32;
    fn zhitomrak_open(store: *mut Block, settings: *const Settings) -> u32;
    fn zhitomrak_settings_of(store: *const Block, settings: *mut Settings) -> u32;
    fn zhitomrak_hear(store: *mut Block, message: *const u8, length: usize) -> Heard;
    fn zhitomrak_hear_all(
        store: *mut Block,
        bytes: *const u8,
        length: usize,
        counts: *mut [u64; COUNTS],
    );
    fn zhitomrak_note(store: *mut Block, entry: Entry) -> Noted;
    fn zhitomrak_pressure(store: *const Block, minute: u32) -> Pressure;
    fn zhitomrak_tendency(store: *const Block, minute: u32) -> Tendency;
    fn zhitomrak_wind(store: *const Block, minute: u32) -> Wind;
    fn zhitomrak_humidity(store: *const Block, minute: u32) -> Humidity;
    fn zhitomrak_newest(store: *const Block, channel: u32) -> Newest;
    fn zhitomrak_reading(store: *const Block, channel: u32, minute: u32) -> Reading;
    fn zhitomrak_stretch(
        store: *const Block,
        channel: u32,
        first: u32,
        minutes: *mut u8,
        count: usize,
    ) -> u32;
    fn zhitomrak_record_of(
        store: *const Block,
        kind: u32,
        minute: u32,
        record: *mut Record,
    ) -> Refusal;
    fn zhitomrak_read(file: *const u8, length: usize) -> File;
    fn zhitomrak_record_at(file: *const u8, length: usize, index: usize) -> Record;
    fn zhitomrak_write_words(
        buffer: *mut u8,
        length: usize,
        records: *const u32,
        words: usize,
    ) -> Written;
    fn zhitomrak_place(
        buffer: *mut u8,
        length: usize,
        size: usize,
        record: *const Record,
    ) -> Placed;
    fn zhitomrak_take_out(
        buffer: *mut u8,
        length: usize,
        size: usize,
        kind: u32,
        minute: u32,
    ) -> Placed;
    fn zhitomrak_list(file: *const u8, length: usize, text: *mut u8, room: usize) -> Listed;
    fn zhitomrak_say_pressure(told: Pressure, sentence: *mut Sentence) -> usize;
    fn zhitomrak_say_tendency(told: Tendency, sentence: *mut Sentence) -> usize;
    fn zhitomrak_say_wind(told: Wind, sentence: *mut Sentence) -> usize;
    fn zhitomrak_say_humidity(told: Humidity, sentence: *mut Sentence) -> usize;
    fn zhitomrak_say_reading(told: Reading, sentence: *mut Sentence) -> usize;
    fn zhitomrak_say_refusal(
        number: u32,
        first: u64,
        second: u64,
        sentence: *mut Sentence,
    ) -> usize;
}

// The library has the types as words of these sizes: a record's seven, a sheet's 79.
const _: () = assert!(core::mem::size_of::<Record>() == 4 * RECORD_WORDS);
const _: () = assert!(core::mem::size_of::<Settings>() == 4 * 79);
const _: () = assert!(core::mem::size_of::<Reading>() == 28);
const _: () = assert!(core::mem::size_of::<Placed>() == 32);

// A reference is not null, is aligned, and is to memory of its type's size; a slice's length is at most isize::MAX; a `&mut` is
// the only way to its memory, and what is behind a `&` is not written. That is all the header asks.

#[inline]
pub fn version() -> u32 {
    unsafe { zhitomrak_version() }
}

#[inline]
pub fn open(store: &mut Block, settings: &Settings) -> u32 {
    unsafe { zhitomrak_open(store, settings) }
}

#[inline]
pub fn settings_of(store: &Block, settings: &mut Settings) -> u32 {
    unsafe { zhitomrak_settings_of(store, settings) }
}

#[inline]
pub fn hear(store: &mut Block, message: &[u8]) -> Heard {
    unsafe { zhitomrak_hear(store, message.as_ptr(), message.len()) }
}

#[inline]
pub fn hear_all(store: &mut Block, bytes: &[u8], counts: &mut [u64; COUNTS]) {
    unsafe { zhitomrak_hear_all(store, bytes.as_ptr(), bytes.len(), counts) }
}

#[inline]
pub fn note(store: &mut Block, entry: Entry) -> Noted {
    unsafe { zhitomrak_note(store, entry) }
}

#[inline]
pub fn pressure(store: &Block, minute: u32) -> Pressure {
    unsafe { zhitomrak_pressure(store, minute) }
}

#[inline]
pub fn tendency(store: &Block, minute: u32) -> Tendency {
    unsafe { zhitomrak_tendency(store, minute) }
}

#[inline]
pub fn wind(store: &Block, minute: u32) -> Wind {
    unsafe { zhitomrak_wind(store, minute) }
}

#[inline]
pub fn humidity(store: &Block, minute: u32) -> Humidity {
    unsafe { zhitomrak_humidity(store, minute) }
}

#[inline]
pub fn newest(store: &Block, channel: u32) -> Newest {
    unsafe { zhitomrak_newest(store, channel) }
}

#[inline]
pub fn reading(store: &Block, channel: u32, minute: u32) -> Reading {
    unsafe { zhitomrak_reading(store, channel, minute) }
}

#[inline]
pub fn stretch(store: &Block, channel: u32, first: u32, minutes: &mut [u8]) -> u32 {
    unsafe { zhitomrak_stretch(store, channel, first, minutes.as_mut_ptr(), minutes.len()) }
}

#[inline]
pub fn record_of(store: &Block, kind: u32, minute: u32, record: &mut Record) -> Refusal {
    unsafe { zhitomrak_record_of(store, kind, minute, record) }
}

#[inline]
pub fn read(file: &[u8]) -> File {
    unsafe { zhitomrak_read(file.as_ptr(), file.len()) }
}

#[inline]
pub fn record_at(file: &[u8], index: usize) -> Record {
    unsafe { zhitomrak_record_at(file.as_ptr(), file.len(), index) }
}

// As many words stand behind the pointer as are told: a record is seven.
#[inline]
pub fn write(buffer: &mut [u8], records: &[Record]) -> Written {
    unsafe {
        zhitomrak_write_words(
            buffer.as_mut_ptr(),
            buffer.len(),
            records.as_ptr().cast(),
            RECORD_WORDS * records.len(),
        )
    }
}

// The records of the crate's own type are this one's, and nothing beside it (`repr(transparent)`).
#[inline]
pub(crate) fn told(records: &[crate::watchfile::Record]) -> &[Record] {
    unsafe { core::slice::from_raw_parts(records.as_ptr().cast(), records.len()) }
}

#[inline]
pub fn place(buffer: &mut [u8], size: usize, record: &Record) -> Placed {
    unsafe { zhitomrak_place(buffer.as_mut_ptr(), buffer.len(), size, record) }
}

#[inline]
pub fn take_out(buffer: &mut [u8], size: usize, kind: u32, minute: u32) -> Placed {
    unsafe { zhitomrak_take_out(buffer.as_mut_ptr(), buffer.len(), size, kind, minute) }
}

#[inline]
pub fn list(file: &[u8], text: &mut [u8]) -> Listed {
    unsafe { zhitomrak_list(file.as_ptr(), file.len(), text.as_mut_ptr(), text.len()) }
}

pub fn say_pressure(told: Pressure, sentence: &mut Sentence) -> usize {
    unsafe { zhitomrak_say_pressure(told, sentence) }
}

pub fn say_tendency(told: Tendency, sentence: &mut Sentence) -> usize {
    unsafe { zhitomrak_say_tendency(told, sentence) }
}

pub fn say_wind(told: Wind, sentence: &mut Sentence) -> usize {
    unsafe { zhitomrak_say_wind(told, sentence) }
}

pub fn say_humidity(told: Humidity, sentence: &mut Sentence) -> usize {
    unsafe { zhitomrak_say_humidity(told, sentence) }
}

pub fn say_reading(told: Reading, sentence: &mut Sentence) -> usize {
    unsafe { zhitomrak_say_reading(told, sentence) }
}

pub fn say_refusal(number: u32, first: u64, second: u64, sentence: &mut Sentence) -> usize {
    unsafe { zhitomrak_say_refusal(number, first, second, sentence) }
}
