//! The journal of a watch: the settings, then every message and entry that came, in order, bad ones included.
//!
//! It is a script of the proved console, `console <journal` answers each line again. Behind each group of lines stands a line
//! `#= SUM COUNT`: the CRC-32 of the group's bytes, and how many messages and entries there are up to it. A group is written, sum and
//! all, and is on the disk before anything in it is heard or acknowledged.
//!
//! What stands behind the last sum was not acknowledged, unless its sum was lost. Whole lines of it are kept all the same; a line that is cut is set aside
//! by the next one who writes. A group whose sum is not that of its bytes is damaged: nothing of it is heard, so its minutes are
//! missing and said to be.

use std::fmt::Write as _;
use std::fs::{File, OpenOptions, TryLockError};
use std::io::{self, Read, Seek, SeekFrom, Write};
use std::os::unix::fs::MetadataExt;
use std::path::{Path, PathBuf};
use std::thread::sleep;
use std::time::{Duration, Instant};

use chrono::{DateTime, Utc};
use zhitomrak::{
    AnemometerCertificate, AnemometerPoint, Certificate, Entry, Point, Refused, Settings, Store,
    Unit,
};

use crate::fault::{cannot, counted, fault, say, words, Result};
use crate::files;
use crate::progress::Progress;

/// The first line of a journal; its last word is the form's number.
const HEAD: &str = "# zhitomrak journal 1";

/// How many lines have one sum at the most: damage costs no more than these.
const GROUP: usize = 256;

/// How many bytes are read at a time.
const CHUNK: usize = 1 << 20;

/// A line of a journal.
#[derive(Clone, Debug, PartialEq)]
pub enum Sent {
    Opening(Box<Settings>),
    /// The first `length` bytes.
    Message {
        bytes: [u8; 16],
        length: usize,
    },
    Entry(Entry),
}

impl Sent {
    /// The messages that bytes are, cut at 16; the last may be short.
    pub fn messages(bytes: &[u8]) -> impl Iterator<Item = Sent> + '_ {
        bytes.chunks(16).map(Sent::message)
    }

    /// The message that bytes are; of more than 16 the first.
    pub fn message(bytes: &[u8]) -> Sent {
        let length = bytes.len().min(16);
        let mut message = [0; 16];
        message[..length].copy_from_slice(&bytes[..length]);
        Sent::Message {
            bytes: message,
            length,
        }
    }

    /// Sends it to a store. (An opening does nothing to one that is open.)
    pub fn send(&self, store: &mut Store) -> std::result::Result<(), Refused> {
        match self {
            Sent::Opening(_) => Ok(()),
            Sent::Message { bytes, length } => store.hear(&bytes[..*length]),
            Sent::Entry(entry) => store.note(*entry),
        }
    }

    /// Its line, as the console reads it.
    fn put(&self, text: &mut String) {
        match self {
            Sent::Opening(settings) => put_opening(text, settings),
            Sent::Message { bytes, length } => {
                text.push_str("hear ");
                for byte in &bytes[..*length] {
                    for half in [byte >> 4, byte & 15] {
                        text.push(char::from(b"0123456789abcdef"[usize::from(half)]));
                    }
                }
                text.push('\n');
            }
            Sent::Entry(e) => {
                let _ = writeln!(
                    text,
                    "note {} {} {} {} {}",
                    e.minute, e.direction, e.first, e.second, e.seconds
                );
            }
        }
    }

    /// What a line says, as [`Sent::put`] writes it; none where it is no such line.
    fn of(line: &[u8]) -> Option<Sent> {
        let line = std::str::from_utf8(line).ok()?;
        let (verb, rest) = line.split_once(' ')?;
        match verb {
            "hear" => {
                let mut bytes = [0; 16];
                let length = rest.len() / 2;
                if rest.len() % 2 != 0 || length > 16 {
                    return None;
                }
                unhex(rest.as_bytes(), &mut bytes[..length])
                    .then_some(Sent::Message { bytes, length })
            }
            "note" => {
                let numbers = rest
                    .split(' ')
                    .map(|word| word.parse().ok())
                    .collect::<Option<Vec<u32>>>()?;
                let [minute, direction, first, second, seconds] = numbers[..] else {
                    return None;
                };
                Some(Sent::Entry(Entry {
                    minute,
                    direction,
                    first,
                    second,
                    seconds,
                }))
            }
            "open" => opening(rest).map(|settings| Sent::Opening(Box::new(settings))),
            _ => None,
        }
    }
}

/// `open hPa 120 0 -2 662 8500:0 11000:0`, and behind `anemometer` that certificate.
fn put_opening(text: &mut String, settings: &Settings) {
    let unit = match settings.unit {
        Unit::Hectopascals => "hPa",
        Unit::MillimetresOfMercury => "mmHg",
    };
    let (h, d, c, a) = (
        settings.height,
        settings.difference,
        settings.coefficient,
        settings.psychrometer,
    );
    let _ = write!(text, "open {unit} {h} {d} {c} {a}");
    for point in settings.certificate.as_slice() {
        let _ = write!(text, " {}:{}", point.reading, point.correction);
    }
    if !settings.anemometer.as_slice().is_empty() {
        text.push_str(" anemometer");
    }
    for point in settings.anemometer.as_slice() {
        let _ = write!(text, " {}:{}", point.rate, point.speed);
    }
    text.push('\n');
}

/// The settings that the words behind `open` say.
fn opening(words: &str) -> Option<Settings> {
    fn points<'a, P: From<(i32, i32)>>(words: impl Iterator<Item = &'a str>) -> Option<Vec<P>> {
        words
            .map(|word| {
                let (first, second) = word.split_once(':')?;
                Some(P::from((first.parse().ok()?, second.parse().ok()?)))
            })
            .collect()
    }
    let mut words = words.split(' ');
    let unit = match words.next()? {
        "hPa" => Unit::Hectopascals,
        "mmHg" => Unit::MillimetresOfMercury,
        _ => return None,
    };
    let mut number = || words.next()?.parse().ok();
    let (height, difference, coefficient, psychrometer) =
        (number()?, number()?, number()?, number()?);
    let certificate: Vec<Point> = points(words.by_ref().take_while(|&word| word != "anemometer"))?;
    let anemometer: Vec<AnemometerPoint> = points(words)?;
    Some(Settings {
        unit,
        height,
        difference,
        coefficient,
        psychrometer,
        certificate: Certificate::new(&certificate),
        anemometer: AnemometerCertificate::new(&anemometer),
    })
}

/// What each byte says as a digit in hex; 255 where it is none.
const DIGITS: [u8; 256] = {
    let mut table = [255; 256];
    let mut n = 0;
    while n < 16 {
        table[b"0123456789abcdef"[n as usize] as usize] = n;
        n += 1;
    }
    table
};

/// Bytes from two digits in hex each; whether all were digits.
#[inline]
fn unhex(digits: &[u8], bytes: &mut [u8]) -> bool {
    let mut wrong = 0;
    for (to, pair) in bytes.iter_mut().zip(digits.chunks_exact(2)) {
        let (high, low) = (DIGITS[usize::from(pair[0])], DIGITS[usize::from(pair[1])]);
        wrong |= high | low;
        *to = high << 4 | low & 15;
    }
    wrong < 16
}

/// The line of a whole message, of 16 bytes: its length with the line's end.
const WHOLE: usize = 38;

/// The lines up to a sum, as far as they are read.
#[derive(Default)]
struct Group {
    sent: Vec<Sent>,
    lines: u64,
    /// Whether each line said something that a journal says.
    sound: bool,
    /// The bytes read.
    length: usize,
}

/// What a sum says, and whether it is that of the bytes.
struct Sum {
    count: u64,
    right: bool,
}

impl Group {
    /// Reads the lines at the start of the bytes, up to a sum and with it; no sum where the bytes end before one does.
    fn read(&mut self, bytes: &[u8]) -> Option<Sum> {
        self.sent.clear();
        (self.lines, self.sound, self.length) = (0, true, 0);
        loop {
            let rest = &bytes[self.length..];
            let mut message = [0; 16];
            if rest.len() >= WHOLE
                && rest.starts_with(b"hear ")
                && rest[WHOLE - 1] == b'\n'
                && unhex(&rest[5..WHOLE - 1], &mut message)
            {
                self.sent.push(Sent::Message {
                    bytes: message,
                    length: 16,
                });
                self.lines += 1;
                self.length += WHOLE;
                continue;
            }
            let end = rest.iter().position(|&byte| byte == b'\n')?;
            let line = &rest[..end];
            if let Some(said) = line.strip_prefix(b"#= ") {
                let sum = sum_of(said).map(|(sum, count)| Sum {
                    count,
                    right: self.sound && sum == crc32fast::hash(&bytes[..self.length]),
                });
                if sum.is_some() {
                    self.lines += 1;
                    self.length += end + 1;
                    return sum;
                }
                self.sound = false;
            } else if !line.starts_with(b"#") {
                match Sent::of(line) {
                    Some(sent) => self.sent.push(sent),
                    None => self.sound = false,
                }
            }
            self.lines += 1;
            self.length += end + 1;
        }
    }
}

/// `5f3a9c01 2454`.
fn sum_of(said: &[u8]) -> Option<(u32, u64)> {
    let (sum, count) = std::str::from_utf8(said).ok()?.split_once(' ')?;
    let digits = |text: &str| !text.is_empty() && text.bytes().all(|b| b.is_ascii_hexdigit());
    if sum.len() != 8 || !digits(sum) || !digits(count) {
        return None;
    }
    Some((u32::from_str_radix(sum, 16).ok()?, count.parse().ok()?))
}

/// Groups of lines, each with its sum, the first behind `count` messages and entries.
fn groups(head: &str, sent: &[Sent], mut count: u64) -> String {
    let mut text = String::with_capacity(head.len() + sent.len() * (WHOLE + 1) + 64);
    for (index, group) in sent.chunks(GROUP).enumerate() {
        let start = text.len();
        if index == 0 {
            text.push_str(head);
        }
        for one in group {
            one.put(&mut text);
            count += u64::from(!matches!(one, Sent::Opening(_)));
        }
        let sum = crc32fast::hash(&text.as_bytes()[start..]);
        let _ = writeln!(text, "#= {sum:08x} {count}");
    }
    text
}

/// The remark that says when minute 0 was.
const EPOCH: &str = "# epoch ";

/// The first lines of a journal: what it is, when minute 0 was, and the settings.
pub fn head(settings: &Settings, epoch: Option<DateTime<Utc>>) -> String {
    let opening = Sent::Opening(Box::new(*settings));
    let epoch = epoch.map_or(String::new(), |epoch| {
        format!("{EPOCH}{}\n", epoch.format("%Y-%m-%dT%H:%M:%SZ"))
    });
    groups(&format!("{HEAD}\n{epoch}"), &[opening], 0)
}

/// A journal's first lines.
fn first_lines(path: &Path) -> Vec<String> {
    let bytes = files::read(path, 200).unwrap_or_default();
    let text = String::from_utf8_lossy(&bytes);
    text.lines().take(2).map(str::to_string).collect()
}

/// When minute 0 was, where a journal's first lines say so.
pub fn epoch(path: &Path) -> Option<DateTime<Utc>> {
    let lines = first_lines(path);
    let said = lines.iter().find_map(|line| line.strip_prefix(EPOCH));
    said?.parse().ok()
}

/// Refuses a journal of another form, which a later tool would write.
pub fn is_of_this_form(path: &Path) -> Result<()> {
    let lines = first_lines(path);
    let parts = |line: &'static str| line.rsplit_once(' ').unwrap_or_default();
    let (what, this) = parts(HEAD);
    match lines.first().and_then(|line| line.rsplit_once(' ')) {
        Some((known, form)) if known == what && form.parse::<u32>().is_ok() && form != this => {
            Err(fault!(
                "{} is of form {form}, and this tool knows form {this}",
                path.display()
            ))
        }
        _ => Ok(()),
    }
}

/// The remark before what a person has entered.
pub const BY_HAND: &str = "# by hand\n";

/// What the next start says of a journal, where there is something to say.
#[derive(Clone, Debug, PartialEq)]
pub enum Found {
    /// Lines whose sum is not theirs, from the first to the last.
    Damaged { first: u64, last: u64 },
    /// So many messages and entries are not there that a sum counted, before a line; or too many are.
    Miscounted { line: u64 },
    /// Whole lines behind the last sum.
    Adopted { count: usize },
    /// What is cut or damaged behind the last whole line; set aside in a file where that could be done.
    Torn {
        bytes: Vec<u8>,
        aside: Option<PathBuf>,
    },
}

impl Found {
    /// As a person reads it.
    pub fn words(&self, journal: &Path) -> String {
        let name = journal.display();
        match self {
            Found::Damaged { first, last } => format!(
                "{name}: lines {first} to {last} are damaged and were passed over; what they said is missing"
            ),
            Found::Miscounted { line } => {
                format!("{name}: messages or entries are missing, or too many, before line {line}")
            }
            Found::Adopted { count } => format!(
                "{name}: the last {count} that came have no sum, as when the tool is stopped while it writes; they are kept"
            ),
            Found::Torn { bytes, aside } => {
                let shown = String::from_utf8_lossy(&bytes[..bytes.len().min(50)]);
                let shown = shown.escape_debug();
                let length = counted(bytes.len(), "byte");
                // a cut leaves no line's end; where there is one the lines are damaged, and may have had a sum
                let what = if bytes.contains(&b'\n') {
                    format!("{name}: its end is damaged, {length} from `{shown}` on; what they said is not heard")
                } else {
                    format!("{name}: it ends in a line that was cut, {length}, `{shown}`, which is not heard; what may have followed is not here")
                };
                match aside {
                    Some(path) => format!("{what}; it is set aside in {}", path.display()),
                    None => what,
                }
            }
        }
    }
}

/// `the last 2 messages or entries are not kept`.
fn not_kept(count: usize) -> String {
    match count {
        1 => "the last message or entry is not kept".into(),
        _ => format!("the last {count} messages or entries are not kept"),
    }
}

/// What stands behind the last sum.
#[derive(Default)]
struct Tail {
    whole: Vec<Sent>,
    /// The bytes and the lines of what is whole, and their sum.
    length: usize,
    lines: u64,
    sum: u32,
    rest: Vec<u8>,
}

/// A journal, read up to a place.
pub struct Journal {
    path: PathBuf,
    file: File,
    /// How many bytes, lines, and messages and entries were read.
    place: u64,
    line: u64,
    count: u64,
    /// Whether a damaged group may hide how many there are.
    unsure: bool,
    /// How many lines behind the last sum were handed on already.
    ahead: usize,
    found: Vec<Found>,
}

/// How a journal is opened.
#[derive(Clone, Copy, Debug, PartialEq, Eq)]
pub enum Access {
    Read,
    Write,
}

impl Journal {
    /// Opens a journal, and reads nothing yet.
    pub fn open(path: &Path, access: Access) -> Result<Journal> {
        let what = match access {
            Access::Read => "read",
            Access::Write => "write to",
        };
        let writes = access == Access::Write;
        files::ordinary(what, path)?;
        let file = OpenOptions::new()
            .read(true)
            .append(writes)
            .open(path)
            .map_err(cannot(what, path))?;
        let path = path.to_path_buf();
        Ok(Journal {
            path,
            file,
            place: 0,
            line: 0,
            count: 0,
            unsure: false,
            ahead: 0,
            found: Vec::new(),
        })
    }

    pub fn path(&self) -> &Path {
        &self.path
    }

    /// How many messages and entries it holds, as far as it was read.
    pub fn count(&self) -> u64 {
        self.count
    }

    /// What there was to say since this was last asked.
    pub fn take_found(&mut self) -> Vec<Found> {
        std::mem::take(&mut self.found)
    }

    /// Takes the lock, and waits for another that has it; a second of that is told.
    fn lock(&self, exclusive: bool, patience: Option<Duration>) -> Result<bool> {
        let began = Instant::now();
        let mut told = false;
        loop {
            let tried = if exclusive {
                self.file.try_lock()
            } else {
                self.file.try_lock_shared()
            };
            match tried {
                Ok(()) => return Ok(true),
                Err(TryLockError::Error(error)) => return Err(cannot("lock", &self.path)(error)),
                Err(TryLockError::WouldBlock) => {}
            }
            let waited = began.elapsed();
            if patience.is_some_and(|most| waited > most) {
                return Ok(false);
            }
            if !told && waited > Duration::from_secs(2) {
                say!("waits for another that writes to {}", self.path.display());
                told = true;
            }
            sleep(Duration::from_millis(5));
        }
    }

    fn unlock(&self) {
        // where it fails the lock goes with the file
        let _ = self.file.unlock();
    }

    /// Reads what was written since, and hands on each line of each group that is sound; what stands behind the last sum is given
    /// back.
    fn groups(&mut self, each: &mut dyn FnMut(&Sent), progress: &Progress) -> Result<Tail> {
        let failed = |error| cannot("read", &self.path)(error);
        (&self.file)
            .seek(SeekFrom::Start(self.place))
            .map_err(failed)?;
        let mut bytes: Vec<u8> = Vec::new();
        let mut used = 0;
        let mut group = Group::default();
        loop {
            bytes.drain(..used);
            used = 0;
            let length = bytes.len();
            bytes.resize(length + CHUNK, 0);
            let got = loop {
                match (&self.file).read(&mut bytes[length..]) {
                    Err(error) if error.kind() == io::ErrorKind::Interrupted => {}
                    got => break got.map_err(cannot("read", &self.path))?,
                }
            };
            bytes.truncate(length + got);
            while let Some(sum) = group.read(&bytes[used..]) {
                self.take(&group, &sum, each);
                used += group.length;
                self.place += group.length as u64;
                self.line += group.lines;
            }
            progress.at(self.place);
            if got == 0 {
                break;
            }
        }
        // behind the last sum: the whole lines that are sound, and what follows them
        let rest = &bytes[used..];
        let mut tail = Tail::default();
        let (mut at, mut lines) = (0, 0);
        while let Some(end) = rest[at..].iter().position(|&byte| byte == b'\n') {
            let line = &rest[at..at + end];
            at += end + 1;
            lines += 1;
            match Sent::of(line) {
                Some(Sent::Opening(_)) => break,
                Some(sent) => tail.whole.push(sent),
                // a remark belongs to what follows it
                None if line.starts_with(b"# ") => continue,
                None => break,
            }
            (tail.length, tail.lines) = (at, lines);
        }
        tail.sum = crc32fast::hash(&rest[..tail.length]);
        tail.rest = rest[tail.length..].to_vec();
        Ok(tail)
    }

    /// Hands on the lines of a group where its sum is right, and remembers what is not.
    fn take(&mut self, group: &Group, sum: &Sum, each: &mut dyn FnMut(&Sent)) {
        let ahead = std::mem::take(&mut self.ahead);
        if !sum.right {
            self.found.push(Found::Damaged {
                first: self.line + 1,
                last: self.line + group.lines,
            });
            self.unsure = true;
            self.count = sum.count;
            return;
        }
        let openings = group
            .sent
            .iter()
            .filter(|sent| matches!(sent, Sent::Opening(_)))
            .count();
        let count = self.count + (group.sent.len() - openings) as u64;
        if count != sum.count && !self.unsure {
            self.found.push(Found::Miscounted {
                line: self.line + group.lines,
            });
        }
        (self.count, self.unsure) = (sum.count, false);
        group.sent.iter().skip(ahead).for_each(each);
    }

    /// Reads what was written since, for one who only asks: nothing is changed. Whole lines behind the last sum are handed on too,
    /// unless another is at work on them.
    pub fn look(&mut self, each: &mut dyn FnMut(&Sent), progress: &Progress) -> Result<()> {
        // where there are no locks, as on some disks of other machines, one reads without
        let alone = self
            .lock(false, Some(Duration::from_secs(2)))
            .unwrap_or(false);
        let tail = self.groups(each, progress);
        if alone {
            self.unlock();
        }
        let tail = tail?;
        if alone {
            let new = tail.whole.get(self.ahead..).unwrap_or_default();
            new.iter().for_each(each);
            if !new.is_empty() {
                self.found.push(Found::Adopted {
                    count: tail.whole.len(),
                });
            }
            self.ahead = tail.whole.len();
            if !tail.rest.is_empty() {
                self.found.push(Found::Torn {
                    bytes: tail.rest,
                    aside: None,
                });
            }
        }
        Ok(())
    }

    /// Reads what was written since, and mends the journal's end; then writes the lines, sum and all, onto the disk. Only then are
    /// they handed on. Where they cannot be written the journal is as it was.
    pub fn append(
        &mut self,
        remark: &str,
        sent: &[Sent],
        each: &mut dyn FnMut(&Sent),
        progress: &Progress,
    ) -> Result<()> {
        self.lock(true, None)?;
        let done = self.append_locked(remark, sent, each, progress);
        self.unlock();
        done
    }

    fn append_locked(
        &mut self,
        remark: &str,
        sent: &[Sent],
        each: &mut dyn FnMut(&Sent),
        progress: &Progress,
    ) -> Result<()> {
        let tail = self.groups(each, progress)?;
        self.mend(tail, each)?;
        if !sent.is_empty() {
            if self
                .file
                .metadata()
                .map_err(cannot("write to", &self.path))?
                .nlink()
                == 0
            {
                let count = not_kept(sent.len());
                return Err(fault!("{} was taken away; {count}", self.path.display()));
            }
            let text = groups(remark, sent, self.count);
            self.write(text.as_bytes(), sent.len())?;
            self.count += sent.len() as u64;
            sent.iter().for_each(each);
        }
        Ok(())
    }

    /// Writes bytes at the place, where the file ends, and onto the disk; or the file ends there, as before.
    fn write(&mut self, bytes: &[u8], count: usize) -> Result<()> {
        let written = (&self.file)
            .write_all(bytes)
            .and_then(|()| self.file.sync_data());
        if let Err(error) = written {
            let back = match self.file.set_len(self.place) {
                Ok(()) => not_kept(count),
                Err(_) => "what came last may be kept in part, which the next start mends".into(),
            };
            return Err(fault!(
                "cannot write to {}: {}; {back}",
                self.path.display(),
                words(&error)
            ));
        }
        self.place += bytes.len() as u64;
        self.line += bytes.iter().filter(|&&byte| byte == b'\n').count() as u64;
        Ok(())
    }

    /// Gives whole lines behind the last sum theirs, and sets aside what is cut.
    fn mend(&mut self, tail: Tail, each: &mut dyn FnMut(&Sent)) -> Result<()> {
        if !tail.rest.is_empty() {
            let aside = self.path.with_file_name("torn");
            files::ordinary("write", &aside)?;
            let mut file = OpenOptions::new()
                .create(true)
                .append(true)
                .open(&aside)
                .map_err(cannot("write", &aside))?;
            let mut bytes = tail.rest.clone();
            bytes.push(b'\n');
            file.write_all(&bytes)
                .and_then(|()| file.sync_all())
                .map_err(cannot("write", &aside))?;
            let end = self.place + tail.length as u64;
            self.file.set_len(end).map_err(cannot("mend", &self.path))?;
            self.found.push(Found::Torn {
                bytes: tail.rest,
                aside: Some(aside),
            });
        }
        if !tail.whole.is_empty() {
            let count = self.count + tail.whole.len() as u64;
            let before = (self.place, self.line);
            self.place += tail.length as u64;
            self.line += tail.lines;
            let written = self.write(
                format!("#= {:08x} {count}\n", tail.sum).as_bytes(),
                tail.whole.len(),
            );
            if written.is_err() {
                // they have no sum yet, and are read again
                (self.place, self.line) = before;
                return written;
            }
            self.count = count;
            let ahead = std::mem::take(&mut self.ahead);
            tail.whole.iter().skip(ahead).for_each(each);
            self.found.push(Found::Adopted {
                count: tail.whole.len(),
            });
        }
        Ok(())
    }
}

#[cfg(test)]
mod tests {
    use super::*;
    use std::fs;
    use tempfile::TempDir;

    /// A folder in memory, where there is one: it is written to some thousand times.
    fn folder() -> TempDir {
        let memory = Path::new("/dev/shm");
        if memory.is_dir() {
            tempfile::tempdir_in(memory).unwrap()
        } else {
            tempfile::tempdir().unwrap()
        }
    }

    fn settings() -> Settings {
        opening("hPa 120 0 -2 662 8500:0 11000:4 anemometer 1:13 20:188").unwrap()
    }

    fn message(n: u8, length: usize) -> Sent {
        let bytes: Vec<u8> = (0..16).map(|k| n.wrapping_mul(37) ^ (k * 11)).collect();
        let sent = Sent::messages(&bytes[..length]).next();
        sent.unwrap()
    }

    fn entry(minute: u32) -> Sent {
        Sent::Entry(Entry {
            minute,
            direction: 300,
            first: 9940,
            second: 80,
            seconds: 60,
        })
    }

    /// What is sent, a group at a time: whole messages, short ones, and entries.
    fn groups_sent() -> Vec<Vec<Sent>> {
        vec![
            vec![message(1, 16), message(2, 16), message(3, 16)],
            vec![entry(600)],
            vec![
                message(4, 5),
                message(5, 16),
                message(6, 1),
                entry(4_294_967_295),
            ],
            vec![message(7, 16), entry(0), message(8, 16)],
            vec![message(9, 16), message(10, 15)],
        ]
    }

    /// A journal of these groups, and where the head's group and each of these ends.
    fn written(groups: &[Vec<Sent>]) -> (Vec<u8>, Vec<usize>) {
        let folder = folder();
        let path = folder.path().join("journal");
        fs::write(&path, head(&settings(), None)).unwrap();
        let mut ends = vec![fs::read(&path).unwrap().len()];
        for group in groups {
            keep(&path, group);
            ends.push(fs::read(&path).unwrap().len());
        }
        (fs::read(&path).unwrap(), ends)
    }

    /// What is handed on, without the opening, and what is found.
    fn opened(path: &Path, access: Access, sent: &[Sent]) -> (Vec<Sent>, Vec<Found>) {
        let mut journal = Journal::open(path, access).unwrap();
        let mut heard = Vec::new();
        let mut each = |sent: &Sent| match sent {
            Sent::Opening(told) => assert_eq!(**told, settings()),
            _ => heard.push(sent.clone()),
        };
        match access {
            Access::Read => journal.look(&mut each, &Progress::silent()),
            Access::Write => journal.append("", sent, &mut each, &Progress::silent()),
        }
        .unwrap();
        let found = journal.take_found();
        for one in &found {
            assert!(one.words(path).lines().count() == 1);
        }
        (heard, found)
    }

    fn look(path: &Path) -> (Vec<Sent>, Vec<Found>) {
        opened(path, Access::Read, &[])
    }

    fn keep(path: &Path, sent: &[Sent]) -> (Vec<Sent>, Vec<Found>) {
        opened(path, Access::Write, sent)
    }

    /// Where the line of each of these ends in the journal.
    fn line_ends(bytes: &[u8], sent: &[Sent]) -> Vec<usize> {
        let mut from = 0;
        let ends = sent.iter().map(|one| {
            let mut line = String::new();
            one.put(&mut line);
            let line = line.as_bytes();
            let at = bytes[from..].windows(line.len()).position(|w| w == line);
            from += at.unwrap() + line.len();
            from
        });
        ends.collect()
    }

    /// Whether these are some of those, in their order.
    fn are_of(these: &[Sent], those: &[Sent]) -> bool {
        let mut those = those.iter();
        these.iter().all(|one| those.any(|other| other == one))
    }

    #[test]
    fn a_line_is_read_as_it_is_written() {
        let mut sent: Vec<Sent> = groups_sent().concat();
        sent.push(Sent::Opening(Box::new(settings())));
        for one in sent {
            let mut line = String::new();
            one.put(&mut line);
            assert_eq!(Sent::of(line.trim_end_matches('\n').as_bytes()), Some(one));
        }
        for line in [
            "hear 0",
            "hear 0g",
            "hear 0G",
            "hear",
            "note 1 2 3 4",
            "note 1 2 3 4 5 6",
            "note 1 2 3 4 -5",
            "open",
            "open hPa 120 0 -2",
            "open kPa 120 0 -2 662 8500:0",
            "save x",
            "",
            " ",
            "hear 000000000000000000000000000000000000",
        ] {
            assert_eq!(Sent::of(line.as_bytes()), None, "{line}");
        }
    }

    #[test]
    fn cut_at_every_byte_it_keeps_every_whole_line() {
        let groups = groups_sent();
        let sent = groups.concat();
        let (bytes, ends) = written(&groups);
        let lines = line_ends(&bytes, &sent);
        assert!(sent.len() == 13 && bytes.len() > 500, "{}", bytes.len());
        let folder = folder();
        let (path, torn) = (folder.path().join("journal"), folder.path().join("torn"));
        for cut in 0..=bytes.len() {
            fs::write(&path, &bytes[..cut]).unwrap();
            let _ = fs::remove_file(&torn);
            // before the head's sum nothing is a watch's yet
            let sum = ends
                .iter()
                .copied()
                .filter(|&end| end <= cut)
                .max()
                .unwrap_or(0);
            let whole = lines.iter().filter(|&&end| sum > 0 && end <= cut).count();
            let adopted = lines
                .iter()
                .filter(|&&end| sum > 0 && end > sum && end <= cut)
                .count();
            let rest = &bytes[sum.max(if whole > 0 { lines[whole - 1] } else { 0 })..cut];
            let told = |aside: Option<&Path>| {
                let torn = (!rest.is_empty()).then(|| Found::Torn {
                    bytes: rest.to_vec(),
                    aside: aside.map(Path::to_path_buf),
                });
                let adopted = (adopted > 0).then_some(Found::Adopted { count: adopted });
                (torn, adopted)
            };

            let (heard, found) = look(&path);
            assert_eq!(heard, sent[..whole], "{cut}");
            let (cut_line, kept) = told(None);
            assert_eq!(
                found,
                kept.into_iter().chain(cut_line).collect::<Vec<_>>(),
                "{cut}"
            );
            assert_eq!(fs::read(&path).unwrap(), bytes[..cut], "{cut}");
            assert!(!torn.exists());

            let new = [message(99, 16)];
            let after = [&sent[..whole], &new].concat();
            let (heard, found) = keep(&path, &new);
            assert_eq!(heard, after, "{cut}");
            let (cut_line, kept) = told(Some(&torn));
            assert_eq!(
                found,
                cut_line.into_iter().chain(kept).collect::<Vec<_>>(),
                "{cut}"
            );
            assert_eq!(look(&path), (after, vec![]), "{cut}");
            let aside = if rest.is_empty() {
                None
            } else {
                Some([rest, b"\n"].concat())
            };
            assert_eq!(fs::read(&torn).ok(), aside, "{cut}");
        }
    }

    /// The byte at a place as damage may leave it.
    fn altered(bytes: &[u8], at: usize) -> impl Iterator<Item = Vec<u8>> + '_ {
        let to = [bytes[at] ^ 1, 0, b'\n'];
        to.into_iter()
            .filter(move |&byte| byte != bytes[at])
            .map(move |byte| {
                let mut damaged = bytes.to_vec();
                damaged[at] = byte;
                damaged
            })
    }

    #[test]
    fn every_byte_altered_is_told_and_nothing_is_heard_that_was_not_sent() {
        let groups = groups_sent();
        let sent = groups.concat();
        let (bytes, ends) = written(&groups);
        let folder = folder();
        let path = folder.path().join("journal");
        let mut tried = 0;
        for at in 0..bytes.len() {
            // the head's group is 0
            let group = ends.iter().filter(|&&end| end <= at).count();
            let text = &bytes[..ends[group]];
            let sum = text.len()
                - 1
                - text[..text.len() - 1]
                    .iter()
                    .rev()
                    .position(|&b| b == b'\n')
                    .unwrap();
            let without = |first: usize, last: usize| {
                let stays = |n: &usize| *n < first || *n > last;
                let groups = (1..=groups.len())
                    .filter(stays)
                    .map(|n| groups[n - 1].clone());
                groups.collect::<Vec<_>>().concat()
            };
            for damaged in altered(&bytes, at) {
                fs::write(&path, &damaged).unwrap();
                let (heard, found) = look(&path);
                assert_eq!(fs::read(&path).unwrap(), damaged);
                assert!(!found.is_empty(), "{at}");
                assert!(are_of(&heard, &sent), "{at}");
                if at < sum - 1 {
                    // in its lines: this group and no other is passed over
                    assert_eq!(heard, without(group, group), "{at}");
                    assert!(
                        matches!(found[..], [Found::Damaged { .. }]),
                        "{at}: {found:?}"
                    );
                } else {
                    // in its sum, or the line's end before it: this group and the next at the most
                    assert!(are_of(&without(group, group + 1), &heard), "{at}");
                }
                // and then it goes on
                let new = [message(99, 16)];
                let (again, _) = keep(&path, &new);
                assert_eq!(again, [&heard[..], &new].concat(), "{at}");
                assert_eq!(look(&path).0, again, "{at}");
                tried += 1;
            }
        }
        assert!(tried > 2 * bytes.len());
    }

    #[test]
    fn damage_behind_the_last_sum_alters_one_line_that_was_never_acknowledged() {
        let groups = groups_sent();
        let sent = groups.concat();
        let (bytes, ends) = written(&groups);
        let (acknowledged, sum) = (sent.len() - 2, ends[ends.len() - 2]);
        // the last group without its sum
        let end = *line_ends(&bytes, &sent).last().unwrap();
        let folder = folder();
        let path = folder.path().join("journal");
        for at in sum..end {
            for damaged in altered(&bytes[..end], at) {
                fs::write(&path, &damaged).unwrap();
                let (heard, found) = look(&path);
                assert_eq!(heard[..acknowledged], sent[..acknowledged], "{at}");
                let others = heard[acknowledged..]
                    .iter()
                    .filter(|&one| !sent.contains(one))
                    .count();
                // one that is altered; or cut in two, of which the first may be a short message
                assert!(others <= 1 && heard.len() <= sent.len(), "{at}: {heard:?}");
                assert!(!found.is_empty(), "{at}");
                let new = [message(99, 16)];
                let (again, _) = keep(&path, &new);
                assert_eq!(again, [&heard[..], &new].concat(), "{at}");
                assert_eq!(look(&path), (again, vec![]), "{at}");
            }
        }
    }

    #[test]
    fn lines_behind_the_last_sum_are_handed_on_once() {
        let (bytes, ends) = written(&groups_sent());
        let folder = folder();
        let path = folder.path().join("journal");
        let acknowledged = ends[ends.len() - 2];
        fs::write(&path, &bytes[..acknowledged + WHOLE]).unwrap();
        let sent = groups_sent().concat();
        let mut journal = Journal::open(&path, Access::Write).unwrap();
        let mut heard: Vec<Sent> = Vec::new();
        for _ in 0..3 {
            let mut each = |sent: &Sent| heard.push(sent.clone());
            journal.look(&mut each, &Progress::silent()).unwrap();
        }
        assert_eq!(journal.take_found(), [Found::Adopted { count: 1 }]);
        assert_eq!(heard[1..], sent[..12]);
        // another one mends it
        let one = [message(98, 16)];
        keep(&path, &one);
        let two = [message(99, 16)];
        let mut each = |sent: &Sent| heard.push(sent.clone());
        journal
            .append("", &two, &mut each, &Progress::silent())
            .unwrap();
        assert_eq!(heard[1..], [&sent[..12], &one, &two].concat());
        assert_eq!((look(&path).1, journal.count()), (vec![], 14));
    }

    #[test]
    fn what_could_not_be_mended_is_mended_by_the_next_one() {
        let (bytes, ends) = written(&groups_sent());
        let folder = folder();
        let path = folder.path().join("journal");
        let acknowledged = ends[ends.len() - 2];
        fs::write(&path, &bytes[..acknowledged]).unwrap();
        let mut journal = Journal::open(&path, Access::Write).unwrap();
        let mut heard: Vec<Sent> = Vec::new();
        let new = [message(99, 16)];
        let mut append = |journal: &mut Journal| {
            let mut each = |sent: &Sent| heard.push(sent.clone());
            journal.append("", &new, &mut each, &Progress::silent())
        };
        // a disk that takes nothing, as a file that is open for reading alone
        fs::write(&path, &bytes[..acknowledged + WHOLE]).unwrap();
        let file = std::mem::replace(&mut journal.file, File::open(&path).unwrap());
        assert!(append(&mut journal)
            .unwrap_err()
            .0
            .contains("cannot write to"));
        journal.file = file;
        append(&mut journal).unwrap();
        let sent = [&groups_sent().concat()[..12], &new].concat();
        assert_eq!(heard[1..], sent);
        assert_eq!(look(&path), (sent, vec![]));
    }
}
