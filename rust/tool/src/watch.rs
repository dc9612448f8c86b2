//! A watch: a folder with `station.toml`, the settings as the person wrote them, `journal`, all that came since, `struck`, what of that
//! is passed over, and the sheets of the log. Started again, the tool sends the journal to an empty store, and that store answers as if
//! it had never stopped, since answers rest on what was sent and on nothing else (demand 3).

use std::fs;
use std::io::Write;
use std::path::{Path, PathBuf};

use zhitomrak::{Channel, Refused, Settings, Store};

use crate::fault::{cannot, fault, say, Result};
use crate::files;
use crate::journal::{self, Access, Journal, Sent};
use crate::minutes::{Clock, Stretch};
use crate::progress::Progress;
use crate::sheet;
use crate::status::KEPT;
use crate::struck::{self, Place, Struck};

/// A watch that was opened.
pub struct Watch {
    folder: PathBuf,
    store: Box<Store>,
    journal: Journal,
    clock: Clock,
    /// Whether the journal has opened the store.
    open: bool,
    /// The settings of station.toml, for a journal whose own are damaged.
    spare: Option<Settings>,
    /// Whether station.toml says another epoch than the watch was begun with.
    differs: bool,
    /// How many were heard, and how many refused.
    tally: [u64; 2],
    access: Access,
    /// What is struck out, and what of it is still to come.
    struck: Vec<Place>,
    to_come: Struck,
}

/// What is told of each line that was sent to a store, with what it came to.
pub type Each<'a> = &'a mut dyn FnMut(&Store, &Sent, Outcome);

/// What a message or an entry came to.
pub type Outcome = std::result::Result<(), Refused>;

/// The names of a watch's files.
pub const SHEET: &str = "station.toml";
pub const JOURNAL: &str = "journal";

/// Makes a watch of a folder that is not there yet, or empty: whole, or not at all.
pub fn init(folder: &Path, settings: &Path) -> Result<sheet::Sheet> {
    let bytes = files::read(settings, 1 << 20)?;
    let text = String::from_utf8(bytes)
        .map_err(|_| fault!("{}: it is no text (UTF-8)", settings.display()))?;
    let sheet = sheet::read(&settings.display().to_string(), &text)?;
    if let Ok(there) = fs::symlink_metadata(folder) {
        let empty =
            there.is_dir() && fs::read_dir(folder).is_ok_and(|mut files| files.next().is_none());
        if !empty {
            return Err(fault!("{} is there already, and was not changed: name a folder that is not, or an empty one", folder.display()));
        }
    }
    let (parent, name) = files::parts(folder)?;
    if !parent.is_dir() {
        return Err(fault!(
            "cannot make {}: there is no folder {}",
            folder.display(),
            parent.display()
        ));
    }
    let failed = || cannot("make", folder);
    let new = tempfile::Builder::new()
        .prefix(&format!(".{}.", name.to_string_lossy()))
        .suffix(".new")
        .tempdir_in(parent)
        .map_err(failed())?;
    let put = |file: &str, bytes: &[u8]| -> std::io::Result<()> {
        let mut file = fs::File::create_new(new.path().join(file))?;
        file.write_all(bytes)?;
        file.sync_all()
    };
    put(SHEET, text.as_bytes()).map_err(failed())?;
    put(
        JOURNAL,
        journal::head(&sheet.settings, sheet.epoch).as_bytes(),
    )
    .map_err(failed())?;
    files::as_others(new.path(), 0o777).map_err(failed())?;
    files::sync_folder(new.path()).map_err(failed())?;
    fs::rename(new.path(), folder).map_err(failed())?;
    // it has its name now: nothing is left to be taken away
    let _ = new.into_path();
    files::sync_folder(parent).map_err(failed())?;
    Ok(sheet)
}

/// Whether a folder is a watch; where not, that is told in words.
pub fn is_one(folder: &Path) -> Result<()> {
    let there = fs::metadata(folder).map_err(cannot("open the watch", folder))?;
    if !there.is_dir() {
        return Err(fault!("{} is no watch: it is no folder", folder.display()));
    }
    if fs::symlink_metadata(folder.join(JOURNAL))
        .is_err_and(|error| error.kind() == std::io::ErrorKind::NotFound)
    {
        return Err(fault!(
            "{} is no watch: {}",
            folder.display(),
            match folder.join(SHEET).exists() {
                true => "its journal is missing",
                false => "it has no journal; `zhitomrak init` begins one",
            }
        ));
    }
    Ok(())
}

/// What a watch's station.toml says.
fn read_sheet(folder: &Path) -> Result<sheet::Sheet> {
    let path = folder.join(SHEET);
    let bytes = files::read(&path, 1 << 20)?;
    sheet::read(
        &path.display().to_string(),
        &String::from_utf8_lossy(&bytes),
    )
}

/// A watch's clock, for one who needs nothing else of it.
pub fn clock(folder: &Path) -> Clock {
    let later = || read_sheet(folder).ok().and_then(|sheet| sheet.epoch);
    Clock::new(journal::epoch(&folder.join(JOURNAL)).or_else(later))
}

impl Watch {
    /// Opens a watch, and sends the whole journal to an empty store; what is found amiss is told on standard error.
    pub fn open(folder: &Path, access: Access) -> Result<Watch> {
        Watch::open_with(folder, access, &mut |_, _, _| {})
    }

    /// The same, and each line is handed on once it was sent.
    pub fn open_with(folder: &Path, access: Access, each: Each) -> Result<Watch> {
        let path = folder.join(JOURNAL);
        is_one(folder)?;
        let journal = Journal::open(&path, access)?;
        journal::is_of_this_form(&path)?;
        let struck = struck::read(folder)?;
        let mut watch = Watch {
            folder: folder.to_path_buf(),
            store: Box::new(Store::from_words([0; Store::WORDS])),
            journal,
            clock: Clock::default(),
            open: false,
            spare: None,
            differs: false,
            tally: [0; 2],
            access,
            to_come: Struck::new(&struck),
            struck,
        };
        watch.read_sheet();
        let length = fs::metadata(&path).map_err(cannot("read", &path))?.len();
        watch.go_on(
            ("", &[]),
            access,
            each,
            &Progress::new("replays the journal", length),
        )?;
        let Ok(kept) = watch.store.settings() else {
            return Err(fault!(
                "{}: it does not begin with the settings of a station",
                path.display()
            ));
        };
        if watch.differs || watch.spare.is_some_and(|written| written != kept) {
            let sheet = folder.join(SHEET);
            say!(
                "{} says something else than this watch was begun with, which it keeps; for other settings begin a new watch",
                sheet.display()
            );
        }
        Ok(watch)
    }

    /// The settings of station.toml; where they cannot be read that is told. The epoch is the journal's, or may come later.
    fn read_sheet(&mut self) {
        let begun = journal::epoch(self.journal.path());
        self.clock = Clock::new(begun);
        match read_sheet(&self.folder) {
            Ok(sheet) => {
                self.spare = Some(sheet.settings);
                self.clock = Clock::new(begun.or(sheet.epoch));
                if begun.is_some() && begun != sheet.epoch {
                    self.differs = true;
                }
            }
            Err(why) => {
                say!("{why}\nzhitomrak: the watch keeps the settings that it was begun with")
            }
        }
    }

    /// Takes over what was written since, and with `Access::Write` writes the lines and then sends them.
    fn go_on(
        &mut self,
        (remark, sent): (&str, &[Sent]),
        access: Access,
        each: Each,
        progress: &Progress,
    ) -> Result<()> {
        let (store, journal, open, spare) = (
            &mut self.store,
            &mut self.journal,
            &mut self.open,
            self.spare,
        );
        let (tally, to_come) = (&mut self.tally, &mut self.to_come);
        let mut to_store = |sent: &Sent| {
            // a second opening would take everything away, and no journal has one
            if !*open {
                let settings = match sent {
                    Sent::Opening(settings) => Some(&**settings),
                    _ => spare.as_ref(),
                };
                if let Some(Ok(opened)) = settings.map(Store::open) {
                    **store = opened;
                    *open = true;
                    if !matches!(sent, Sent::Opening(_)) {
                        say!("the journal's own settings cannot be read; those of station.toml are taken");
                    }
                }
            }
            if matches!(sent, Sent::Opening(_)) {
                return;
            }
            if to_come.takes(sent, store) {
                // its minute counts as one that was there
                return each(store, sent, Err(Refused::Repeated));
            }
            let came_to = sent.send(store);
            tally[usize::from(came_to.is_err())] += 1;
            each(store, sent, came_to);
        };
        let done = match access {
            Access::Read => journal.look(&mut to_store, progress),
            Access::Write => journal.append(remark, sent, &mut to_store, progress),
        };
        for found in self.journal.take_found() {
            say!("{}", found.words(self.journal.path()));
        }
        done
    }

    /// Writes what came into the journal, and onto the disk; then the store hears it, behind what others have written since. What
    /// each came to.
    pub fn keep(&mut self, sent: &[Sent]) -> Result<Vec<Outcome>> {
        self.keep_as("", sent)
    }

    /// The same for one that a person has entered.
    pub fn enter(&mut self, sent: Sent) -> Result<Outcome> {
        let came_to = self.keep_as(journal::BY_HAND, &[sent])?;
        Ok(came_to.first().copied().unwrap_or(Ok(())))
    }

    fn keep_as(&mut self, remark: &str, sent: &[Sent]) -> Result<Vec<Outcome>> {
        self.strike()?;
        let mut came_to = Vec::with_capacity(sent.len());
        self.go_on(
            (remark, sent),
            Access::Write,
            &mut |_, _, told| came_to.push(told),
            &Progress::silent(),
        )?;
        // those of others come first
        Ok(came_to.split_off(came_to.len() - sent.len()))
    }

    /// Begins anew where something else is struck out than before.
    fn strike(&mut self) -> Result<()> {
        if struck::read(&self.folder)? != self.struck {
            *self = Watch::open(&self.folder, self.access)?;
        }
        Ok(())
    }

    /// What is struck out.
    pub fn struck(&self) -> &[Place] {
        &self.struck
    }

    /// Takes over what others have written since.
    pub fn catch_up(&mut self) -> Result<()> {
        self.strike()?;
        self.go_on(
            ("", &[]),
            Access::Read,
            &mut |_, _, _| {},
            &Progress::silent(),
        )
    }

    pub fn folder(&self) -> &Path {
        &self.folder
    }

    pub fn store(&self) -> &Store {
        &self.store
    }

    pub fn clock(&self) -> Clock {
        self.clock
    }

    /// How many messages and entries came.
    pub fn count(&self) -> u64 {
        self.journal.count()
    }

    /// How many of them were heard, and how many refused.
    pub fn tally(&self) -> [u64; 2] {
        self.tally
    }

    /// The newest minute of a channel.
    pub fn newest(&self, channel: Channel) -> Option<u32> {
        self.store.newest(channel).ok().flatten()
    }

    /// The minutes that a channel could keep, by its number: its newest and those before it.
    pub fn kept(&self, channel: u32) -> Option<Stretch> {
        let newest = self.newest(Channel::numbered(channel)?)?;
        Some(Stretch {
            first: newest.saturating_sub(KEPT as u32 - 1),
            last: newest,
        })
    }

    /// The newest minute of all.
    pub fn newest_of_all(&self) -> Option<u32> {
        Channel::ALL
            .into_iter()
            .filter_map(|channel| self.newest(channel))
            .max()
    }
}

#[cfg(test)]
mod tests {
    use super::*;
    use std::time::Instant;
    use zhitomrak::{BulbState, Counts, Message};

    const STATION: &str = include_str!("../../../samples/station.toml");

    /// The messages of so many minutes, six each.
    fn messages(minutes: u32) -> Vec<u8> {
        let mut bytes = Vec::new();
        for minute in 0..minutes {
            let change = (minute % 97) as f32 * 0.1;
            for message in [
                Message::barometer(minute, 1000.0 + change),
                Message::wheelhouse(minute, 15.0 + change),
                Message::apparent_wind(minute, change, change * 30.0),
                Message::ship_motion(minute, 12.5, 260.0),
                Message::dry_bulb(minute, 10.0 + change),
                Message::wet_bulb(minute, 8.0 + change, BulbState::Water),
            ] {
                bytes.extend_from_slice(message.as_bytes());
            }
        }
        bytes
    }

    /// `bench/replay`: opening a watch of two million messages beside hearing the same from a bare file, the least of five rounds.
    #[test]
    #[ignore = "it measures"]
    fn replay_beside_the_bare_file() {
        let folder = tempfile::tempdir().unwrap();
        let (sheet, at) = (folder.path().join("sheet"), folder.path().join("watch"));
        fs::write(&sheet, STATION).unwrap();
        init(&at, &sheet).unwrap();
        let bytes = messages(333_334);
        let count = bytes.len() / 16;
        let bare = folder.path().join("bare");
        fs::write(&bare, &bytes).unwrap();
        let mut watch = Watch::open(&at, Access::Write).unwrap();
        let began = Instant::now();
        for chunk in bytes.chunks(16 * 4096) {
            let sent: Vec<Sent> = Sent::messages(chunk).collect();
            watch.keep(&sent).unwrap();
        }
        let kept = began.elapsed();
        let mut least = [f64::MAX; 2];
        for _ in 0..5 {
            let began = Instant::now();
            let mut store = Store::open(&watch.store().settings().unwrap()).unwrap();
            let mut counts = Counts::default();
            store.hear_all(&fs::read(&bare).unwrap(), &mut counts);
            least[0] = least[0].min(began.elapsed().as_secs_f64());
            let began = Instant::now();
            let again = Watch::open(&at, Access::Read).unwrap();
            least[1] = least[1].min(began.elapsed().as_secs_f64());
            assert!(again.store() == &store && again.count() == count as u64);
        }
        let each = |seconds: f64| seconds / count as f64 * 1e9;
        println!(
            "{count} messages: the bare file {:.1} ns each, the journal {:.1}, {:.1} times; {:.0} ms in all; kept in {:.2} s",
            each(least[0]),
            each(least[1]),
            least[1] / least[0],
            least[1] * 1e3,
            kept.as_secs_f64()
        );
    }

    #[test]
    fn what_is_struck_out_has_never_come() {
        let folder = tempfile::tempdir().unwrap();
        let (sheet, at, other) = (
            folder.path().join("sheet"),
            folder.path().join("watch"),
            folder.path().join("other"),
        );
        fs::write(&sheet, STATION).unwrap();
        init(&at, &sheet).unwrap();
        init(&other, &sheet).unwrap();
        let (mut watch, mut right) = (
            Watch::open(&at, Access::Write).unwrap(),
            Watch::open(&other, Access::Write).unwrap(),
        );
        let sent = |message: Message| Sent::message(message.as_bytes());
        let wrong = sent(Message::barometer(700_000, 1040.2));
        assert_eq!(watch.enter(wrong).unwrap(), Ok(()));
        for minute in [300, 301] {
            let reading = sent(Message::barometer(minute, 1004.2));
            assert!(watch.enter(reading.clone()).unwrap().is_err());
            assert_eq!(right.enter(reading).unwrap(), Ok(()));
        }
        let journal = fs::read(at.join(JOURNAL)).unwrap();
        struck::change(&at, |struck| struck.push((0, 700_000))).unwrap();
        // in a watch that is open, and in one that is opened then
        watch.catch_up().unwrap();
        assert!(watch.store() == right.store());
        assert!(Watch::open(&at, Access::Read).unwrap().store() == right.store());
        assert_eq!(fs::read(at.join(JOURNAL)).unwrap(), journal);
        // two of one minute: the first is struck out, and the second then too
        for value in [1040.3, 1004.3] {
            let _ = watch.enter(sent(Message::barometer(302, value))).unwrap();
        }
        let kept = |watch: &Watch| {
            watch
                .store()
                .reading(Channel::Barometer, 302)
                .map(|reading| reading.to_string())
        };
        for wanted in [Ok("1040.3 hPa"), Ok("1004.3 hPa"), Err(())] {
            assert_eq!(kept(&watch).as_deref().map_err(|_| ()), wanted);
            struck::change(&at, |struck| struck.push((0, 302))).unwrap();
            watch.catch_up().unwrap();
        }
        // and back
        struck::change(&at, Vec::clear).unwrap();
        watch.catch_up().unwrap();
        assert_eq!(watch.newest(Channel::Barometer), Some(700_000));
    }

    #[test]
    fn a_journal_whose_head_is_cut_is_told_in_words() {
        let folder = tempfile::tempdir().unwrap();
        let (sheet, watch) = (folder.path().join("sheet"), folder.path().join("watch"));
        fs::write(&sheet, STATION).unwrap();
        init(&watch, &sheet).unwrap();
        let journal = watch.join(JOURNAL);
        let head = fs::read(&journal).unwrap();
        assert!(Watch::open(&watch, Access::Write).is_ok());
        assert_eq!(fs::read(&journal).unwrap(), head);
        for cut in 0..head.len() {
            for access in [Access::Read, Access::Write] {
                fs::write(&journal, &head[..cut]).unwrap();
                let told = Watch::open(&watch, access).map(|_| ()).unwrap_err().0;
                assert!(
                    told.contains("does not begin with the settings"),
                    "{cut}: {told}"
                );
                let left = if access == Access::Read {
                    &head[..cut]
                } else {
                    &[]
                };
                assert_eq!(fs::read(&journal).unwrap(), left, "{cut}");
            }
        }
    }
}
