//! The log of a watch: answers that were kept, as watch files in the watch's folder. A watch file has room for 48 records, so the log
//! has sheets, `log-1.watch`, `log-2.watch` and on: a 49th record begins the next one, and none is lost.

use std::fs::{self, File};
use std::io;
use std::path::{Path, PathBuf};

use zhitomrak::watchfile::{Record, WatchFile, MAX_BYTES, MAX_RECORDS};
use zhitomrak::Kind;

use crate::fault::{cannot, fault, say, Fault, Result, REFUSED};
use crate::files::{self, Old};
use crate::sheet::refusal;

/// A sheet: its number, its file, and what is in it.
pub struct Sheet {
    pub number: usize,
    pub path: PathBuf,
    pub file: WatchFile,
}

/// The log of a folder. Nobody else changes it while it is there.
pub struct Log {
    folder: PathBuf,
    sheets: Vec<Sheet>,
    broken: usize,
    /// The number of the next sheet.
    next: usize,
    _lock: File,
}

/// What became of a record.
#[derive(Debug, PartialEq, Eq)]
pub enum Put {
    /// It stands in a sheet; whether that is a new one.
    Placed { sheet: usize, new: bool },
    /// It was there, word for word.
    There { sheet: usize },
    /// It took the place of another of its minute and kind.
    Replaced { sheet: usize },
}

/// What bytes are as a watch file; or the refusal, with the file's name.
pub fn watch_file(name: &Path, bytes: &[u8]) -> Result<WatchFile> {
    WatchFile::from_bytes(bytes)
        .map_err(|why| Fault(format!("{}: {}", name.display(), refusal(why)), REFUSED))
}

/// A watch file that a person names. One byte more than the longest has is enough to find it broken.
pub fn read(path: &Path) -> Result<WatchFile> {
    watch_file(path, &files::read(path, MAX_BYTES as u64 + 1)?)
}

/// A record of this minute and kind.
fn find(file: &WatchFile, record: &Record) -> Option<Record> {
    let kind = |record: &Record| record.body().map(|body| body.kind());
    file.into_iter()
        .find(|other| other.minute() == record.minute() && kind(other) == kind(record))
}

/// The numbers of the sheets that a folder has, in their order.
fn numbers(folder: &Path) -> io::Result<Vec<usize>> {
    let mut numbers = Vec::new();
    for file in fs::read_dir(folder)? {
        let name = file?.file_name();
        let name = name.to_string_lossy();
        let number = name
            .strip_prefix("log-")
            .and_then(|rest| rest.strip_suffix(".watch"));
        // as it is written: log-07.watch is none
        numbers.extend(
            number
                .and_then(|n| n.parse().ok())
                .filter(|n: &usize| *n > 0 && name == format!("log-{n}.watch")),
        );
    }
    numbers.sort_unstable();
    Ok(numbers)
}

impl Log {
    /// Reads the sheets of a folder. One that is broken is told of, and stays as it is.
    pub fn open(folder: &Path) -> Result<Log> {
        let lock = File::open(folder).map_err(cannot("open", folder))?;
        lock.lock().map_err(cannot("lock", folder))?;
        let mut log = Log {
            folder: folder.to_path_buf(),
            sheets: Vec::new(),
            broken: 0,
            next: 1,
            _lock: lock,
        };
        // nobody else has the lock, so these are of one that was killed
        files::clear_away(folder, "log-");
        for number in numbers(folder).map_err(cannot("read", folder))? {
            log.next = number + 1;
            let path = log.path(number);
            match read(&path) {
                Ok(file) => log.sheets.push(Sheet { number, path, file }),
                Err(why) => {
                    say!("{why}; that sheet of the log is left as it is");
                    log.broken += 1;
                }
            }
        }
        Ok(log)
    }

    /// How many sheets are broken.
    pub fn broken(&self) -> usize {
        self.broken
    }

    fn path(&self, number: usize) -> PathBuf {
        self.folder.join(format!("log-{number}.watch"))
    }

    pub fn sheets(&self) -> &[Sheet] {
        &self.sheets
    }

    /// Every record with its sheet's number, by minute and kind.
    pub fn records(&self) -> Vec<(usize, Record)> {
        let mut all: Vec<(usize, Record)> = self
            .sheets
            .iter()
            .flat_map(|sheet| sheet.file.into_iter().map(|record| (sheet.number, record)))
            .collect();
        all.sort_by_key(|(_, record)| (record.minute(), record.body().map(|body| body.kind())));
        all
    }

    /// Puts a record into the log. One of its minute and kind that says something else stays, unless it is to be replaced.
    pub fn put(&mut self, record: &Record, old: Old) -> Result<Put> {
        let has = self
            .sheets
            .iter()
            .position(|sheet| find(&sheet.file, record).is_some());
        if let Some(index) = has {
            let sheet = self.sheets[index].number;
            let there = find(&self.sheets[index].file, record);
            if there.as_ref() == Some(record) {
                return Ok(Put::There { sheet });
            }
            if old == Old::Stays {
                let there = there.map(|there| there.to_string()).unwrap_or_default();
                return Err(fault!("the log has another record of this minute, and it stays: {there}; --replace replaces it"));
            }
            self.place(index, record)?;
            return Ok(Put::Replaced { sheet });
        }
        let room = self.sheets.last().is_some_and(|last| {
            last.number + 1 == self.next && last.file.records().len() < MAX_RECORDS
        });
        if !room {
            let (number, path) = (self.next, self.path(self.next));
            self.sheets.push(Sheet {
                number,
                path,
                file: WatchFile::new(),
            });
        }
        let index = self.sheets.len() - 1;
        let placed = self.place(index, record);
        if placed.is_err() && !room {
            self.sheets.pop();
        }
        placed?;
        let sheet = self.sheets[index].number;
        self.next = sheet + 1;
        Ok(Put::Placed { sheet, new: !room })
    }

    /// Places a record in a sheet, in memory and on the disk, or in neither.
    fn place(&mut self, index: usize, record: &Record) -> Result<()> {
        let sheet = &mut self.sheets[index];
        let mut file = sheet.file.clone();
        file.place(record)
            .map_err(|why| fault!("{record}: {}", refusal(why)))?;
        files::save(&sheet.path, file.as_bytes(), Old::Replaced)?;
        sheet.file = file;
        Ok(())
    }

    /// Takes a record out; which it was, and of which sheet. None where there is no such record.
    pub fn take_out(&mut self, kind: Kind, minute: u32) -> Result<Option<(usize, Record)>> {
        for sheet in &mut self.sheets {
            let is_it = |record: &Record| {
                record.minute() == minute && record.body().is_some_and(|body| body.kind() == kind)
            };
            let Some(record) = sheet.file.into_iter().find(is_it) else {
                continue;
            };
            let mut file = sheet.file.clone();
            file.take_out(kind, minute)
                .map_err(|why| fault!("{}: {}", sheet.path.display(), refusal(why)))?;
            files::save(&sheet.path, file.as_bytes(), Old::Replaced)?;
            sheet.file = file;
            return Ok(Some((sheet.number, record)));
        }
        Ok(None)
    }
}

#[cfg(test)]
mod tests {
    use super::*;
    use zhitomrak::Pressure;

    fn pressure(minute: u32, tenths: i64) -> Record {
        Record::new(minute, Pressure::from_tenths(tenths))
    }

    #[test]
    fn a_49th_record_begins_a_sheet() {
        let folder = tempfile::tempdir().unwrap();
        let mut log = Log::open(folder.path()).unwrap();
        for minute in 0..100 {
            let put = log.put(&pressure(minute, 10_000), Old::Stays).unwrap();
            let sheet = 1 + minute as usize / MAX_RECORDS;
            assert_eq!(
                put,
                Put::Placed {
                    sheet,
                    new: minute % 48 == 0
                }
            );
        }
        assert_eq!(
            log.put(&pressure(3, 10_000), Old::Stays).unwrap(),
            Put::There { sheet: 1 }
        );
        assert!(log
            .put(&pressure(3, 10_001), Old::Stays)
            .unwrap_err()
            .0
            .contains("stays"));
        assert_eq!(
            log.put(&pressure(3, 10_001), Old::Replaced).unwrap(),
            Put::Replaced { sheet: 1 }
        );
        drop(log);
        let mut log = Log::open(folder.path()).unwrap();
        let minutes: Vec<u32> = log
            .records()
            .iter()
            .map(|(_, record)| record.minute())
            .collect();
        assert_eq!(minutes, (0..100).collect::<Vec<_>>());
        assert_eq!(
            log.take_out(Kind::Pressure, 3).unwrap(),
            Some((1, pressure(3, 10_001)))
        );
        assert_eq!(log.take_out(Kind::Pressure, 3).unwrap(), None);
        assert_eq!(log.records().len(), 99);
    }

    #[test]
    fn a_broken_sheet_stays_and_the_next_is_begun() {
        let folder = tempfile::tempdir().unwrap();
        let broken = folder.path().join("log-1.watch");
        std::fs::write(&broken, b"WU").unwrap();
        let mut log = Log::open(folder.path()).unwrap();
        assert_eq!(
            log.put(&pressure(3, 10_000), Old::Stays).unwrap(),
            Put::Placed {
                sheet: 2,
                new: true
            }
        );
        assert_eq!(
            log.put(&pressure(4, 10_000), Old::Stays).unwrap(),
            Put::Placed {
                sheet: 2,
                new: false
            }
        );
        assert_eq!(std::fs::read(&broken).unwrap(), b"WU");
    }
}
