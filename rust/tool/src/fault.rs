//! Why something could not be done, as one clear line or several, for the person who asked; and how many of something there are.

use std::fmt;
use std::io;
use std::path::Path;

/// What went wrong, in words, and the status to end with. Nothing was changed, unless the words say so.
#[derive(Debug)]
pub struct Fault(pub String, pub u8);

/// The statuses to end with, but for 0.
pub const REFUSED: u8 = 1;
pub const NOT_UNDERSTOOD: u8 = 2;
pub const NOT_DONE: u8 = 3;

pub type Result<T> = std::result::Result<T, Fault>;

impl fmt::Display for Fault {
    fn fmt(&self, line: &mut fmt::Formatter<'_>) -> fmt::Result {
        line.write_str(&self.0)
    }
}

/// A fault by its words: `fault!("there is no folder {}", path.display())`.
macro_rules! fault {
    ($($words:tt)*) => { $crate::fault::Fault(format!($($words)*), $crate::fault::NOT_DONE) };
}
pub(crate) use fault;

/// The same of something that was not understood.
macro_rules! unclear {
    ($($words:tt)*) => { $crate::fault::Fault(format!($($words)*), $crate::fault::NOT_UNDERSTOOD) };
}
pub(crate) use unclear;

/// A line on standard error. Where it cannot be written, as on a full disk, the work goes on without it.
macro_rules! say {
    ($($words:tt)*) => {{
        use std::io::Write as _;
        let _ = writeln!(std::io::stderr(), "zhitomrak: {}", format_args!($($words)*));
    }};
}
pub(crate) use say;

/// The words of an error of the system, without its number.
pub fn words(error: &io::Error) -> String {
    match error.kind() {
        io::ErrorKind::NotFound => "it is not there".into(),
        io::ErrorKind::PermissionDenied => "that is not permitted".into(),
        io::ErrorKind::StorageFull => "the disk is full".into(),
        io::ErrorKind::QuotaExceeded => "no more room is granted on this disk".into(),
        io::ErrorKind::FileTooLarge => "the file may not grow so large".into(),
        io::ErrorKind::IsADirectory => "it is a folder".into(),
        io::ErrorKind::NotADirectory => "a part of its name is no folder".into(),
        io::ErrorKind::ReadOnlyFilesystem => "the disk can only be read".into(),
        io::ErrorKind::InvalidFilename => "no file can have that name".into(),
        _ => {
            let text = error.to_string();
            match text.find(" (os error") {
                Some(end) => text[..end].to_lowercase(),
                None => text,
            }
        }
    }
}

/// What could not be done with a path: `cannot read night.messages: it is not there`.
pub fn cannot<'a>(what: &'a str, path: &'a Path) -> impl FnOnce(io::Error) -> Fault + 'a {
    move |error| fault!("cannot {what} {}: {}", path.display(), words(&error))
}

/// `1 record`, `2 records`.
pub fn counted(count: impl TryInto<u64>, what: &str) -> String {
    match count.try_into().unwrap_or(u64::MAX) {
        1 => format!("1 {what}"),
        count => format!("{count} {what}s"),
    }
}
