//! Files of people: read and saved whole, or told in words why not. A folder, a link or a device in place of a file is refused; a file
//! that is there is replaced only when told to, and then at one stroke, so that whoever looks sees the old one or the new one.

use std::ffi::OsStr;
use std::fs::{self, File, OpenOptions};
use std::io::{self, Read, Write};
use std::os::unix::fs::{FileTypeExt, PermissionsExt};
use std::path::Path;

use tempfile::TempPath;

use crate::fault::{cannot, fault, Fault, Result};

/// The folder that a path stands in, and its name there.
pub fn parts(path: &Path) -> Result<(&Path, &OsStr)> {
    let name = path
        .file_name()
        .ok_or_else(|| fault!("{} is no name of a file or a folder", path.display()))?;
    let parent = match path.parent() {
        Some(parent) if !parent.as_os_str().is_empty() => parent,
        _ => Path::new("."),
    };
    Ok((parent, name))
}

/// What stands in place of a file, in words.
fn kind(there: fs::FileType) -> &'static str {
    if there.is_dir() {
        "a folder"
    } else if there.is_symlink() {
        "a link"
    } else if there.is_fifo() {
        "a pipe"
    } else if there.is_socket() {
        "a socket"
    } else {
        "a device"
    }
}

/// Refuses what is there and is no file. This is asked before it is opened: a pipe would wait for its other end, a device might not end.
pub fn ordinary(what: &str, path: &Path) -> Result<()> {
    match fs::metadata(path) {
        Ok(there) if !there.is_file() => Err(fault!(
            "cannot {what} {}: it is {}",
            path.display(),
            kind(there.file_type())
        )),
        Err(error) if error.kind() != io::ErrorKind::NotFound => Err(cannot(what, path)(error)),
        _ => Ok(()),
    }
}

/// The bytes of a file, up to so many; a longer one is cut there.
pub fn read(path: &Path, most: u64) -> Result<Vec<u8>> {
    ordinary("read", path)?;
    let file = File::open(path).map_err(cannot("read", path))?;
    let mut bytes = Vec::new();
    file.take(most)
        .read_to_end(&mut bytes)
        .map_err(cannot("read", path))?;
    Ok(bytes)
}

/// Gives what was made for one's own eyes the mode that others would get, by the process's mask.
pub fn as_others(path: &Path, mode: u32) -> io::Result<()> {
    let status = fs::read_to_string("/proc/self/status").unwrap_or_default();
    let mask = status
        .lines()
        .find_map(|line| u32::from_str_radix(line.strip_prefix("Umask:")?.trim(), 8).ok());
    fs::set_permissions(
        path,
        fs::Permissions::from_mode(mode & !mask.unwrap_or(0o22)),
    )
}

/// Names in a folder are on the disk. Some disks have no way to ask for that.
pub fn sync_folder(folder: &Path) -> io::Result<()> {
    match File::open(folder)?.sync_all() {
        Err(error) if error.kind() != io::ErrorKind::InvalidInput => Err(error),
        _ => Ok(()),
    }
}

/// What is to become of a file that is there.
#[derive(Clone, Copy, Debug, PartialEq, Eq)]
pub enum Old {
    Stays,
    Replaced,
}

/// Saves the bytes under a name: all of them, on the disk, or none, and then what stood there is as it was.
pub fn save(path: &Path, bytes: &[u8], old: Old) -> Result<()> {
    let (parent, name) = parts(path)?;
    let there = match fs::symlink_metadata(path) {
        Ok(there) if !there.is_file() => {
            return Err(fault!(
                "cannot save to {}: it is {}, and stays as it is",
                path.display(),
                kind(there.file_type())
            ));
        }
        Ok(_) if old == Old::Stays => return Err(is_there(path)),
        Ok(there) => Some(there),
        Err(error) if error.kind() == io::ErrorKind::NotFound => None,
        Err(error) => return Err(cannot("save to", path)(error)),
    };
    if !parent.is_dir() {
        return Err(fault!(
            "cannot save to {}: there is no folder {}",
            path.display(),
            parent.display()
        ));
    }
    let (mut file, new) = beside(parent, name).map_err(cannot("save to", path))?;
    let written = (|| {
        if let Some(there) = there {
            file.set_permissions(there.permissions())?;
        }
        file.write_all(bytes)?;
        file.sync_all()
    })();
    written.map_err(cannot("save to", path))?;
    match old {
        Old::Replaced => new
            .persist(path)
            .map_err(|error| cannot("save to", path)(error.error))?,
        Old::Stays => new
            .persist_noclobber(path)
            .or_else(|error| match error.error.kind() {
                io::ErrorKind::AlreadyExists => Err(is_there(path)),
                // a disk without hard links, as a stick has: nobody else may begin the same file in this moment
                _ if !path.exists() => error
                    .path
                    .persist(path)
                    .map_err(|error| cannot("save to", path)(error.error)),
                _ => Err(cannot("save to", path)(error.error)),
            })?,
    }
    sync_folder(parent).map_err(cannot("save to", path))
}

fn is_there(path: &Path) -> Fault {
    fault!(
        "{} is there already, and was not changed; --replace replaces it",
        path.display()
    )
}

/// Takes away what [`beside`] left, where one was killed, of files whose names begin so. Where that cannot be it stays, and is no harm.
pub fn clear_away(folder: &Path, begin: &str) {
    let Ok(files) = fs::read_dir(folder) else {
        return;
    };
    for file in files.flatten() {
        let name = file.file_name();
        let name = name.to_string_lossy();
        if name.starts_with(&format!(".{begin}")) && name.ends_with(".part") {
            let _ = fs::remove_file(file.path());
        }
    }
}

/// A new file beside the one that is to be saved, which goes away unless it gets its name.
fn beside(parent: &Path, name: &OsStr) -> io::Result<(File, TempPath)> {
    for n in 0.. {
        let path = parent.join(format!(
            ".{}.{}-{n}.part",
            name.to_string_lossy(),
            std::process::id()
        ));
        match OpenOptions::new().write(true).create_new(true).open(&path) {
            Ok(file) => return Ok((file, TempPath::from_path(path))),
            Err(error) if error.kind() == io::ErrorKind::AlreadyExists && n < 1000 => {}
            Err(error) => return Err(error),
        }
    }
    unreachable!("there are more numbers than files")
}

#[cfg(test)]
mod tests {
    use super::*;

    #[test]
    fn what_is_no_file_is_refused_before_it_is_opened() {
        let folder = tempfile::tempdir().unwrap();
        let of = |name: &str| folder.path().join(name);
        let _socket = std::os::unix::net::UnixListener::bind(of("socket")).unwrap();
        for (path, what) in [
            (folder.path().to_path_buf(), "a folder"),
            (of("socket"), "a socket"),
            ("/dev/null".into(), "a device"),
        ] {
            let wanted = format!("cannot read {}: it is {what}", path.display());
            assert_eq!(read(&path, 9).unwrap_err().0, wanted);
        }
        let told = read(&of("nothing"), 9).unwrap_err().0;
        assert!(told.ends_with("nothing: it is not there"), "{told}");
        fs::write(of("file"), b"1234567890").unwrap();
        assert_eq!(read(&of("file"), 9).unwrap(), b"123456789");
    }
}
