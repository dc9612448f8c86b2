//! Keeping a watch: messages come in from a file or a device, are written to the journal, and are heard.

use std::fs::{self, File, OpenOptions};
use std::io::{self, IsTerminal, Read, Write};
use std::os::fd::{AsFd, AsRawFd};
use std::os::unix::fs::{MetadataExt, OpenOptionsExt};
use std::path::Path;
use std::time::{Duration, Instant};

use nix::errno::Errno;
use nix::fcntl::OFlag;
use nix::poll::{poll, PollFd, PollFlags};
use nix::sys::termios::{tcgetattr, LocalFlags, Termios};
use zhitomrak::Refused;

use crate::ended::{ended, in_order};
use crate::fault::{cannot, counted, fault, say, words, Fault, Result, NOT_DONE};
use crate::files;
use crate::frames::{Cut, Frames};
use crate::hand::instrument;
use crate::journal::Sent;
use crate::progress::{Coming, Progress};
use crate::sheet::refusal;
use crate::watch::{Outcome, Watch, JOURNAL};

/// How many messages came to what: heard at 0, and by the numbers of refusals.
#[derive(Clone)]
pub struct Counts([u64; 256]);

impl Counts {
    pub fn new() -> Counts {
        Counts([0; 256])
    }

    fn add(&mut self, came_to: &Outcome) {
        let number = came_to.as_ref().map_or_else(|why| why.number(), |()| 0);
        self.0[number as usize % 256] += 1;
    }

    fn refused(&self) -> impl Iterator<Item = (u32, u64)> + '_ {
        (1..)
            .zip(self.0[1..].iter().copied())
            .filter(|&(_, count)| count > 0)
    }

    /// `heard 1128, refused 8: 1320, refused 19: 6`.
    fn raw(&self) -> String {
        let refused: String = self
            .refused()
            .map(|(number, count)| format!(", refused {number}: {count}"))
            .collect();
        format!("heard {}{refused}\n", self.0[0])
    }

    fn heard(&self) -> u64 {
        self.0[0]
    }

    fn all(&self) -> u64 {
        self.0.iter().sum()
    }

    /// How many were messages, heard or not: those that are none are refused by 1 to 7.
    fn of_messages(&self) -> u64 {
        self.all() - self.0[1..8].iter().sum::<u64>()
    }

    /// `2454 messages: 1128 heard, 1326 refused`.
    fn in_short(&self) -> String {
        let all = counted(self.all(), "message");
        format!(
            "{all}: {} heard, {} refused",
            self.heard(),
            self.all() - self.heard()
        )
    }

    /// The same, with what each number refused.
    fn in_words(&self) -> String {
        let mut text = self.in_short() + "\n";
        for (number, count) in self.refused() {
            text += &format!(
                "{count:>10} refused {number}: {}\n",
                Refused::text_of(number).unwrap_or_default()
            );
        }
        text
    }
}

/// How it is kept.
#[derive(Clone, Copy)]
pub struct Manner {
    pub verbose: bool,
    pub raw: bool,
    /// How many messages are written at a time.
    pub at_a_time: usize,
}

impl Manner {
    /// The counts, as they are wanted.
    fn told(&self, counts: &Counts) -> String {
        if self.raw {
            counts.raw()
        } else {
            counts.in_words()
        }
    }
}

/// What a message is, as far as its bytes say: `minute 1081, barometer`.
fn name(watch: &Watch, bytes: &[u8]) -> String {
    match bytes {
        [channel, _, _, _, a, b, c, d, _, _, _, _, _, _, _, _] => {
            let minute = u32::from_le_bytes([*a, *b, *c, *d]);
            let title = match instrument(u32::from(*channel)) {
                Some(instrument) => instrument.title.to_string(),
                None => format!("channel {channel}"),
            };
            format!("{}, {title}", watch.clock().name(minute))
        }
        _ => counted(bytes.len(), "byte"),
    }
}

/// What a message came to, in words: what is kept of it, or why it is not.
fn told(watch: &Watch, bytes: &[u8], came_to: &Outcome) -> String {
    let what = name(watch, bytes);
    match came_to {
        Err(why) => format!("{what}: {}", refusal(*why)),
        Ok(()) => {
            let minute = u32::from_le_bytes([bytes[4], bytes[5], bytes[6], bytes[7]]);
            let kept = instrument(u32::from(bytes[0]))
                .and_then(|it| watch.store().reading(it.channel, minute).ok());
            match kept {
                Some(reading) => format!("{what}: heard, {reading}"),
                // a later one of the same time has passed it by already
                None => format!("{what}: heard"),
            }
        }
    }
}

/// Where messages come from.
struct Source {
    file: File,
    /// How many bytes a file has; none of what comes as it comes.
    length: Option<u64>,
}

/// How long nothing comes after a message has begun, until the rest of it is no longer waited for.
const PAUSE: Duration = Duration::from_secs(2);

/// How often an end is asked for meanwhile.
const TICK: Duration = Duration::from_millis(100);

/// After so many bytes without a message that is told.
const NOTHING: usize = 1024;

impl Source {
    fn open(watch: &Watch, path: &Path) -> Result<Source> {
        if path.as_os_str() == "-" {
            let name = "standard input";
            // without a buffer: what has come is asked of the system
            let file = File::from(
                io::stdin()
                    .as_fd()
                    .try_clone_to_owned()
                    .map_err(cannot("read", Path::new(name)))?,
            );
            raw(&file, name, "name a file or a device")?;
            return Ok(Source { file, length: None });
        }
        let there = fs::metadata(path).map_err(cannot("read", path))?;
        let name = path.display();
        if there.is_dir() {
            return Err(fault!(
                "cannot read {name}: it is a folder; messages come from a file or a device"
            ));
        }
        let itself =
            |journal: fs::Metadata| (journal.dev(), journal.ino()) == (there.dev(), there.ino());
        if fs::metadata(watch.folder().join(JOURNAL)).is_ok_and(itself) {
            return Err(fault!(
                "cannot read {name}: it is the journal that is written to"
            ));
        }
        // a pipe that nobody writes to yet, or a line without a carrier, is waited for below
        let mut how = OpenOptions::new();
        let file = how
            .read(true)
            .custom_flags(OFlag::O_NONBLOCK.bits())
            .open(path)
            .map_err(cannot("read", path))?;
        raw(
            &file,
            &name.to_string(),
            &format!("first `stty -F {name} raw 9600`"),
        )?;
        let length = there.is_file().then_some(there.len());
        if there.is_file() && begins_with_none(watch, path)? {
            return Err(fault!(
                "{name} begins with no message: is it the right file? (`cat FILE | zhitomrak keep FOLDER --from -` keeps anything)"
            ));
        }
        Ok(Source { file, length })
    }

    /// Whether something has come within a pause, or the end; not so where it is to end.
    fn comes(&self, within: Duration) -> Result<bool> {
        let began = Instant::now();
        loop {
            let mut fds = [PollFd::new(self.file.as_raw_fd(), PollFlags::POLLIN)];
            match poll(&mut fds, TICK.as_millis() as i32) {
                Ok(0) | Err(Errno::EINTR) => {}
                Ok(_) => return Ok(true),
                Err(error) => {
                    return Err(fault!(
                        "cannot wait for what comes: {}",
                        words(&error.into())
                    ))
                }
            }
            if ended() || began.elapsed() > within {
                return Ok(false);
            }
        }
    }
}

/// A terminal's line has to hand on bytes as they are, and at once.
fn raw(file: &File, name: &str, instead: &str) -> Result<()> {
    let cooked = |line: Termios| line.local_flags.contains(LocalFlags::ICANON);
    if file.is_terminal() && tcgetattr(file.as_raw_fd()).is_ok_and(cooked) {
        return Err(fault!(
            "{name} is a terminal whose line changes what comes: {instead}"
        ));
    }
    Ok(())
}

/// Whether a file's first bytes, some hundred messages long, hold none at any place.
fn begins_with_none(watch: &Watch, path: &Path) -> Result<bool> {
    let settings = watch.store().settings().map_err(|why| fault!("{why}"))?;
    let mut frames = Frames::new(&settings);
    frames.push(&files::read(path, 4096)?);
    Ok(frames.waiting() >= 16 && !frames.has_any())
}

/// What was kept so far.
struct So {
    counts: Counts,
    coming: Coming,
    out: Box<dyn Write>,
    /// The newest minute of all, before.
    newest: Option<u32>,
}

/// Hears everything that comes, up to its end, or until it is told to end. The counts are told then; whether anything was heard,
/// where anything came.
pub fn keep(watch: &mut Watch, from: &Path, manner: Manner, out: Box<dyn Write>) -> Result<bool> {
    in_order();
    let mut source = Source::open(watch, from)?;
    let what = match from.as_os_str() == "-" {
        true => "keeps what comes; Ctrl-C ends".to_string(),
        false => format!("keeps what comes from {}; Ctrl-C ends", from.display()),
    };
    let live = source.length.is_none();
    let mut so = So {
        counts: Counts::new(),
        coming: Coming::new(what, live && !manner.verbose && !manner.raw),
        out,
        newest: watch.newest_of_all(),
    };
    let progress = Progress::new("hears the messages", source.length.unwrap_or(0));
    let done = hear(watch, &mut source, from, manner, &mut so, &progress);
    drop(progress);
    drop(so.coming);
    let mut told = Ok(());
    if done.is_ok() || so.counts.all() > 0 {
        let text = manner.told(&so.counts);
        told = so
            .out
            .write_all(text.as_bytes())
            .and_then(|()| so.out.flush());
    }
    done?;
    told.map_err(cannot_tell)?;
    Ok(so.counts.heard() > 0 || so.counts.all() == 0)
}

/// Why an answer could not be given.
pub fn cannot_tell(error: io::Error) -> Fault {
    if error.kind() == io::ErrorKind::BrokenPipe {
        return Fault(String::new(), NOT_DONE);
    }
    fault!("cannot write the answer: {}", words(&error))
}

fn hear(
    watch: &mut Watch,
    source: &mut Source,
    name: &Path,
    manner: Manner,
    so: &mut So,
    progress: &Progress,
) -> Result<()> {
    let settings = watch.store().settings().map_err(|why| fault!("{why}"))?;
    let mut frames = Frames::new(&settings);
    let mut bytes = vec![0; manner.at_a_time * 16];
    let (mut done, mut asked) = (0, false);
    while !ended() {
        if source.length.is_none() && !source.comes(PAUSE)? {
            // what was begun, and does not go on
            if !ended() {
                write(watch, frames.take(true), manner, so)?;
            }
            continue;
        }
        let got = match source.file.read(&mut bytes) {
            Err(error)
                if [io::ErrorKind::Interrupted, io::ErrorKind::WouldBlock]
                    .contains(&error.kind()) =>
            {
                continue
            }
            got => got.map_err(cannot("read", name))?,
        };
        frames.push(&bytes[..got]);
        done += got as u64;
        write(watch, frames.take(got == 0), manner, so)?;
        if !asked && done >= NOTHING as u64 && source.length.is_none() {
            asked = true;
            if so.counts.of_messages() == 0 {
                say!("nothing that came so far is a message: is it the right device, at the right speed?");
            }
        }
        if got == 0 {
            return Ok(());
        }
        progress.at(done);
    }
    if frames.waiting() > 0 {
        let begun = counted(frames.waiting(), "byte");
        say!("of the last message only {begun} had come; that is not kept");
    }
    Ok(())
}

/// Writes what came to the journal, has it heard, and tells what there is to tell.
fn write(watch: &mut Watch, cut: Cut, manner: Manner, so: &mut So) -> Result<()> {
    for slip in &cut.slips {
        let bytes = counted(*slip, "byte");
        say!("{bytes} are the rest of a message that was cut; the next begins behind them");
    }
    for sent in cut.sent.chunks(manner.at_a_time) {
        let came_to = watch.keep(sent)?;
        for (sent, came_to) in sent.iter().zip(&came_to) {
            so.counts.add(came_to);
            let Sent::Message { bytes, length } = sent else {
                continue;
            };
            let message = &bytes[..*length];
            if came_to.is_ok() {
                far_ahead(watch, message, &mut so.newest);
            }
            if manner.verbose {
                writeln!(so.out, "{}", told(watch, message, came_to)).map_err(cannot_tell)?;
            }
            if so.coming.is_shown() {
                let counts = so.counts.in_short();
                so.coming
                    .last(|| format!("{counts}; the last: {}", told(watch, message, came_to)));
            }
        }
        so.out.flush().map_err(cannot_tell)?;
    }
    Ok(())
}

/// Tells of a minute that is more than a day after everything heard before: if it is wrong, its channel hears nothing until then.
fn far_ahead(watch: &Watch, message: &[u8], newest: &mut Option<u32>) {
    let minute = u32::from_le_bytes([message[4], message[5], message[6], message[7]]);
    if newest.is_some_and(|newest| minute > newest.saturating_add(24 * 60)) {
        say!(
            "{}: more than a day after everything heard before; is its clock right?",
            name(watch, message)
        );
    }
    *newest = (*newest).max(Some(minute));
}
