//! What each command does, on the command line and at the prompt alike.

use std::io::{self, IsTerminal, Read, Write};
use std::path::{Path, PathBuf};

use chrono::{DateTime, Utc};
use clap::ArgMatches;
use serde_json::json;
use zhitomrak::watchfile::{self, Record, WatchFile, LISTING_MAX_BYTES, MAX_BYTES};
use zhitomrak::{Entry, Kind, LAST_MINUTE};

use crate::answers::{self, Form};
use crate::ended::ended;
use crate::fault::{cannot, counted, fault, unclear, Result};
use crate::files::{self, Old};
use crate::hand;
use crate::journal::{Access, Sent};
use crate::keep::{self, cannot_tell, Manner};
use crate::log::{self, Log, Put};
use crate::minutes::{Clock, Stretch};
use crate::sheet::{self, refusal};
use crate::status;
use crate::struck;
use crate::watch::{self, Outcome, Watch};
use crate::{picture, plot, shell, why};

/// How a command ended, where it could be done.
#[derive(Clone, Copy, Debug, PartialEq, Eq, PartialOrd, Ord)]
pub enum Done {
    Well,
    /// The station refused, by a number.
    Refused,
    /// At the prompt: no more commands.
    Quit,
}

/// What a command works on: the prompt's watch, or the one whose folder it is told.
pub struct Desk<'a> {
    at_prompt: Option<&'a mut Watch>,
    opened: Option<Watch>,
}

impl<'a> Desk<'a> {
    pub fn new(at_prompt: Option<&'a mut Watch>) -> Desk<'a> {
        Desk {
            at_prompt,
            opened: None,
        }
    }

    /// The watch's folder, for one who needs no journal.
    fn folder(&self, told: &ArgMatches) -> Result<PathBuf> {
        if let Some(watch) = &self.at_prompt {
            return Ok(watch.folder().to_path_buf());
        }
        let folder = path(told, "FOLDER");
        watch::is_one(&folder).map(|()| folder)
    }

    /// The watch, with everything that was written so far.
    fn watch(&mut self, told: &ArgMatches, access: Access) -> Result<&mut Watch> {
        match &mut self.at_prompt {
            Some(watch) => {
                watch.catch_up()?;
                Ok(watch)
            }
            None => Ok(self
                .opened
                .insert(Watch::open(&path(told, "FOLDER"), access)?)),
        }
    }

    /// The watch's clock, without its journal.
    fn clock(&self, told: &ArgMatches) -> Clock {
        match &self.at_prompt {
            Some(watch) => watch.clock(),
            None => watch::clock(&path(told, "FOLDER")),
        }
    }
}

fn word<'a>(told: &'a ArgMatches, name: &str) -> &'a str {
    told.get_one::<String>(name).map_or("", String::as_str)
}

fn path(told: &ArgMatches, name: &str) -> PathBuf {
    told.get_one::<PathBuf>(name).cloned().unwrap_or_default()
}

fn form(told: &ArgMatches) -> Form {
    match (told.get_flag("json"), told.get_flag("raw")) {
        (true, _) => Form::Json,
        (_, true) => Form::Raw,
        _ => Form::Words,
    }
}

fn old(told: &ArgMatches) -> Old {
    if told.get_flag("replace") {
        Old::Replaced
    } else {
        Old::Stays
    }
}

/// The questions that a word names: one, or `all`.
fn kinds(told: &ArgMatches) -> Result<Vec<Kind>> {
    let name = word(told, "QUESTION");
    match answers::question(name) {
        Some(kind) => Ok(vec![kind]),
        None if name == answers::ALL => Ok(Kind::ALL.to_vec()),
        None => Err(unclear!("`{name}` is no question")),
    }
}

macro_rules! tell {
    ($out:expr, $($words:tt)*) => { writeln!($out, $($words)*).map_err(cannot_tell) };
}

/// Does what a command says; what it answers goes to `out`.
pub fn run(name: &str, told: &ArgMatches, desk: &mut Desk, out: &mut dyn Write) -> Result<Done> {
    match name {
        "init" => init(told, out),
        "keep" => keep(told, desk),
        "ask" => ask(told, desk, out),
        "status" => show_status(told, desk, out),
        "plot" => draw(told, desk, out),
        "reading" => reading(told, desk, out),
        "dial" => dial(told, desk, out),
        "strike" => strike(told, desk, out),
        "log" => put(told, desk, out),
        "show" => show(told, desk, out),
        "drop" => take_out(told, desk, out),
        "save" => save(told, desk, out),
        "load" => load(told, desk, out),
        "list" => list(told, out),
        "settings" => settings(told, desk, out),
        "example" => tell!(
            out,
            "{}",
            include_str!("../../../samples/station.toml").trim_end()
        )
        .map(|()| Done::Well),
        "why" => {
            let number = told.get_one::<u32>("NUMBER").copied().unwrap_or(0);
            tell!(out, "{}", why::why(number)?.trim_end())?;
            Ok(Done::Well)
        }
        "shell" => shell::shell(&path(told, "FOLDER")),
        "quit" => Ok(Done::Quit),
        _ => Err(fault!("`{name}` is no command")),
    }
}

fn init(told: &ArgMatches, out: &mut dyn Write) -> Result<Done> {
    let folder = path(told, "FOLDER");
    let sheet = watch::init(&folder, &path(told, "settings"))?;
    tell!(
        out,
        "{} is a watch now: its settings are in station.toml, and its journal is empty",
        folder.display()
    )?;
    if sheet.epoch.is_none() {
        tell!(
            out,
            "station.toml has no epoch, so minutes have no times until it has one"
        )?;
    }
    Ok(Done::Well)
}

fn keep(told: &ArgMatches, desk: &mut Desk) -> Result<Done> {
    let manner = Manner {
        verbose: told.get_flag("verbose"),
        raw: told.get_flag("raw"),
        at_a_time: told
            .get_one::<u16>("at-a-time")
            .copied()
            .unwrap_or(4096)
            .into(),
    };
    let watch = desk.watch(told, Access::Write)?;
    let heard = keep::keep(watch, &path(told, "from"), manner, Box::new(io::stdout()))?;
    Ok(if heard { Done::Well } else { Done::Refused })
}

/// The minutes that are asked for; without any the newest of the channel that the question is about.
fn minutes(told: &ArgMatches, watch: &Watch, kind: Kind) -> Result<Stretch> {
    match told.get_one::<String>("WHEN") {
        Some(when) => watch.clock().stretch(when, watch.newest_of_all()),
        None => match watch.newest(answers::channel(kind)) {
            Some(newest) => Ok(Stretch {
                first: newest,
                last: newest,
            }),
            None => Err(fault!(
                "nothing is heard yet of the {}",
                hand::title(answers::channel(kind))
            )),
        },
    }
}

/// An answer of a watch, a line.
fn shown(watch: &Watch, form: Form, kind: Kind, minute: u32, answer: &answers::Answer) -> String {
    answers::show(
        form,
        &watch.clock(),
        &|channel| watch.kept(channel),
        kind,
        minute,
        answer,
    )
}

fn ask(told: &ArgMatches, desk: &mut Desk, out: &mut dyn Write) -> Result<Done> {
    let (kinds, form) = (kinds(told)?, form(told));
    let watch = desk.watch(told, Access::Read)?;
    let mut done = Done::Well;
    for kind in kinds {
        let Stretch { first, last } = minutes(told, watch, kind)?;
        for minute in (first..=last).take_while(|_| !ended()) {
            let answer = answers::ask(watch.store(), kind, minute);
            tell!(out, "{}", shown(watch, form, kind, minute, &answer))?;
            if answer.is_err() {
                done = Done::Refused;
            }
        }
    }
    Ok(done)
}

fn show_status(told: &ArgMatches, desk: &mut Desk, out: &mut dyn Write) -> Result<Done> {
    let watch = desk.watch(told, Access::Read)?;
    let text = if told.get_flag("json") {
        status::for_programs(watch).map(|object| format!("{object}\n"))
    } else {
        status::in_words(watch, told.get_flag("gaps"), columns())
    };
    let text = text.map_err(|why| fault!("{why}"))?;
    out.write_all(text.as_bytes()).map_err(cannot_tell)?;
    Ok(Done::Well)
}

/// What became of something that was entered for a minute.
fn entered(
    out: &mut dyn Write,
    watch: &Watch,
    (instrument, minute): (&str, u32),
    kept: &str,
    came_to: Outcome,
) -> Result<Done> {
    let clock = watch.clock();
    let what = format!("{}, {instrument}", clock.name(minute));
    match came_to {
        Ok(()) => tell!(out, "{what}: kept, {kept}").map(|()| Done::Well),
        Err(why) => {
            let why =
                answers::refused_in_words(&clock, &|channel| watch.kept(channel), minute, why);
            tell!(out, "{what}: {why}").map(|()| Done::Refused)
        }
    }
}

/// The minute of an entry. One that lies ahead of the clock, or a day after everything heard, is likely a slip, and would keep its
/// instrument from being heard until then.
fn entry_minute(told: &ArgMatches, watch: &Watch) -> Result<u32> {
    let clock = watch.clock();
    let minute = clock.minute(word(told, "WHEN"), watch.newest_of_all())?;
    let latest = clock.now().map(|now| now.saturating_add(10));
    let latest = latest.or(watch
        .newest_of_all()
        .map(|newest| newest.saturating_add(24 * 60)));
    if !told.get_flag("ahead")
        && minute <= LAST_MINUTE
        && latest.is_some_and(|latest| minute > latest)
    {
        return Err(unclear!(
            "{} is yet to come; --ahead enters it all the same, and until then nothing else is heard of the instrument",
            clock.name(minute)
        ));
    }
    Ok(minute)
}

/// What is kept of a channel's minute, as the library says it.
fn kept(watch: &Watch, channel: zhitomrak::Channel, minute: u32) -> String {
    watch
        .store()
        .reading(channel, minute)
        .map_or_else(|why| why.to_string(), |reading| reading.to_string())
}

fn reading(told: &ArgMatches, desk: &mut Desk, out: &mut dyn Write) -> Result<Done> {
    let watch = desk.watch(told, Access::Write)?;
    let minute = entry_minute(told, watch)?;
    let second = told.get_one::<String>("SECOND").map(String::as_str);
    let (instrument, message) = hand::message(
        word(told, "INSTRUMENT"),
        minute,
        word(told, "VALUE"),
        second,
    )?;
    let came_to = watch.enter(Sent::message(message.as_bytes()))?;
    let kept = kept(watch, instrument.channel, minute);
    entered(out, watch, (instrument.title, minute), &kept, came_to)
}

fn dial(told: &ArgMatches, desk: &mut Desk, out: &mut dyn Write) -> Result<Done> {
    let number = |name: &str| {
        let text = word(told, name);
        text.parse::<u32>().map_err(|_| {
            unclear!("`{text}` is no whole number, as the dial, the compass and the watch show")
        })
    };
    let (direction, first, second, seconds) = (
        number("DIRECTION")?,
        number("FIRST")?,
        number("SECOND")?,
        number("SECONDS")?,
    );
    let watch = desk.watch(told, Access::Write)?;
    let minute = entry_minute(told, watch)?;
    let entry = Entry {
        minute,
        direction,
        first,
        second,
        seconds,
    };
    let came_to = watch.enter(Sent::Entry(entry))?;
    let kept = kept(watch, zhitomrak::Channel::ApparentWind, minute);
    entered(out, watch, ("hand anemometer", minute), &kept, came_to)
}

fn strike(told: &ArgMatches, desk: &mut Desk, out: &mut dyn Write) -> Result<Done> {
    let name = word(told, "INSTRUMENT");
    let instrument = hand::named(name).ok_or_else(|| unclear!("`{name}` is no instrument"))?;
    let watch = desk.watch(told, Access::Read)?;
    let minute = watch
        .clock()
        .minute(word(told, "WHEN"), watch.newest_of_all())?;
    let what = format!("{}, {}", watch.clock().name(minute), instrument.title);
    let place = (instrument.channel.number(), minute);
    let before = watch.store().reading(instrument.channel, minute);
    if told.get_flag("back") {
        if !watch.struck().contains(&place) {
            return Err(fault!("{what}: nothing of it is struck out"));
        }
        struck::change(watch.folder(), |struck| {
            let last = struck.iter().rposition(|&other| other == place);
            last.map(|index| struck.remove(index));
        })?;
    } else {
        let before =
            before.map_err(|why| fault!("{what}: there is nothing to strike out: {why}"))?;
        struck::change(watch.folder(), |struck| struck.push(place))?;
        tell!(out, "{what}: struck out, {before}")?;
    }
    watch.catch_up()?;
    match watch.store().reading(instrument.channel, minute) {
        Ok(reading) => tell!(out, "{what}: kept, {reading}")?,
        Err(_) => tell!(out, "{what}: nothing is kept")?,
    }
    Ok(Done::Well)
}

fn put(told: &ArgMatches, desk: &mut Desk, out: &mut dyn Write) -> Result<Done> {
    let (kinds, old) = (kinds(told)?, old(told));
    let watch = desk.watch(told, Access::Read)?;
    let mut log = Log::open(watch.folder())?;
    let mut done = Done::Well;
    for kind in kinds {
        let Stretch { first, last } = minutes(told, watch, kind)?;
        for minute in (first..=last).take_while(|_| !ended()) {
            let answer = answers::ask(watch.store(), kind, minute);
            let shown = shown(watch, Form::Words, kind, minute, &answer);
            let Ok(body) = answer else {
                tell!(out, "{shown}")?;
                done = Done::Refused;
                continue;
            };
            let became = log.put(&Record::new(minute, body), old)?;
            tell!(out, "{shown}; {}", in_words(&became))?;
        }
    }
    Ok(done)
}

/// What became of a record, in words.
fn in_words(put: &Put) -> String {
    match put {
        Put::Placed { sheet, new: true } if *sheet > 1 => {
            format!("logged, the first of a new sheet, log-{sheet}.watch")
        }
        Put::Placed { .. } => "logged".into(),
        Put::There { .. } => "it was in the log already".into(),
        Put::Replaced { .. } => "logged, in place of another".into(),
    }
}

/// A record as a person reads it: `minute 1080 (..): 8.4 m/s from 29° (..)`.
fn record_in_words(clock: &Clock, record: &Record) -> String {
    match record.body() {
        Some(body) => format!(
            "{}: {}",
            clock.name(record.minute()),
            answers::in_words(&body)
        ),
        None => record.to_string(),
    }
}

/// The records of a watch file in a form.
fn records(file: &WatchFile, form: Form, clock: &Clock, out: &mut dyn Write) -> Result<()> {
    match form {
        Form::Raw => write!(out, "{file}").map_err(cannot_tell),
        Form::Words => file
            .into_iter()
            .try_for_each(|record| tell!(out, "{}", record_in_words(clock, &record))),
        Form::Json => file.into_iter().try_for_each(|record| match record.body() {
            Some(body) => tell!(
                out,
                "{}",
                answers::for_programs(clock, body.kind(), record.minute(), &Ok(body))
            ),
            None => Ok(()),
        }),
    }
}

fn show(told: &ArgMatches, desk: &mut Desk, out: &mut dyn Write) -> Result<Done> {
    let (clock, form) = (desk.clock(told), form(told));
    let log = Log::open(&desk.folder(told)?)?;
    if log.sheets().is_empty() && log.broken() == 0 && form == Form::Words {
        tell!(out, "the log is empty")?;
    }
    for sheet in log.sheets() {
        if form == Form::Words {
            tell!(
                out,
                "log-{}.watch, {} of 48 records",
                sheet.number,
                sheet.file.records().len()
            )?;
        }
        records(&sheet.file, form, &clock, out)?;
    }
    Ok(Done::Well)
}

fn take_out(told: &ArgMatches, desk: &mut Desk, out: &mut dyn Write) -> Result<Done> {
    let (clock, kinds) = (desk.clock(told), kinds(told)?);
    let mut log = Log::open(&desk.folder(told)?)?;
    let newest = log.records().last().map(|(_, record)| record.minute());
    let minute = clock.minute(word(told, "WHEN"), newest)?;
    let mut done = Done::Refused;
    for kind in kinds {
        if let Some((_, record)) = log.take_out(kind, minute)? {
            tell!(
                out,
                "taken out of the log: {}",
                record_in_words(&clock, &record)
            )?;
            done = Done::Well;
        }
    }
    if done == Done::Refused {
        tell!(
            out,
            "{}: {}",
            clock.name(minute),
            refusal(zhitomrak::Refused::NoRecord)
        )?;
    }
    Ok(done)
}

/// A file of a person's own: not one that a watch lives by, nor - for standard output.
fn own(path: &Path) -> Result<()> {
    let (parent, name) = files::parts(path)?;
    let name = name.to_string_lossy();
    if path.as_os_str() == "-" {
        return Err(unclear!("it is saved to a file, and - is none"));
    }
    let a_watch_s = parent.join(watch::JOURNAL).exists()
        && (["station.toml", "journal", "torn", "struck", "history"].contains(&&*name)
            || (name.starts_with("log-") && name.ends_with(".watch")));
    if a_watch_s {
        return Err(fault!(
            "{} is one of a watch's own files, and stays as it is: choose another name",
            path.display()
        ));
    }
    Ok(())
}

fn save(told: &ArgMatches, desk: &mut Desk, out: &mut dyn Write) -> Result<Done> {
    let to = path(told, "FILE");
    own(&to)?;
    let log = Log::open(&desk.folder(told)?)?;
    let sheets = log.sheets();
    let sheet = match (told.get_one::<usize>("sheet"), sheets) {
        (_, []) if log.broken() > 0 => return Err(fault!("the log has no sheet that is whole")),
        (_, []) => return Err(fault!("the log is empty: there is nothing to save")),
        (Some(&number), _) => sheets
            .iter()
            .find(|sheet| sheet.number == number)
            .ok_or_else(|| fault!("the log has no sheet {number}"))?,
        (None, [only]) if log.broken() == 0 => only,
        (None, _) => {
            let whole: Vec<String> = sheets
                .iter()
                .map(|sheet| sheet.number.to_string())
                .collect();
            return Err(unclear!(
                "the log has several sheets: say which with --sheet N, of {}; `show` shows them",
                whole.join(", ")
            ));
        }
    };
    files::save(&to, sheet.file.as_bytes(), old(told))?;
    tell!(
        out,
        "saved to {}: {}",
        to.display(),
        counted(sheet.file.records().len(), "record")
    )?;
    Ok(Done::Well)
}

fn load(told: &ArgMatches, desk: &mut Desk, out: &mut dyn Write) -> Result<Done> {
    let from = path(told, "FILE");
    let file = log::read(&from)?;
    let mut log = Log::open(&desk.folder(told)?)?;
    let (clock, old) = (desk.clock(told), old(told));
    let (mut new, mut there, mut other) = (0, 0, 0);
    for record in &file {
        match log.put(&record, old) {
            Ok(Put::There { .. }) => there += 1,
            Ok(_) => new += 1,
            Err(why) => {
                other += 1;
                tell!(
                    out,
                    "not loaded: {}: {why}",
                    record_in_words(&clock, &record)
                )?;
            }
        }
    }
    tell!(
        out,
        "{}: {} put into the log, {there} there before, {other} not loaded",
        from.display(),
        counted(new, "record")
    )?;
    if other > 0 {
        return Err(fault!("not all of {} is in the log", from.display()));
    }
    Ok(Done::Well)
}

fn list(told: &ArgMatches, out: &mut dyn Write) -> Result<Done> {
    let from = path(told, "FILE");
    let bytes = if from.as_os_str() == "-" {
        let mut bytes = Vec::new();
        let most = MAX_BYTES as u64 + 1;
        io::stdin()
            .take(most)
            .read_to_end(&mut bytes)
            .map_err(cannot("read", Path::new("standard input")))?;
        bytes
    } else {
        files::read(&from, MAX_BYTES as u64 + 1)?
    };
    let form = form(told);
    match (WatchFile::from_bytes(&bytes), form) {
        (Ok(file), _) => {
            let epoch = told.get_one::<DateTime<Utc>>("epoch").copied();
            records(&file, form, &Clock::new(epoch), out).map(|()| Done::Well)
        }
        (Err(_), Form::Raw) => {
            let mut room = [0; LISTING_MAX_BYTES];
            let text = watchfile::list(&bytes, &mut room).map_err(|why| fault!("{why}"))?;
            out.write_all(text)
                .map_err(cannot_tell)
                .map(|()| Done::Refused)
        }
        (Err(why), Form::Json) => tell!(
            out,
            "{}",
            json!({ "refused": answers::refused(why), "sentence": why.to_string() })
        )
        .map(|()| Done::Refused),
        (Err(why), Form::Words) => {
            tell!(out, "{}: {}", from.display(), refusal(why)).map(|()| Done::Refused)
        }
    }
}

/// How wide the terminal is; 100 where there is none.
fn columns() -> usize {
    let size = io::stdout()
        .is_terminal()
        .then(terminal_size::terminal_size)
        .flatten();
    size.map_or(100, |(width, _)| usize::from(width.0).max(60))
}

/// Whether the terminal's letters are Unicode's, by the environment.
fn unicode() -> bool {
    let set = |name| std::env::var(name).ok().filter(|value| !value.is_empty());
    let locale = set("LC_ALL")
        .or_else(|| set("LC_CTYPE"))
        .or_else(|| set("LANG"));
    locale.is_some_and(|locale| locale.to_lowercase().contains("utf"))
}

fn draw(told: &ArgMatches, desk: &mut Desk, out: &mut dyn Write) -> Result<Done> {
    let when = told.get_one::<String>("WHEN").map(String::as_str);
    let picture = plot::picture(&desk.folder(told)?, word(told, "SUBJECT"), when)?;
    let Some(to) = told.get_one::<PathBuf>("output").cloned() else {
        let size = io::stdout()
            .is_terminal()
            .then(terminal_size::terminal_size)
            .flatten();
        let (columns, rows) = size.map_or((80, 24), |(width, height)| {
            (usize::from(width.0), usize::from(height.0))
        });
        let rows = rows.saturating_sub(2).clamp(12, 40);
        let text = picture::terminal(
            &picture,
            columns,
            rows,
            unicode() && !told.get_flag("ascii"),
        );
        out.write_all(text.as_bytes()).map_err(cannot_tell)?;
        return Ok(Done::Well);
    };
    own(&to)?;
    if to
        .extension()
        .is_none_or(|ending| !ending.eq_ignore_ascii_case("svg"))
    {
        return Err(unclear!(
            "a picture is SVG: its name is to end with .svg, as in barometer.svg"
        ));
    }
    let text = picture::svg(&picture).map_err(|why| fault!("cannot draw that: {why}"))?;
    files::save(&to, text.as_bytes(), old(told))?;
    tell!(out, "drawn to {}", to.display())?;
    Ok(Done::Well)
}

fn settings(told: &ArgMatches, desk: &mut Desk, out: &mut dyn Write) -> Result<Done> {
    let watch = desk.watch(told, Access::Read)?;
    let settings = watch.store().settings().map_err(|why| fault!("{why}"))?;
    let text = sheet::write(&sheet::Sheet {
        settings,
        epoch: watch.clock().time(0),
    });
    out.write_all(text.as_bytes()).map_err(cannot_tell)?;
    Ok(Done::Well)
}
