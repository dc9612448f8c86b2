//! The tool's commands and their words, once for the command line, where each is told the watch's folder, and once for the prompt,
//! which has it.

use std::path::PathBuf;

use chrono::{DateTime, Utc};
use clap::builder::PossibleValuesParser;
use clap::{Arg, ArgAction, Command};

use crate::answers::{ALL, QUESTIONS};
use crate::hand::INSTRUMENTS;
use crate::plot::SUBJECTS;

/// Where a command is given.
#[derive(Clone, Copy, Debug, PartialEq, Eq)]
pub enum Place {
    CommandLine,
    Prompt,
}

const WHEN: &str = "A minute, as 1081; a time, as 18:01 or 2026-11-16T18:01; or `now`. Times are UTC, and need an epoch in station.toml";
const STRETCH: &str = "A minute, as 1081; a time, as 18:01 or 2026-11-16T18:01; `now`; or a stretch, as 900..1081. Without it the newest minute";

const EXIT: &str = "Exit status: 0 done, 1 refused by one of the station's numbers (`zhitomrak why NUMBER`), 2 not understood, 3 could not be done.";

fn arg(name: &'static str, help: &'static str) -> Arg {
    Arg::new(name).required(true).help(help)
}

/// A file or a folder, whose name need not be text.
fn file(name: &'static str, help: &'static str) -> Arg {
    arg(name, help).value_parser(clap::value_parser!(PathBuf))
}

fn flag(name: &'static str, help: &'static str) -> Arg {
    Arg::new(name)
        .long(name)
        .action(ArgAction::SetTrue)
        .help(help)
}

/// Questions, and all of them.
fn questions() -> Arg {
    let names = QUESTIONS.map(|(name, _)| name).into_iter().chain([ALL]);
    Arg::new("QUESTION")
        .help("What is asked")
        .default_value(ALL)
        .value_parser(PossibleValuesParser::new(names))
}

fn question() -> Arg {
    arg("QUESTION", "What is asked")
        .value_parser(PossibleValuesParser::new(QUESTIONS.map(|(name, _)| name)))
}

/// How answers are shown.
fn forms() -> [Arg; 2] {
    [
        flag("json", "For programs: one JSON object a line").conflicts_with("raw"),
        flag(
            "raw",
            "The console's line: whole numbers of the last place kept",
        ),
    ]
}

/// Of entries: a minute that is yet to come is likely a slip.
fn ahead() -> Arg {
    flag("ahead", "Enters a minute that is yet to come, too")
}

fn replace() -> Arg {
    flag("replace", "Replaces what is there")
}

/// A command on a watch.
fn on_watch(place: Place, name: &'static str, about: &'static str) -> Command {
    let command = Command::new(name).about(about).allow_negative_numbers(true);
    match place {
        Place::CommandLine => command.arg(file("FOLDER", "The watch's folder")),
        Place::Prompt => command,
    }
}

/// The questions, and what the numbers of their console's lines are.
const SCALES: &str = "\
pressure   at sea level: hPa
tendency   its change in three hours: hPa, and the minutes without a reading
wind       the true wind: m/s, and the degrees that it comes from
humidity   by the psychrometer: hPa, percent, and the dew point in °C

A minute that is missing is refused (11) with its channel, and never filled.

--raw, in whole numbers:
P MINUTE PRESSURE           tenths of hPa
T MINUTE CHANGE ABSENT      tenths of hPa; minutes
W MINUTE SPEED DIRECTION    tenths of m/s; degrees 1 to 360, 0 in a calm
H MINUTE E SATURATION DEFICIT RELATIVE DEW
                            hundredths of hPa three times; percent; tenths of °C
refused NUMBER ..           and what `why NUMBER` says that it also returns";

fn ask(place: Place) -> Command {
    on_watch(
        place,
        "ask",
        "Asks for pressure, tendency, wind or humidity",
    )
    .arg(questions())
    .arg(Arg::new("WHEN").help(STRETCH))
    .args(forms())
    .after_help(SCALES)
}

fn status(place: Place) -> Command {
    on_watch(
        place,
        "status",
        "Shows of each instrument the newest minute, the last value, what is kept, and the gaps",
    )
    .arg(flag("gaps", "All gaps, and not only the newest"))
    .arg(flag("json", "For programs: one JSON object"))
}

fn reading(place: Place) -> Command {
    let instruments = PossibleValuesParser::new(INSTRUMENTS.map(|instrument| instrument.name));
    on_watch(
        place,
        "reading",
        "Enters a reading by hand, as if its instrument had sent it",
    )
    .arg(arg("INSTRUMENT", "Which instrument").value_parser(instruments))
    .arg(arg("WHEN", WHEN))
    .arg(arg("VALUE", "What it shows, in the unit below").allow_hyphen_values(true))
    .arg(
        Arg::new("SECOND")
            .help("Degrees for wind and motion; water, ice or unknown for the wet bulb")
            .allow_hyphen_values(true),
    )
    .arg(ahead())
    .after_help(
        "barometer   hPa, or mm Hg by station.toml   reading barometer 1081 1004.2\n\
         wheelhouse  °C                              reading wheelhouse 1081 18.5\n\
         wind        apparent: m/s, ° from the bow   reading wind 1080 8.4 29\n\
         motion      knots, ° of the course          reading motion 1080 12.5 260\n\
         dry         °C                              reading dry 1080 15.0\n\
         wet         °C, and water, ice or unknown   reading wet 1080 -3.2 ice\n\n\
         A minute is kept once, and must be later than the instrument's newest.",
    )
}

fn dial(place: Place) -> Command {
    on_watch(place, "dial", "Enters a wind by the hand anemometer")
        .arg(arg("WHEN", WHEN))
        .arg(arg("DIRECTION", "Where the wind comes from by the compass, degrees"))
        .arg(arg("FIRST", "The dial before, 0 to 9999"))
        .arg(arg("SECOND", "The dial after"))
        .arg(arg("SECONDS", "The seconds between them, 1 to 600"))
        .arg(ahead())
        .after_help("dial 600 300 9940 80 60   at minute 600 from 300°, 60 s from 9940 past 9999 to 80\n\nThe ship's course of that minute has to be there.")
}

fn strike(place: Place) -> Command {
    let instruments = PossibleValuesParser::new(INSTRUMENTS.map(|instrument| instrument.name));
    on_watch(place, "strike", "Strikes a wrong reading out: the watch answers as if it had never come")
        .arg(arg("INSTRUMENT", "Which instrument").value_parser(instruments))
        .arg(arg("WHEN", WHEN))
        .arg(flag("back", "Takes that back"))
        .after_help("It stays in the journal. What was refused because of it, as the right reading of\nthat minute, is heard then.")
}

fn log(place: Place) -> Command {
    on_watch(place, "log", "Asks, and keeps the answer in the watch's log")
        .arg(questions())
        .arg(Arg::new("WHEN").help(STRETCH))
        .arg(replace())
        .after_help("The log has sheets of 48 records, `log-1.watch` and on in the watch's folder; a full one begins the next.")
}

fn show(place: Place) -> Command {
    on_watch(place, "show", "Shows the log").args(forms())
}

fn drop(place: Place) -> Command {
    on_watch(place, "drop", "Takes a record out of the log")
        .arg(question())
        .arg(arg("WHEN", WHEN))
}

fn save(place: Place) -> Command {
    on_watch(
        place,
        "save",
        "Saves the log as a watch file: whole, or not at all",
    )
    .arg(file("FILE", "The watch file"))
    .arg(
        Arg::new("sheet")
            .long("sheet")
            .value_name("N")
            .value_parser(clap::value_parser!(usize))
            .help("Which sheet, where the log has several"),
    )
    .arg(replace())
}

fn load(place: Place) -> Command {
    on_watch(
        place,
        "load",
        "Puts the records of a watch file into the log",
    )
    .arg(file("FILE", "The watch file"))
    .arg(replace())
}

fn list() -> Command {
    Command::new("list")
        .about("Lists a watch file")
        .arg(file("FILE", "The watch file, or - for standard input"))
        .args(forms())
        .arg(
            Arg::new("epoch")
                .long("epoch")
                .value_name("TIME")
                .value_parser(clap::value_parser!(DateTime<Utc>))
                .help("When minute 0 was, as 2026-11-16T00:00:00Z: records are then shown with their times"),
        )
}

fn plot(place: Place) -> Command {
    let subjects = PossibleValuesParser::new(SUBJECTS.map(|(name, _)| name));
    on_watch(
        place,
        "plot",
        "Draws barometer, pressure, wind or humidity, here or as a picture; gaps are named",
    )
    .arg(arg("SUBJECT", "What is drawn").value_parser(subjects))
    .arg(
        Arg::new("WHEN").help(
            "A stretch of minutes or times, as 400..1081. Without it what is kept, 256 minutes",
        ),
    )
    .arg(
        file("output", "The picture's file; without it the terminal")
            .required(false)
            .short('o')
            .long("output")
            .value_name("FILE.svg"),
    )
    .arg(flag("ascii", "In the terminal, with plain letters alone"))
    .arg(replace())
    .after_help(
        "barometer   its readings; arrows with the tendency at full hours and at the\n\
            \x20           end, where one can be given\n\
             pressure    the same at sea level\n\
             wind        the true wind, and arrows the way it blows\n\
             humidity    relative humidity, dry bulb and dew point",
    )
}

fn why() -> Command {
    Command::new("why")
        .about("Tells what a refusal's number means, and what to do")
        .arg(arg("NUMBER", "The number").value_parser(clap::value_parser!(u32)))
}

fn settings(place: Place) -> Command {
    on_watch(
        place,
        "settings",
        "Shows the settings that the watch was begun with, as a station.toml",
    )
}

/// What a station.toml says.
const KEYS: &str = "\
`zhitomrak example >station.toml` writes one to begin with. It says:
epoch                            when minute 0 was: 2026-11-16T00:00:00Z
barometer_unit                   \"hPa\" or \"mmHg\"
height_m                         of the barometer, 0.0 to 60.0
sea_level_difference_m           -30.0 to 30.0; 0.0 if left out
temperature_coefficient_per_C    -0.050 to 0.050 of the barometer's unit
psychrometer_coefficient_per_C   0.000500 to 0.001000; 0.000662 if left out
certificate                      [[reading, what is added to it], ..]
anemometer_certificate           [[divisions a second, m/s], ..]; or left out
`zhitomrak why 10` and `why 25` tell the rules of the certificates.";

fn keep(place: Place) -> Command {
    let from = file(
        "from",
        "Where messages come from: a file, a device, or - for standard input",
    )
    .value_name("FILE|DEVICE|-");
    let from = match place {
        Place::CommandLine => from.long("from"),
        Place::Prompt => from,
    };
    on_watch(
        place,
        "keep",
        "Hears messages of 16 bytes, each written to the journal before it is heard",
    )
    .arg(from)
    .arg(
        flag(
            "verbose",
            "Tells each message when it is on the disk and heard",
        )
        .short('v'),
    )
    .arg(flag("raw", "The counts as one line, and nothing else"))
    .arg(
        Arg::new("at-a-time")
            .long("at-a-time")
            .value_name("N")
            .default_value("4096")
            .value_parser(clap::value_parser!(u16).range(1..=4096))
            .help("How many messages are written at a time, where so many are there"),
    )
    .after_help(
        "Bytes are cut into messages of 16 (docs/FORMAT.md). From a device it goes on\n\
             until Ctrl-C; `stty -F DEVICE raw 9600` sets its line. Several may keep one\n\
             watch, each from its own device, and entries by hand come between.",
    )
}

/// The commands of a place.
pub fn all(place: Place) -> Command {
    let line = place == Place::CommandLine;
    let mut command = Command::new("zhitomrak")
        .about("A ship's weather station whose every figure is proved: keeps a watch, answers, draws, and loses nothing")
        .version(env!("CARGO_PKG_VERSION"))
        .subcommand_required(true)
        .arg_required_else_help(line)
        .no_binary_name(!line);
    if line {
        command = command
            .subcommand(
                Command::new("init")
                    .about("Begins a watch: a folder with its settings and an empty journal")
                    .arg(file("FOLDER", "The folder that is made"))
                    .arg(
                        file("settings", "The station.toml to begin with")
                            .long("settings")
                            .value_name("FILE"),
                    )
                    .after_help(KEYS),
            )
            .subcommand(
                Command::new("example")
                    .about("Writes a station.toml to begin with: zhitomrak example >station.toml"),
            )
            .after_help(EXIT);
    } else {
        command = command
            .disable_version_flag(true)
            .help_template("Commands:\n{subcommands}\n  quit      Ends, as Ctrl-D does\n\n`help COMMAND` says more of one. pressure, tendency, wind and humidity may stand without `ask`.")
            .subcommand(Command::new("quit").alias("exit").hide(true));
    }
    command = command
        .subcommand(keep(place))
        .subcommand(ask(place))
        .subcommand(status(place))
        .subcommand(plot(place))
        .subcommand(reading(place))
        .subcommand(dial(place))
        .subcommand(strike(place))
        .subcommand(log(place))
        .subcommand(show(place))
        .subcommand(drop(place))
        .subcommand(save(place))
        .subcommand(load(place))
        .subcommand(list())
        .subcommand(settings(place))
        .subcommand(why());
    if line {
        command = command.subcommand(on_watch(
            place,
            "shell",
            "The same commands at a prompt, with history and completion",
        ));
    }
    command
}

#[cfg(test)]
mod tests {
    use super::*;

    #[test]
    fn commands_are_well_formed() {
        all(Place::CommandLine).debug_assert();
        all(Place::Prompt).debug_assert();
    }
}
