//! The prompt: the same commands without the folder, with history and completion. Where standard input is no terminal it reads lines,
//! and shows no prompt.

use std::io::{self, BufRead, IsTerminal, Write};
use std::path::Path;

use rustyline::completion::{Completer, FilenameCompleter, Pair};
use rustyline::error::ReadlineError;
use rustyline::{CompletionType, Config, Context, Editor};

use crate::answers::{question, ALL, QUESTIONS};
use crate::commands::{all, Place};
use crate::ended::in_order;
use crate::fault::{cannot, fault, say, unclear, Result};
use crate::hand::INSTRUMENTS;
use crate::journal::Access;
use crate::keep::cannot_tell;
use crate::plot::SUBJECTS;
use crate::run::{run, Desk, Done};
use crate::watch::Watch;

/// The words of a line. In quotes, or behind a backslash, a word may hold blanks.
fn words(line: &str) -> Result<Vec<String>> {
    let mut words = Vec::new();
    let mut word: Option<String> = None;
    let mut quote = None;
    let mut letters = line.chars();
    while let Some(letter) = letters.next() {
        match (letter, quote) {
            (_, Some(end)) if letter == end => quote = None,
            ('\\', None) => word.get_or_insert_with(String::new).extend(letters.next()),
            (_, Some(_)) => word.get_or_insert_with(String::new).push(letter),
            ('"' | '\'', None) => {
                quote = Some(letter);
                word.get_or_insert_with(String::new);
            }
            _ if letter.is_whitespace() => words.extend(word.take()),
            _ => word.get_or_insert_with(String::new).push(letter),
        }
    }
    if quote.is_some() {
        return Err(unclear!("a quote is not closed"));
    }
    words.extend(word);
    Ok(words)
}

/// What completes words: commands, then what a command takes, then files.
struct Helper {
    files: FilenameCompleter,
}

/// What may stand at a word's place.
fn candidates(before: &[&str]) -> Vec<String> {
    let named = |names: &[&str]| names.iter().map(|name| name.to_string()).collect();
    match before {
        [] | ["help"] => {
            let commands = all(Place::Prompt);
            let names = commands
                .get_subcommands()
                .map(|command| command.get_name().to_string());
            names
                .chain(QUESTIONS.map(|(name, _)| name.to_string()))
                .collect()
        }
        ["ask" | "log" | "drop"] => named(&QUESTIONS.map(|(name, _)| name)),
        ["reading"] => named(&INSTRUMENTS.map(|instrument| instrument.name)),
        ["reading", "wet", _, _] => named(&["water", "ice", "unknown"]),
        ["plot"] => named(&SUBJECTS.map(|(name, _)| name)),
        _ => Vec::new(),
    }
}

impl Completer for Helper {
    type Candidate = Pair;

    fn complete(
        &self,
        line: &str,
        at: usize,
        context: &Context<'_>,
    ) -> rustyline::Result<(usize, Vec<Pair>)> {
        let start = line[..at]
            .rfind(char::is_whitespace)
            .map_or(0, |blank| blank + 1);
        let before: Vec<&str> = line[..start].split_whitespace().collect();
        let fits: Vec<Pair> = candidates(&before)
            .into_iter()
            .filter(|name| name.starts_with(&line[start..at]))
            .map(|name| Pair {
                display: name.clone(),
                replacement: name + " ",
            })
            .collect();
        match before.first() {
            Some(&("keep" | "save" | "load" | "list" | "plot")) if fits.is_empty() => {
                self.files.complete(line, at, context)
            }
            _ => Ok((start, fits)),
        }
    }
}

impl rustyline::hint::Hinter for Helper {
    type Hint = String;
}
impl rustyline::highlight::Highlighter for Helper {}
impl rustyline::validate::Validator for Helper {}
impl rustyline::Helper for Helper {}

/// What clap says of a wrong line, without its advice for a command line.
fn in_short(error: &str) -> String {
    let lines = error.lines().map(str::trim);
    let told: Vec<&str> = lines
        .take_while(|line| !line.starts_with("Usage:") && !line.starts_with("For more information"))
        .filter(|line| !line.is_empty() && !line.starts_with("If you"))
        .collect();
    told.join(" ").trim_start_matches("error: ").to_string()
}

/// A line's words as a command: questions may stand without `ask`, `?` is help, and what belongs to a command line is passed over.
fn as_command(mut words: Vec<String>) -> Vec<String> {
    if words.first().is_some_and(|word| word == "zhitomrak") {
        words.remove(0);
    }
    match words.first().map(String::as_str) {
        Some(word) if word == ALL || question(word).is_some() => words.insert(0, "ask".into()),
        Some("?") => words[0] = "help".into(),
        Some("keep") => words.retain(|word| word != "--from"),
        _ => {}
    }
    words
}

/// Does what a line says; what is wrong with it is told.
fn answer(line: &str, watch: &mut Watch, out: &mut dyn Write) -> Result<Done> {
    let words = as_command(words(line)?);
    if words.first().is_none_or(|word| word.starts_with('#')) {
        return Ok(Done::Well);
    }
    match all(Place::Prompt).try_get_matches_from(&words) {
        Ok(told) => match told.subcommand() {
            Some((name, told)) => run(name, told, &mut Desk::new(Some(watch)), out),
            None => Ok(Done::Well),
        },
        Err(error) if !error.use_stderr() => write!(out, "{error}")
            .map_err(cannot_tell)
            .map(|()| Done::Well),
        Err(error) => Err(unclear!(
            "{}; `help` lists the commands",
            in_short(&error.to_string())
        )),
    }
}

/// The watch, to write to; where that cannot be, to look at.
fn open(folder: &Path) -> Result<Watch> {
    Watch::open(folder, Access::Write).or_else(|why| {
        let watch = Watch::open(folder, Access::Read)?;
        say!("{why}; the watch is open to be looked at");
        Ok(watch)
    })
}

/// Answers lines until they end, or `quit`.
pub fn shell(folder: &Path) -> Result<Done> {
    let mut watch = open(folder)?;
    if io::stdin().is_terminal() {
        return at_terminal(&mut watch);
    }
    let mut done = Ok(Done::Well);
    for line in io::stdin().lock().lines() {
        let line = line.map_err(cannot("read", Path::new("standard input")))?;
        let mut out = io::stdout().lock();
        let answered = answer(&line, &mut watch, &mut out);
        out.flush().map_err(cannot_tell)?;
        match answered {
            Ok(Done::Quit) => break,
            Ok(refused) => done = done.map(|before| before.max(refused)),
            Err(why) => {
                say!("{why}");
                done = Err(fault!("not every line could be done"));
            }
        }
    }
    done
}

fn at_terminal(watch: &mut Watch) -> Result<Done> {
    let config = Config::builder()
        .completion_type(CompletionType::List)
        .auto_add_history(true)
        .build();
    let mut editor = Editor::<Helper>::with_config(config);
    editor.set_helper(Some(Helper {
        files: FilenameCompleter::new(),
    }));
    let history = watch.folder().join("history");
    // a watch without one has none yet
    let _ = editor.load_history(&history);
    writeln!(
        io::stdout(),
        "{}: {} messages and entries. `help` lists the commands, Ctrl-D or `quit` ends.",
        watch.folder().display(),
        watch.count()
    )
    .map_err(cannot_tell)?;
    loop {
        match editor.readline("zhitomrak> ") {
            Ok(line) => {
                let _ = editor.append_history(&history);
                in_order();
                let answered = answer(&line, watch, &mut io::stdout());
                io::stdout().flush().map_err(cannot_tell)?;
                match answered {
                    Ok(Done::Quit) => return Ok(Done::Well),
                    Ok(_) => {}
                    Err(why) => say!("{why}"),
                }
            }
            // Ctrl-C takes back the line
            Err(ReadlineError::Interrupted) => {}
            Err(ReadlineError::Eof) => return Ok(Done::Well),
            Err(error) => return Err(fault!("cannot read the terminal: {error}")),
        }
    }
}

#[cfg(test)]
mod tests {
    use super::*;

    #[test]
    fn words_may_hold_blanks_in_quotes() {
        assert_eq!(
            words("save  'my watch' \"it's\" x").unwrap(),
            ["save", "my watch", "it's", "x"]
        );
        assert!(words("").unwrap().is_empty());
        assert_eq!(words("''").unwrap(), [""]);
        assert_eq!(
            words("keep dir\\ with\\ blanks/x").unwrap(),
            ["keep", "dir with blanks/x"]
        );
        assert!(words("save 'my").is_err());
    }

    #[test]
    fn what_belongs_to_a_command_line_is_passed_over() {
        let as_command = |line: &str| as_command(words(line).unwrap()).join(" ");
        assert_eq!(as_command("zhitomrak status"), "status");
        assert_eq!(as_command("tendency 5"), "ask tendency 5");
        assert_eq!(as_command("all"), "ask all");
        assert_eq!(as_command("keep --from x"), "keep x");
        assert_eq!(as_command("?"), "help");
    }

    #[test]
    fn what_may_stand_at_a_place_is_known() {
        assert!(candidates(&[]).contains(&"status".to_string()));
        assert!(candidates(&[]).contains(&"tendency".to_string()));
        assert_eq!(
            candidates(&["ask"]),
            ["pressure", "tendency", "wind", "humidity"]
        );
        assert_eq!(
            candidates(&["reading", "wet", "1080", "-3.2"]),
            ["water", "ice", "unknown"]
        );
        assert!(candidates(&["why"]).is_empty());
    }
}
