//! A plain program that does the work of `regatta replay` and `regatta serve`, to compare with: see README.md.

#![forbid(unsafe_code)]

mod files;
mod line;
mod replay;
mod scores;
mod series;
mod serve;
mod standing;
mod text;

use crate::line::{number_of, Command, Kind, Role};
use crate::replay::{Form, Stop, MOST_INPUT};
use crate::series::{Rules, Sender, Series};
use std::fs::File;
use std::io::{self, Read, Write};
use std::os::fd::AsFd;
use std::process::ExitCode;

const USAGE: &str = "\
usage: peer replay [--absent A] [--scp N] [--exclude T] [--handicap] [--journal F] [--entries F]
                   [--print table|csv|journal]
       peer serve --socket PATH [--clients N] [--sessions K] [and the options above but --print]
PEER_RANKING=sorted keeps the ranking sorted; without it a rank is counted when it is asked.
";

/// What the words of the command line say.
struct Options {
    absent: String,
    scp: Option<String>,
    exclude: String,
    by_times: bool,
    journal: Option<String>,
    entries: Option<String>,
    form: Form,
    socket: Option<String>,
    clients: usize,
    sessions: usize,
}

/// A text for standard error, and the status.
type Failure = (String, u8);

fn usage(why: &str) -> Failure {
    (format!("error: {why}\n{USAGE}"), 2)
}

fn read_options(words: impl Iterator<Item = String>, serves: bool) -> Result<Options, Failure> {
    let mut found = Options {
        absent: "a52".into(),
        scp: None,
        exclude: "2".into(),
        by_times: false,
        journal: None,
        entries: None,
        form: Form::Table,
        socket: None,
        clients: 4,
        sessions: 0,
    };
    let mut words = words;
    while let Some(word) = words.next() {
        let (name, given) = match word.split_once('=') {
            Some((name, value)) => (name.to_string(), Some(value.to_string())),
            None => (word, None),
        };
        if name == "--handicap" && given.is_none() {
            found.by_times = true;
            continue;
        }
        let value = given.or_else(|| words.next()).ok_or_else(|| usage(&format!("{name} has no value")))?;
        match (name.as_str(), serves) {
            ("--absent", _) => found.absent = value,
            ("--scp", _) => found.scp = Some(value),
            ("--exclude", _) => found.exclude = value,
            ("--journal", _) => found.journal = Some(value),
            ("--entries", _) => found.entries = Some(value),
            ("--print", false) => found.form = form_of(&value).ok_or_else(|| usage("unknown form"))?,
            ("--socket", true) => found.socket = Some(value),
            ("--clients", true) => found.clients = number_within(&value, 1, 16)?,
            ("--sessions", true) => found.sessions = number_within(&value, 0, 1_000_000)?,
            _ => return Err(usage(&format!("unknown word {name}"))),
        }
    }
    Ok(found)
}

/// A number that isn't below `least` or above `most`.
fn number_within(word: &str, least: u64, most: u64) -> Result<usize, Failure> {
    let found = number_of(word.as_bytes(), 7).filter(|number| (least..=most).contains(number));
    found.map(|number| number as usize).ok_or_else(|| usage(&format!("{word} isn't {least} to {most}")))
}

fn form_of(word: &str) -> Option<Form> {
    match word {
        "table" => Some(Form::Table),
        "csv" => Some(Form::Results),
        "journal" => Some(Form::Journal),
        _ => None,
    }
}

/// The thresholds of a text; `None` if it isn't of its form.
fn thresholds_of(text: &str) -> Option<Vec<u32>> {
    if text == "none" {
        return Some(Vec::new());
    }
    text.split(',').map(|number| number_of(number.as_bytes(), 2).map(|found| found as u32)).collect()
}

/// The rules, or the number of their fault.
fn read_rules(options: &Options) -> Result<Rules, u8> {
    let counts_who_came = match options.absent.to_ascii_lowercase().as_str() {
        "a52" => false,
        "a53" => true,
        _ => return Err(6),
    };
    let thresholds = thresholds_of(&options.exclude).ok_or(6)?;
    let stated = match &options.scp {
        Some(text) => Some(number_of(text.as_bytes(), 3).ok_or(6)? as i32),
        None => None,
    };
    if stated.is_some_and(|points| !(1..=99).contains(&points)) {
        return Err(1);
    }
    if thresholds.len() > 4 {
        return Err(2);
    }
    if thresholds.windows(2).any(|pair| pair[1] <= pair[0]) {
        return Err(3);
    }
    if thresholds.first().is_some_and(|first| *first < 2) {
        return Err(4);
    }
    if thresholds.last().is_some_and(|last| *last > 40) {
        return Err(5);
    }
    Ok(Rules { counts_who_came, stated, thresholds, by_times: options.by_times })
}

fn failure_of(stop: Stop) -> Failure {
    match stop {
        Stop::Device => ("regatta: device fault\n".into(), 3),
        Stop::TooLong => ("regatta: input too long\n".into(), 1),
    }
}

/// The bytes of a start file; none if no file is named.
fn read_file(path: &Option<String>) -> Result<Option<Vec<u8>>, Failure> {
    let Some(path) = path else { return Ok(None) };
    let mut text = Vec::new();
    let read = File::open(path).and_then(|file| file.take(MOST_INPUT as u64 + 1).read_to_end(&mut text));
    read.map_err(|_| failure_of(Stop::Device))?;
    if text.len() > MOST_INPUT {
        return Err(failure_of(Stop::TooLong));
    }
    Ok(Some(text))
}

/// The series after its start.
fn begin(options: &Options) -> Result<Series, Failure> {
    let rules = read_rules(options).map_err(|fault| (format!("regatta: rules fault {fault}\n"), 2))?;
    let is_sorted = std::env::var("PEER_RANKING").is_ok_and(|way| way == "sorted");
    let mut series = Series::new(rules, is_sorted);
    let fault = |what, (fault, at)| (format!("regatta: {what} fault {fault} {at}\n"), 1);
    let journal = match read_file(&options.journal)? {
        Some(text) => {
            files::read_journal(&text).map_err(|(why, at)| fault("journal", (why, format!("line {at}"))))?
        }
        None => Vec::new(),
    };
    let sails = match read_file(&options.entries)? {
        Some(text) => {
            files::read_entries(&text).map_err(|(why, at)| fault("entries", (why, format!("row {at}"))))?
        }
        None => Vec::new(),
    };
    let refused = |why, at| (format!("regatta: start refused {why} at {at}\n"), 1);
    for (at, entry) in journal.iter().enumerate() {
        let from = Sender { seat: entry.seat, number: entry.number, role: entry.role };
        let done = series.run(from, &entry.command);
        done.map_err(|why| refused(why, at + 1))?;
    }
    for (at, sail) in sails.into_iter().enumerate() {
        let command = Command { kind: Kind::Enter, race: 0, value: 0, sail, other: 0 };
        let from = series.sender(1, Role::Scorer);
        series.run(from, &command).map_err(|why| refused(why, journal.len() + at + 1))?;
    }
    Ok(series)
}

/// A stream of this process as a file, without a buffer of its own.
fn file_of(stream: impl AsFd) -> Result<File, Failure> {
    let copy = stream.as_fd().try_clone_to_owned();
    copy.map(File::from).map_err(|_| failure_of(Stop::Device))
}

fn run() -> Result<(), Failure> {
    let mut words = std::env::args().skip(1);
    let serves = match words.next().as_deref() {
        Some("replay") => false,
        Some("serve") => true,
        _ => return Err(usage("unknown command")),
    };
    let options = read_options(words, serves)?;
    if serves && options.socket.is_none() {
        return Err(usage("--socket is missing"));
    }
    let mut series = begin(&options)?;
    let out = file_of(io::stdout())?;
    let ended = match &options.socket {
        Some(path) => serve::serve(series, path, options.clients, options.sessions, out),
        None => replay::replay(&mut series, file_of(io::stdin())?, out, options.form),
    };
    ended.map_err(failure_of)
}

fn main() -> ExitCode {
    match run() {
        Ok(()) => ExitCode::SUCCESS,
        Err((text, status)) => {
            let _ = io::stderr().write_all(text.as_bytes());
            ExitCode::from(status)
        }
    }
}
