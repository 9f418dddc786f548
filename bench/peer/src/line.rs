//! Lines and entries (FORMATS, "Lines" and "Entries"): one reader for each of their forms, and a quick one for
//! the usual form, which has capital letters and single spaces.

/// The most bytes of a line.
const LONGEST: usize = 80;
/// The most letters of a sail.
pub const LETTERS: usize = 12;
/// How many bytes of the text the quick reader looks at.
pub const WINDOW: usize = 48;

/// A sail: its first letter in the lowest byte, and zeros after its last one.
pub type Sail = u128;

/// Who sends a command.
#[derive(Clone, Copy, PartialEq, Eq)]
pub enum Role {
    Finish,
    Jury,
    Scorer,
}

/// What a command does.
#[derive(Clone, Copy, PartialEq, Eq)]
pub enum Kind {
    Enter,
    Finish,
    Tie,
    Before,
    Time,
    Strike,
    Mark,
    Penalty,
    Redress,
    Clear,
    Score,
    Unscore,
}

/// The number of a code, of DNC to DNE.
pub const DNC: u32 = 1;
pub const DSQ: u32 = 8;
pub const DNE: u32 = 9;
/// Redress as an average of all races, or of those before; any other number is its tenths of points.
pub const ALL: u32 = 1;
pub const PRIOR: u32 = 2;

/// A command as its line has it. `race` counts from 0. `value` is a code from 1 to 9, 0 for ZFP and 1 for SCP, a
/// redress, or seconds.
#[derive(Clone, Copy)]
pub struct Command {
    pub kind: Kind,
    pub race: u8,
    pub value: u32,
    pub sail: Sail,
    pub other: Sail,
}

/// What a line asks for.
#[derive(Clone, Copy)]
pub enum Line {
    Do(Command),
    Role(Role),
    Rank(Sail),
    Show,
    Quit,
}

/// An entry's text: seat, number, role and command.
pub struct EntryText {
    pub seat: u8,
    pub number: u32,
    pub role: Role,
    pub command: Command,
}

/// A word of at most eight letters as one number.
const fn key(text: &str) -> u64 {
    let (bytes, mut at, mut found) = (text.as_bytes(), 0, 0);
    while at < bytes.len() {
        found |= (bytes[at] as u64) << (8 * at);
        at += 1;
    }
    found
}

const ENTER: u64 = key("ENTER");
const FINISH: u64 = key("FINISH");
const TIE: u64 = key("TIE");
const BEFORE: u64 = key("BEFORE");
const TIME: u64 = key("TIME");
const STRIKE: u64 = key("STRIKE");
const MARK: u64 = key("MARK");
const PENALTY: u64 = key("PENALTY");
const REDRESS: u64 = key("REDRESS");
const CLEAR: u64 = key("CLEAR");
const SCORE: u64 = key("SCORE");
const UNSCORE: u64 = key("UNSCORE");
const ROLE: u64 = key("ROLE");
const RANK: u64 = key("RANK");
const SHOW: u64 = key("SHOW");
const QUIT: u64 = key("QUIT");

fn code_of(word: u64) -> Option<u32> {
    const CODES: [u64; 9] = [
        key("DNC"),
        key("DNS"),
        key("OCS"),
        key("UFD"),
        key("BFD"),
        key("DNF"),
        key("RET"),
        key("DSQ"),
        key("DNE"),
    ];
    CODES.iter().position(|&code| code == word).map(|at| at as u32 + 1)
}

fn penalty_of(word: u64) -> Option<u32> {
    const PENALTIES: [u64; 2] = [key("ZFP"), key("SCP")];
    PENALTIES.iter().position(|&kind| kind == word).map(|at| at as u32)
}

fn role_of(word: u64) -> Option<Role> {
    const JURY: u64 = key("JURY");
    const SCORER: u64 = key("SCORER");
    match word {
        FINISH => Some(Role::Finish),
        JURY => Some(Role::Jury),
        SCORER => Some(Role::Scorer),
        _ => None,
    }
}

/// A word as a number, its letters raised; 0, which no keyword is, if it has more than eight.
fn raised(word: &[u8]) -> u64 {
    if word.len() > 8 {
        return 0;
    }
    word.iter().rev().fold(0, |found, byte| found << 8 | u64::from(byte.to_ascii_uppercase()))
}

/// The number of a word of one to `most` digits.
pub fn number_of(word: &[u8], most: usize) -> Option<u64> {
    let is_one = (1..=most).contains(&word.len()) && word.iter().all(u8::is_ascii_digit);
    is_one.then(|| word.iter().fold(0, |found, digit| found * 10 + u64::from(digit - b'0')))
}

/// The race of a word, counted from 0.
fn race_of(word: &[u8]) -> Option<u8> {
    number_of(word, 2).filter(|race| (1..=40).contains(race)).map(|race| race as u8 - 1)
}

/// The sail of a word.
pub fn sail_of(word: &[u8]) -> Option<Sail> {
    let is_one = (1..=LETTERS).contains(&word.len())
        && word.iter().all(|byte| byte.is_ascii_alphanumeric() || *byte == b'-');
    is_one
        .then(|| word.iter().rev().fold(0, |found, byte| found << 8 | Sail::from(byte.to_ascii_uppercase())))
}

/// The redress of a word.
fn redress_of(word: &[u8]) -> Option<u32> {
    const ALL_RACES: u64 = key("ALL");
    const RACES_BEFORE: u64 = key("PRIOR");
    match raised(word) {
        ALL_RACES => return Some(ALL),
        RACES_BEFORE => return Some(PRIOR),
        _ => {}
    }
    let dot = word.iter().position(|&byte| byte == b'.').unwrap_or(word.len());
    let whole = number_of(&word[..dot], 3)?;
    let tenth = if dot == word.len() { 0 } else { number_of(&word[dot + 1..], 1)? };
    Some((whole * 10 + tenth) as u32).filter(|tenths| *tenths >= 10)
}

/// The words of a text: the first eight, and how many there are.
struct Words<'a> {
    list: [&'a [u8]; 8],
    count: usize,
}

impl<'a> Words<'a> {
    /// The words of a text without its CR; none if more than 80 bytes are left.
    fn of(text: &'a [u8]) -> Option<Words<'a>> {
        let text = text.strip_suffix(b"\r").unwrap_or(text);
        if text.len() > LONGEST {
            return None;
        }
        let mut found = Words { list: [b""; 8], count: 0 };
        let mut at = 0;
        while at < text.len() {
            let start = at;
            while at < text.len() && text[at] != b' ' {
                at += 1;
            }
            if start < at {
                if let Some(place) = found.list.get_mut(found.count) {
                    *place = &text[start..at];
                }
                found.count += 1;
            }
            at += 1;
        }
        Some(found)
    }
}

/// The kind that a word names, and how many words follow it.
fn kind_of(word: u64) -> Option<(Kind, usize)> {
    Some(match word {
        ENTER => (Kind::Enter, 1),
        FINISH => (Kind::Finish, 2),
        TIE => (Kind::Tie, 3),
        BEFORE => (Kind::Before, 3),
        TIME => (Kind::Time, 3),
        STRIKE => (Kind::Strike, 2),
        MARK => (Kind::Mark, 3),
        PENALTY => (Kind::Penalty, 3),
        REDRESS => (Kind::Redress, 3),
        CLEAR => (Kind::Clear, 2),
        SCORE => (Kind::Score, 1),
        UNSCORE => (Kind::Unscore, 1),
        _ => return None,
    })
}

/// The command of the words from `from` on, or its fault.
fn command_of(words: &Words, from: usize) -> Result<Command, u8> {
    let (kind, more) = kind_of(raised(words.list[from])).ok_or(21)?;
    if words.count - from != more + 1 {
        return Err(22);
    }
    let mut found = Command { kind, race: 0, value: 0, sail: 0, other: 0 };
    let [first, second, third] = [words.list[from + 1], words.list[from + 2], words.list[from + 3]];
    if kind == Kind::Enter {
        found.sail = sail_of(first).ok_or(23)?;
        return Ok(found);
    }
    found.race = race_of(first).ok_or(24)?;
    if more > 1 {
        found.sail = sail_of(second).ok_or(23)?;
    }
    match kind {
        Kind::Tie | Kind::Before => found.other = sail_of(third).ok_or(23)?,
        Kind::Time => found.value = number_of(third, 6).ok_or(29)? as u32,
        Kind::Mark => found.value = code_of(raised(third)).ok_or(26)?,
        Kind::Penalty => found.value = penalty_of(raised(third)).ok_or(26)?,
        Kind::Redress => found.value = redress_of(third).ok_or(25)?,
        _ => {}
    }
    Ok(found)
}

/// What a line without its LF asks for, or its fault.
pub fn read_line(text: &[u8]) -> Result<Line, u8> {
    if text.is_empty() {
        return Err(21);
    }
    let words = Words::of(text).ok_or(20)?;
    let first = raised(words.list[0]);
    let more = match first {
        ROLE | RANK => 1,
        SHOW | QUIT => 0,
        _ => return command_of(&words, 0).map(Line::Do),
    };
    if words.count != more + 1 {
        return Err(22);
    }
    match first {
        ROLE => role_of(raised(words.list[1])).map(Line::Role).ok_or(27),
        RANK => sail_of(words.list[1]).map(Line::Rank).ok_or(23),
        SHOW => Ok(Line::Show),
        _ => Ok(Line::Quit),
    }
}

/// An entry's text without its LF, or its fault.
pub fn read_entry(text: &[u8]) -> Result<EntryText, u8> {
    let words = Words::of(text).ok_or(20)?;
    if words.count < 4 {
        return Err(22);
    }
    let seat = number_of(words.list[0], 2).filter(|seat| (1..=16).contains(seat)).ok_or(28)? as u8;
    let number = number_of(words.list[1], 10).filter(|number| *number > 0).ok_or(28)?;
    let number = u32::try_from(number).map_err(|_| 28)?;
    let role = role_of(raised(words.list[2])).ok_or(27)?;
    let command = command_of(&words, 3)?;
    Ok(EntryText { seat, number, role, command })
}

const EACH: u64 = 0x0101_0101_0101_0101;

/// How many bytes come before the first one below `limit`, which is at most 128; 8 if none is.
#[inline(always)]
fn bytes_before(word: u64, limit: u8) -> usize {
    let below = word.wrapping_sub(EACH * u64::from(limit)) & !word & (EACH << 7);
    below.trailing_zeros() as usize / 8
}

/// Where the line that begins at `at` ends, if it does before `end`.
#[inline]
pub fn line_end(text: &[u8], mut at: usize, end: usize) -> Option<usize> {
    while let Some(word) = text.get(at..at + 8).and_then(|word| word.try_into().ok()) {
        let apart = u64::from_le_bytes(word) ^ EACH * u64::from(b'\n');
        let count = bytes_before(apart, 1);
        if count < 8 {
            return Some(at + count).filter(|found| *found < end);
        }
        at += 8;
        if at >= end {
            return None;
        }
    }
    (at..end.min(text.len())).find(|&at| text[at] == b'\n')
}

/// The first `count` bytes of a word, at most seven.
#[inline(always)]
fn first_bytes(word: u64, count: usize) -> u64 {
    word & !(u64::MAX << (8 * count))
}

#[inline(always)]
fn eight(line: &[u8; WINDOW], at: usize) -> Option<u64> {
    Some(u64::from_le_bytes(line.get(at..at + 8)?.try_into().ok()?))
}

/// A sail that a space or the end of the line follows, and where it ends. Its letters aren't checked.
#[inline(always)]
fn quick_sail(line: &[u8; WINDOW], at: usize) -> Option<(Sail, usize)> {
    let low = eight(line, at)?;
    let count = bytes_before(low, b'-');
    if count < 8 {
        return Some((Sail::from(first_bytes(low, count)), at + count));
    }
    let high = eight(line, at + 8)?;
    let count = bytes_before(high, b'-');
    if count > LETTERS - 8 {
        return None;
    }
    Some((Sail::from(low) | Sail::from(first_bytes(high, count)) << 64, at + 8 + count))
}

/// A race that a space follows, and where the next word begins.
#[inline(always)]
fn quick_race(line: &[u8; WINDOW], at: usize) -> Option<(u8, usize)> {
    let bytes = eight(line, at)?;
    let first = (bytes as u8).wrapping_sub(b'0');
    let second = (bytes >> 8) as u8;
    let (race, next) = if second == b' ' {
        (first, at + 2)
    } else {
        let second = second.wrapping_sub(b'0');
        if second > 9 || (bytes >> 16) as u8 != b' ' {
            return None;
        }
        (first.wrapping_mul(10).wrapping_add(second), at + 3)
    };
    (first <= 9 && (1..=40).contains(&race)).then(|| (race - 1, next))
}

/// The value of a command, which ends its line, and where it ends.
#[inline(always)]
fn quick_value(kind: Kind, line: &[u8; WINDOW], at: usize) -> Option<(u32, usize)> {
    let word = eight(line, at)?;
    let count = bytes_before(word, b'!');
    if count == 8 {
        return None;
    }
    let end = at + count;
    let value = match kind {
        Kind::Mark => code_of(first_bytes(word, count))?,
        Kind::Penalty => penalty_of(first_bytes(word, count))?,
        Kind::Time => number_of(line.get(at..end)?, 6)? as u32,
        _ => redress_of(line.get(at..end)?)?,
    };
    Some((value, end))
}

/// The line that begins at `at`, if it is a command, ROLE or RANK in the usual form, and where the next line
/// begins. Letters of sails aren't checked: a sail that isn't entered may be none. The text has to go on for
/// [`WINDOW`] bytes, whatever they are.
#[inline(always)]
pub fn quick(text: &[u8], at: usize) -> Option<(Line, usize)> {
    let line: &[u8; WINDOW] = text.get(at..at + WINDOW)?.try_into().ok()?;
    let head = eight(line, 0)?;
    let letters = bytes_before(head, b'!');
    if letters == 8 || line[letters] != b' ' {
        return None;
    }
    let word = first_bytes(head, letters);
    if word == ROLE {
        return quick_role(line, at);
    }
    if word == RANK {
        let (sail, end) = quick_sail(line, letters + 1)?;
        return (line[end] == b'\n').then(|| (Line::Rank(sail), at + end + 1));
    }
    let (kind, last) = quick_kind(word)?;
    let (race, next) = quick_race(line, letters + 1)?;
    let (sail, mut end) = quick_sail(line, next)?;
    let (mut value, mut other) = (0, 0);
    if last != Last::Nothing {
        if line[end] != b' ' {
            return None;
        }
        if last == Last::Sail {
            (other, end) = quick_sail(line, end + 1)?;
        } else {
            (value, end) = quick_value(kind, line, end + 1)?;
        }
    }
    (line[end] == b'\n').then(|| (Line::Do(Command { kind, race, value, sail, other }), at + end + 1))
}

/// The kind that a word names, if a race and a sail follow it, and what follows these.
#[inline(always)]
fn quick_kind(word: u64) -> Option<(Kind, Last)> {
    Some(match word {
        FINISH => (Kind::Finish, Last::Nothing),
        STRIKE => (Kind::Strike, Last::Nothing),
        CLEAR => (Kind::Clear, Last::Nothing),
        TIE => (Kind::Tie, Last::Sail),
        BEFORE => (Kind::Before, Last::Sail),
        TIME => (Kind::Time, Last::Value),
        MARK => (Kind::Mark, Last::Value),
        PENALTY => (Kind::Penalty, Last::Value),
        REDRESS => (Kind::Redress, Last::Value),
        _ => return None,
    })
}

/// What follows the sail in a line.
#[derive(Clone, Copy, PartialEq, Eq)]
enum Last {
    Nothing,
    Sail,
    Value,
}

fn quick_role(line: &[u8; WINDOW], at: usize) -> Option<(Line, usize)> {
    let word = eight(line, 5)?;
    let count = bytes_before(word, b'!');
    if count == 8 || line[5 + count] != b'\n' {
        return None;
    }
    role_of(first_bytes(word, count)).map(|role| (Line::Role(role), at + 5 + count + 1))
}
