//! `serve`: a thread for each client, and one lock around the series.

use crate::line::{line_end, quick, read_line, Line, Role, Sail, WINDOW};
use crate::replay::Stop;
use crate::series::{Done, Entry, Series, NOBODY};
use crate::standing::{Place, Standing};
use crate::text::{push_done, push_entries, push_rank, push_refused, push_role, push_sheet_head, push_table};
use std::fs::File;
use std::io::{Read, Write};
use std::os::unix::net::{UnixListener, UnixStream};
use std::sync::{Mutex, MutexGuard, PoisonError};
use std::thread;
use std::time::Duration;

/// How many bytes are read at a time; a line that is longer isn't kept.
const PIECE: usize = 4096;
/// Output is written once it is as long as this.
const FULL: usize = 1 << 16;
/// How long a write waits for the client.
const PATIENCE: Duration = Duration::from_secs(60);

fn locked<T>(mutex: &Mutex<T>) -> MutexGuard<'_, T> {
    mutex.lock().unwrap_or_else(PoisonError::into_inner)
}

/// What a client was last shown.
#[derive(Default)]
struct Shown {
    standing: Standing,
    text: Vec<u8>,
    entries: usize,
    news: Vec<Entry>,
}

struct Session<'a> {
    series: &'a Mutex<Series>,
    is_sorted: bool,
    seat: u8,
    role: Role,
    out: Vec<u8>,
    shown: Shown,
}

impl Session<'_> {
    /// Answers a line of the usual form whose boats are entered and that ends by `end`. Returns where it ends.
    fn answer_quickly(&mut self, text: &[u8], at: usize, end: usize) -> Option<usize> {
        let (line, next) = quick(text, at).filter(|(_, next)| *next <= end)?;
        match line {
            Line::Do(command) => {
                let mut series = locked(self.series);
                let boat = series.boat_of(command.sail);
                let other = if command.other == 0 { NOBODY } else { series.boat_of(command.other) };
                if boat == NOBODY || (command.other != 0 && other == NOBODY) {
                    return None;
                }
                let from = series.sender(self.seat, self.role);
                let done = series.run_with(from, &command, boat, other);
                drop(series);
                self.push(done);
            }
            Line::Role(role) => self.set_role(role),
            Line::Rank(sail) => match self.rank(sail) {
                Some(place) => push_rank(&place, &mut self.out),
                None => return None,
            },
            _ => return None,
        }
        Some(next)
    }

    fn push(&mut self, done: Result<Done, u8>) {
        match done {
            Ok(done) => push_done(&done, &mut self.out),
            Err(why) => push_refused(why, &mut self.out),
        }
    }

    fn set_role(&mut self, role: Role) {
        self.role = role;
        push_role(role, &mut self.out);
    }

    fn rank(&self, sail: Sail) -> Option<Place> {
        let mut series = locked(self.series);
        match series.boat_of(sail) {
            NOBODY => None,
            boat => Some(series.place_of(boat)),
        }
    }

    /// Answers any line, and says whether more follow.
    fn answer(&mut self, line: &[u8]) -> bool {
        match read_line(line) {
            Err(fault) => push_refused(fault, &mut self.out),
            Ok(Line::Do(command)) => {
                let mut series = locked(self.series);
                let from = series.sender(self.seat, self.role);
                let done = series.run(from, &command);
                drop(series);
                self.push(done);
            }
            Ok(Line::Role(role)) => self.set_role(role),
            Ok(Line::Rank(sail)) => match self.rank(sail) {
                Some(place) => push_rank(&place, &mut self.out),
                None => push_refused(7, &mut self.out),
            },
            Ok(Line::Show) => self.show(),
            Ok(Line::Quit) => {
                self.out.extend_from_slice(b"BYE\n");
                return false;
            }
        }
        true
    }

    /// Appends a sheet, which is written after the lock is free again.
    fn show(&mut self) {
        let shown = &mut self.shown;
        let series = locked(self.series);
        shown.standing.copy_from(&series.standing);
        shown.news.clear();
        shown.news.extend_from_slice(&series.entries[shown.entries..]);
        drop(series);
        push_entries(&shown.news, &shown.standing.sails, &mut shown.text);
        shown.entries += shown.news.len();
        push_sheet_head(shown.entries, &mut self.out);
        self.out.extend_from_slice(&shown.text);
        push_table(&shown.standing, self.is_sorted, &mut self.out);
        self.out.extend_from_slice(b"END\n");
    }

    /// Answers the lines that end by `end`, of which the first is only the rest of one if it `is_skipped`. Returns
    /// where the next line begins; nothing after QUIT.
    fn answer_all(
        &mut self,
        text: &[u8],
        end: usize,
        is_skipped: &mut bool,
        stream: &mut UnixStream,
    ) -> std::io::Result<Option<usize>> {
        let mut at = 0;
        while at < end {
            let quickly = if *is_skipped { None } else { self.answer_quickly(text, at, end) };
            if let Some(next) = quickly {
                at = next;
            } else {
                let Some(line_end) = line_end(text, at, end) else {
                    break;
                };
                if std::mem::take(is_skipped) {
                    push_refused(20, &mut self.out);
                } else if !self.answer(&text[at..line_end]) {
                    return Ok(None);
                }
                at = line_end + 1;
            }
            if self.out.len() >= FULL {
                stream.write_all(&self.out)?;
                self.out.clear();
            }
        }
        Ok(Some(at))
    }

    /// Answers a client's lines up to QUIT or the end of the stream.
    fn run(&mut self, stream: &mut UnixStream) -> std::io::Result<()> {
        let mut text = [0; PIECE + WINDOW];
        let (mut end, mut is_skipped) = (0, false);
        loop {
            let count = stream.read(&mut text[end..PIECE])?;
            if count == 0 {
                return Ok(());
            }
            end += count;
            let next = self.answer_all(&text, end, &mut is_skipped, stream)?;
            stream.write_all(&self.out)?;
            self.out.clear();
            let Some(at) = next else { return Ok(()) };
            text.copy_within(at..end, 0);
            end -= at;
            if end == PIECE {
                (end, is_skipped) = (0, true);
            }
        }
    }
}

/// Discards what has come, so that the client reads all that was written and then the end of the stream.
fn close(mut stream: UnixStream) {
    let _ = stream.set_nonblocking(true);
    let mut rest = [0; PIECE];
    while stream.read(&mut rest).is_ok_and(|count| count > 0) {}
}

fn refuse(mut stream: UnixStream) {
    let _ = stream.set_nonblocking(true);
    let _ = stream.write_all(b"BUSY\n");
    close(stream);
}

/// A stream of a new client; it is tried again for some seconds if it fails.
fn accept(door: &UnixListener) -> Result<UnixStream, Stop> {
    for pause in [0, 0, 10, 20, 50, 100, 500, 2000] {
        thread::sleep(Duration::from_millis(pause));
        if let Ok((stream, _)) = door.accept() {
            return Ok(stream);
        }
    }
    Err(Stop::Device)
}

/// Serves clients at a new socket, and prints the table at the end.
pub fn serve(series: Series, path: &str, clients: usize, sessions: usize, mut out: File) -> Result<(), Stop> {
    // The system would choose an address for an empty path.
    let door = UnixListener::bind(path).ok().filter(|_| !path.is_empty()).ok_or(Stop::Device)?;
    let is_sorted = series.is_sorted;
    let series = Mutex::new(series);
    // The seats that are free, the lowest of them last.
    let free = Mutex::new((1..=clients as u8).rev().collect::<Vec<u8>>());
    let mut ended = Ok(());
    thread::scope(|scope| {
        let mut count = 0;
        while sessions == 0 || count < sessions {
            let stream = match accept(&door) {
                Ok(stream) => stream,
                Err(stop) => return ended = Err(stop),
            };
            count += 1;
            let Some(seat) = locked(&free).pop() else {
                refuse(stream);
                continue;
            };
            let (series, free) = (&series, &free);
            scope.spawn(move || serve_client(stream, series, is_sorted, seat, free));
        }
        // Whoever comes later doesn't wait for those who are still served.
        drop(door);
    });
    let mut text = Vec::new();
    push_table(&locked(&series).standing, is_sorted, &mut text);
    out.write_all(&text).map_err(|_| Stop::Device)?;
    ended
}

/// Serves a client, and gives their seat back.
fn serve_client(
    mut stream: UnixStream,
    series: &Mutex<Series>,
    is_sorted: bool,
    seat: u8,
    free: &Mutex<Vec<u8>>,
) {
    let _ = stream.set_write_timeout(Some(PATIENCE));
    let (role, out, shown) = (Role::Scorer, Vec::new(), Shown::default());
    let _ = Session { series, is_sorted, seat, role, out, shown }.run(&mut stream);
    let mut free = locked(free);
    free.push(seat);
    free.sort_unstable_by(|one, other| other.cmp(one));
    drop(free);
    close(stream);
}
