//! A series: its boats, what is recorded of them, and which commands are refused (FORMATS, "Refusals").

use crate::line::{Command, Kind, Role, Sail, ALL, DSQ, PRIOR};
use crate::standing::{Place, Standing, RACES};

const MOST_BOATS: usize = 500;
const MOST_ENTRIES: usize = 8192;
const SLOTS: usize = 2048;
/// If a rank is asked so often before a score changes, all boats are sorted.
const OFTEN: usize = 4;
/// A boat that isn't entered, or that a command doesn't name.
pub const NOBODY: u16 = u16::MAX;

/// In a finishing order, that a boat is tied with the one before.
pub const TIED: u16 = 1 << 15;

/// The parts of what a boat holds in a race: her code, her penalties of both kinds and her redress.
pub const CODE: u32 = 0xf;
pub const PENALTIES: u32 = 0xff0;
pub const ZFP: u32 = 4;
pub const SCP: u32 = 8;
pub const REDRESS: u32 = 12;
/// The number of the abbreviations that are no codes.
pub const MARK_ZFP: u8 = 10;
pub const MARK_SCP: u8 = 11;
pub const MARK_RDG: u8 = 12;

/// The rules of a series (FORMATS, "Rule texts").
#[derive(Clone)]
pub struct Rules {
    /// The DNF score is that of A5.3.
    pub counts_who_came: bool,
    /// The points of a Scoring Penalty, if they are stated.
    pub stated: Option<i32>,
    /// The numbers of scored races from which on one more score is excluded.
    pub thresholds: Vec<u32>,
    /// Places follow corrected times.
    pub by_times: bool,
}

/// An entry of the journal. Boats are numbered as they entered.
#[derive(Clone, Copy)]
pub struct Entry {
    pub number: u32,
    pub value: u32,
    pub boat: u16,
    pub other: u16,
    pub kind: Kind,
    pub race: u8,
    pub seat: u8,
    pub role: Role,
}

/// A boat, as far as the table doesn't show her. Masks have a bit for each race.
pub struct Boat {
    /// Where she stands in the finishing order.
    pub placed: u64,
    pub penalised: u64,
    /// Where her redress is an average, and where it is one of the races before.
    pub averaged: u64,
    pub prior: u64,
    /// Where her redress is a number of points.
    pub given: u64,
    /// The sum of her scores, excluded ones too.
    pub total: i32,
    /// The least excluded score; see [`crate::standing::excluded_of`].
    pub bar: i16,
    /// She is among the changed boats.
    pub is_changed: bool,
    pub held: [u32; RACES],
    /// Her scores without penalties and redress in the races that count.
    pub base: [i16; RACES],
}

/// A series. `is_sorted` says that its ranking is sorted after each command that changes a score.
pub struct Series {
    pub rules: Rules,
    pub is_sorted: bool,
    pub standing: Standing,
    pub boats: Vec<Boat>,
    pub orders: [Vec<u16>; RACES],
    times: [Vec<u32>; RACES],
    /// The DNF score of each race that counts.
    pub dnf: [i16; RACES],
    pub entries: Vec<Entry>,
    /// The last number of each seat.
    last: [u32; 17],
    /// One more than the boat of each slot's sail; 0 is free.
    slots: Box<[u16; SLOTS]>,
    /// The boats whose scores the command changes, with the nets that they had.
    pub changed: Vec<u32>,
    /// How often a rank was asked since a score has changed.
    asked: usize,
}

/// Who sends a command, and under which number of the seat.
#[derive(Clone, Copy)]
pub struct Sender {
    pub seat: u8,
    pub number: u32,
    pub role: Role,
}

/// A command with its boats found.
#[derive(Clone, Copy)]
struct Work {
    kind: Kind,
    race: usize,
    bit: u64,
    value: u32,
    boat: u16,
    other: u16,
}

/// The answer to a command.
pub struct Done {
    pub place: usize,
    pub boat: Option<Place>,
}

fn slot_of(sail: Sail) -> usize {
    let mixed = (sail as u64 ^ ((sail >> 64) as u64).rotate_left(29)).wrapping_mul(0x9e37_79b9_7f4a_7c15);
    (mixed >> 53) as usize
}

/// Whether a role may send a command.
fn may(role: Role, kind: Kind, value: u32) -> bool {
    match kind {
        Kind::Enter | Kind::Score | Kind::Unscore => role == Role::Scorer,
        Kind::Redress => role == Role::Jury,
        Kind::Mark => (value >= DSQ) == (role == Role::Jury),
        Kind::Penalty | Kind::Clear => true,
        _ => role != Role::Jury,
    }
}

/// Whether the jury alone may change what a boat holds.
fn is_protected(held: u32) -> bool {
    held & CODE >= DSQ || held >> REDRESS != 0
}

/// Where a boat is in a finishing order that she stands in.
fn position(order: &[u16], boat: u16) -> usize {
    let is_she = |entry: u16| entry & !TIED == boat;
    let parts = order.chunks_exact(16);
    let (rest, mut from) = (parts.remainder(), 0);
    for part in parts {
        if part.iter().fold(false, |any, &entry| any | is_she(entry)) {
            return from + part.iter().position(|&entry| is_she(entry)).unwrap_or(0);
        }
        from += 16;
    }
    from + rest.iter().position(|&entry| is_she(entry)).expect("she stands in the order")
}

/// The first of the boats that are tied with the one at `at`.
pub fn head_of(order: &[u16], mut at: usize) -> usize {
    while order[at] & TIED != 0 {
        at -= 1;
    }
    at
}

impl Series {
    pub fn new(rules: Rules, is_sorted: bool) -> Series {
        Series {
            rules,
            is_sorted,
            standing: Standing::default(),
            boats: Vec::new(),
            orders: [const { Vec::new() }; RACES],
            times: [const { Vec::new() }; RACES],
            dnf: [0; RACES],
            entries: Vec::new(),
            last: [0; 17],
            slots: Box::new([0; SLOTS]),
            changed: Vec::new(),
            asked: 0,
        }
    }

    /// The number of a boat; `NOBODY` if no boat of this sail is entered.
    pub fn boat_of(&self, sail: Sail) -> u16 {
        let mut slot = slot_of(sail);
        loop {
            match self.slots[slot] {
                0 => return NOBODY,
                boat if self.standing.sails[usize::from(boat) - 1] == sail => return boat - 1,
                _ => slot = (slot + 1) % SLOTS,
            }
        }
    }

    /// A boat's rank and net.
    #[inline]
    pub fn place_of(&mut self, boat: u16) -> Place {
        if self.standing.counted == 0 {
            return Place { rank: 1, tied: self.boats.len() > 1, net: 0 };
        }
        if !self.is_sorted {
            self.asked += 1;
            if self.asked < OFTEN {
                return self.standing.count_rank(boat);
            }
            if self.asked == OFTEN {
                self.standing.ranking = self.standing.sorted();
            }
        }
        self.standing.find_rank(boat)
    }

    /// Who sends the next command of a seat.
    pub fn sender(&self, seat: u8, role: Role) -> Sender {
        Sender { seat, number: self.last[usize::from(seat)].saturating_add(1), role }
    }

    /// Runs a command, or says why it is refused.
    pub fn run(&mut self, from: Sender, command: &Command) -> Result<Done, u8> {
        let find = |sail| if sail == 0 { NOBODY } else { self.boat_of(sail) };
        let (boat, other) = (find(command.sail), find(command.other));
        self.run_with(from, command, boat, other)
    }

    /// The same with the boats of the command found.
    #[inline]
    pub fn run_with(&mut self, from: Sender, command: &Command, boat: u16, other: u16) -> Result<Done, u8> {
        let Command { kind, race, value, .. } = *command;
        let Sender { seat, number, role } = from;
        if self.entries.len() >= MOST_ENTRIES {
            return Err(2);
        }
        if number <= self.last[usize::from(seat)] {
            return Err(3);
        }
        if !may(role, kind, value) {
            return Err(4);
        }
        let bit = 1 << (race % 64);
        let mut work = Work { kind, race: usize::from(race) % RACES, bit, value, boat, other };
        match kind {
            Kind::Enter => work.boat = self.enter(command.sail, boat)?,
            Kind::Score | Kind::Unscore => self.count(&work)?,
            _ => self.record(&work, role)?,
        }
        if self.is_sorted {
            self.rank_changed();
        } else if self.standing.counted & bit != 0 || matches!(kind, Kind::Enter | Kind::Unscore) {
            self.asked = 0;
        }
        let boat = work.boat;
        self.entries.push(Entry { number, value, boat, other, kind, race, seat, role });
        self.last[usize::from(seat)] = number;
        let boat = (boat != NOBODY).then(|| self.place_of(boat));
        Ok(Done { place: self.entries.len(), boat })
    }

    fn rank_changed(&mut self) {
        if !self.changed.is_empty() {
            for entry in &self.changed {
                self.boats[(entry & 511) as usize].is_changed = false;
            }
            self.standing.rank_again(&self.changed);
            self.changed.clear();
        }
    }

    /// Enters a boat.
    fn enter(&mut self, sail: Sail, boat: u16) -> Result<u16, u8> {
        if boat != NOBODY {
            return Err(6);
        }
        let count = self.boats.len();
        if count >= MOST_BOATS {
            return Err(5);
        }
        let mut slot = slot_of(sail);
        while self.slots[slot] != 0 {
            slot = (slot + 1) % SLOTS;
        }
        self.slots[slot] = count as u16 + 1;
        self.boats.push(Boat {
            placed: 0,
            penalised: 0,
            averaged: 0,
            prior: 0,
            given: 0,
            total: 0,
            bar: 0,
            is_changed: false,
            held: [0; RACES],
            base: [0; RACES],
        });
        self.standing.sails.push(sail);
        self.standing.rows.push([0; RACES]);
        self.standing.marks.push([1; RACES]);
        if count % 8 == 0 {
            self.standing.nets.extend([i32::MAX; 8]);
        }
        self.standing.nets[count] = 0;
        self.score_entry();
        Ok(count as u16)
    }

    /// Scores or unscores a race.
    fn count(&mut self, work: &Work) -> Result<(), u8> {
        let counts = self.standing.counted & work.bit != 0;
        if work.kind == Kind::Score {
            if counts {
                return Err(13);
            }
            if self.orders[work.race].is_empty() {
                return Err(15);
            }
            self.score(work.race);
        } else {
            if !counts {
                return Err(14);
            }
            self.unscore(work.race);
        }
        Ok(())
    }

    /// Whether places follow corrected times, and the command is for finishing orders, or the reverse.
    fn is_of_other_rules(&self, kind: Kind) -> bool {
        match kind {
            Kind::Time => !self.rules.by_times,
            Kind::Finish | Kind::Tie | Kind::Before => self.rules.by_times,
            _ => false,
        }
    }

    /// Records what a command says of a boat in a race.
    #[inline]
    fn record(&mut self, work: &Work, role: Role) -> Result<(), u8> {
        if self.is_of_other_rules(work.kind) {
            return Err(16);
        }
        let boat = self.boats.get(usize::from(work.boat)).ok_or(7)?;
        let (held, placed) = (boat.held[work.race], boat.placed & work.bit != 0);
        match work.kind {
            Kind::Finish | Kind::Tie | Kind::Before | Kind::Time => self.place(work, placed)?,
            Kind::Strike if placed => self.strike(work, held),
            Kind::Strike => return Err(9),
            Kind::Mark | Kind::Penalty | Kind::Redress if is_protected(held) => return Err(10),
            Kind::Mark => self.hold(work, held & !CODE | work.value),
            Kind::Penalty => {
                let part = if work.value == 0 { ZFP } else { SCP };
                if held >> part & 0xf == 9 {
                    return Err(11);
                }
                self.hold(work, held + (1 << part));
            }
            Kind::Redress => self.hold(work, held | work.value << REDRESS),
            _ => {
                if is_protected(held) && role != Role::Jury {
                    return Err(10);
                }
                if held == 0 {
                    return Err(12);
                }
                self.hold(work, 0);
            }
        }
        Ok(())
    }

    /// Puts a boat into the finishing order.
    #[inline]
    fn place(&mut self, work: &Work, placed: bool) -> Result<(), u8> {
        let needs_other = matches!(work.kind, Kind::Tie | Kind::Before);
        let other = self.boats.get(usize::from(work.other));
        if needs_other && other.is_none() {
            return Err(7);
        }
        if placed {
            return Err(8);
        }
        if needs_other && other.is_some_and(|other| other.placed & work.bit == 0) {
            return Err(9);
        }
        let at = self.put_in_order(work);
        let boat = &mut self.boats[usize::from(work.boat)];
        boat.placed |= work.bit;
        self.mark(work.boat, work.race);
        if self.standing.counted & work.bit != 0 && self.held(work) & CODE == 0 {
            let head = head_of(&self.orders[work.race], at);
            self.score_from(work.race, head, work.boat);
        }
        Ok(())
    }

    /// Puts a boat into the finishing order where the command says, and returns where that is.
    #[inline]
    fn put_in_order(&mut self, work: &Work) -> usize {
        let order = &mut self.orders[work.race];
        let mut at = order.len();
        let mut entry = work.boat;
        match work.kind {
            Kind::Tie => {
                at = position(order, work.other) + 1;
                at += order[at..].iter().take_while(|&next| next & TIED != 0).count();
                entry |= TIED;
            }
            Kind::Before => at = head_of(order, position(order, work.other)),
            Kind::Time => {
                let times = &mut self.times[work.race];
                at = times.partition_point(|&seconds| seconds <= work.value);
                if at > 0 && times[at - 1] == work.value {
                    entry |= TIED;
                }
                times.insert(at, work.value);
            }
            _ => {}
        }
        order.insert(at, entry);
        at
    }

    fn held(&self, work: &Work) -> u32 {
        self.boats[usize::from(work.boat)].held[work.race]
    }

    /// Takes a boat out of the finishing order.
    fn strike(&mut self, work: &Work, held: u32) {
        let order = &mut self.orders[work.race];
        let at = position(order, work.boat);
        let head = head_of(order, at);
        order.remove(at);
        if let Some(next) = order.get_mut(at).filter(|_| head == at) {
            *next &= !TIED;
        }
        if self.rules.by_times {
            self.times[work.race].remove(at);
        }
        self.boats[usize::from(work.boat)].placed &= !work.bit;
        self.mark(work.boat, work.race);
        if self.standing.counted & work.bit != 0 && held & CODE == 0 {
            self.score_from(work.race, head, work.boat);
        }
    }

    /// Changes what a boat holds in a race.
    fn hold(&mut self, work: &Work, held: u32) {
        let boat = &mut self.boats[usize::from(work.boat)];
        let before = std::mem::replace(&mut boat.held[work.race], held);
        let put = |mask: &mut u64, is_so: bool| *mask = *mask & !work.bit | if is_so { work.bit } else { 0 };
        put(&mut boat.penalised, held & PENALTIES != 0);
        put(&mut boat.averaged, matches!(held >> REDRESS, ALL | PRIOR));
        put(&mut boat.prior, held >> REDRESS == PRIOR);
        put(&mut boat.given, held >> REDRESS > PRIOR);
        let placed = boat.placed & work.bit != 0;
        self.mark(work.boat, work.race);
        if self.standing.counted & work.bit == 0 {
            return;
        }
        if before & CODE == held & CODE {
            self.settle(usize::from(work.boat), work.race);
        } else if placed && (before & CODE == 0) != (held & CODE == 0) {
            let order = &self.orders[work.race];
            let head = head_of(order, position(order, work.boat));
            self.score_from(work.race, head, work.boat);
        } else {
            self.score_from(work.race, self.orders[work.race].len(), work.boat);
        }
    }

    /// Notes which abbreviation a boat's cell shows.
    fn mark(&mut self, boat: u16, race: usize) {
        let boat = usize::from(boat);
        let held = self.boats[boat].held[race];
        let is_placed = self.boats[boat].placed >> race & 1 != 0;
        self.standing.marks[boat][race] = if held == 0 && is_placed {
            0
        } else if held >> REDRESS != 0 {
            MARK_RDG
        } else if held & CODE != 0 {
            (held & CODE) as u8
        } else if !is_placed {
            1
        } else if held >> ZFP & 0xf != 0 {
            MARK_ZFP
        } else {
            MARK_SCP
        };
    }
}
