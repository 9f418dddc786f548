//! The points of boats (SCORING): only what a command changes is computed again.

use crate::line::{DNC, DNE};
use crate::series::{Series, CODE, PENALTIES, REDRESS, SCP, TIED, ZFP};
use crate::standing::{excluded_of, total_of, Row, RACES};

/// A row of ones below each race, and of zeros from it on.
static BEFORE: [Row; RACES] = {
    let mut found = [[0; RACES]; RACES];
    let mut race = 0;
    while race < RACES {
        let mut at = 0;
        while at < race {
            found[race][at] = -1;
            at += 1;
        }
        race += 1;
    }
    found
};

/// The average of `count` scores with this total, to the nearest tenth (A9).
fn average(total: i32, count: u32) -> i16 {
    let count = count as i32;
    ((2 * total + count) / (2 * count)) as i16
}

/// A base with the penalties that a boat holds.
fn penalised(base: i16, held: u32, dnf: i16, stated: Option<i32>) -> i16 {
    if held & PENALTIES == 0 || base >= dnf {
        return base;
    }
    let twenty = (2 * i32::from(dnf / 10) + 5) / 10;
    let (first, second) = ((held >> ZFP & 0xf) as i32, (held >> SCP & 0xf) as i32);
    let points = first * twenty + second * stated.unwrap_or(twenty);
    (i32::from(base) + 10 * points).min(i32::from(dnf)) as i16
}

/// The sum of a row's scores in the races before one.
#[inline(always)]
fn total_before(row: &Row, race: usize) -> i32 {
    let mask = &BEFORE[race];
    let mut before = *row;
    for at in 0..RACES {
        before[at] &= mask[at];
    }
    total_of(&before)
}

/// The races of a mask.
struct Races(u64);

impl Iterator for Races {
    type Item = usize;
    fn next(&mut self) -> Option<usize> {
        let race = self.0.trailing_zeros() as usize;
        self.0 &= self.0.wrapping_sub(1);
        (race < RACES).then_some(race)
    }
}

impl Series {
    /// The points of a boat that didn't come to the starting area.
    fn dnc(&self) -> i16 {
        10 * (self.boats.len() as i16 + 1)
    }

    /// How many scores are excluded.
    fn drops(&self) -> usize {
        let count = self.standing.counted.count_ones();
        self.rules.thresholds.iter().filter(|&&threshold| threshold <= count).count()
    }

    /// The DNF score of a race now.
    fn dnf_score(&self, race: usize) -> i16 {
        if !self.rules.counts_who_came {
            return self.dnc();
        }
        let came = |boat: &&crate::series::Boat| match boat.held[race] & CODE {
            0 => boat.placed >> race & 1 != 0,
            code => code != DNC,
        };
        10 * (self.boats.iter().filter(came).count() as i16 + 1)
    }

    /// Notes that the scores of a boat change.
    #[inline(always)]
    fn note(&mut self, boat: usize) {
        if self.is_sorted && !self.boats[boat].is_changed {
            self.boats[boat].is_changed = true;
            self.changed.push((self.standing.nets[boat] as u32) << 10 | boat as u32);
        }
    }

    /// Computes what follows from a boat's total.
    #[inline]
    fn weigh(&mut self, boat: usize) {
        let (points, bar) = excluded_of(&self.standing.rows[boat], self.standing.drops);
        self.boats[boat].bar = bar;
        self.standing.nets[boat] = self.boats[boat].total - points;
    }

    /// Computes what follows from a change of one score of a boat.
    #[inline(always)]
    fn move_score(&mut self, boat: usize, before: i16, after: i16) {
        let one = &mut self.boats[boat];
        let more = i32::from(after.abs()) - i32::from(before.abs());
        one.total += more;
        let bar = one.bar;
        if one.averaged & self.standing.counted != 0 {
            self.average_again(boat);
        } else if before < bar && after <= bar {
            // Neither of the two is excluded.
            self.standing.nets[boat] += more;
        } else if before <= bar || after < bar {
            self.weigh(boat);
        }
        // Otherwise both are.
    }

    /// Gives a boat her score in a race, from her base and what she holds.
    pub fn settle(&mut self, boat: usize, race: usize) {
        self.note(boat);
        let held = self.boats[boat].held[race];
        let base = self.boats[boat].base[race];
        let score = match held >> REDRESS {
            0 if held & CODE == DNE => -base,
            0 => penalised(base, held, self.dnf[race], self.rules.stated),
            points => points as i16,
        };
        let before = std::mem::replace(&mut self.standing.rows[boat][race], score);
        self.move_score(boat, before, score);
    }

    /// Computes a boat's averages.
    #[inline(never)]
    fn average_again(&mut self, boat: usize) {
        let counted = self.standing.counted;
        let one = &self.boats[boat];
        let row = &mut self.standing.rows[boat];
        let averaged = counted & one.averaged;
        let others = counted & !averaged;
        let count = others.count_ones();
        let bare = Races(averaged).fold(one.total, |total, race| total - i32::from(row[race]));
        let all = if count > 0 { average(bare, count) } else { 0 };
        let mut averages = 0;
        for race in Races(averaged) {
            let (mut points, mut left) = (all, count);
            if one.prior >> race & 1 != 0 {
                left = (others & ((1 << race) - 1)).count_ones();
                if left > 0 {
                    points = average(total_before(row, race) - averages, left);
                }
            }
            if left == 0 {
                let (base, held) = (one.base[race], one.held[race]);
                points = penalised(base, held, self.dnf[race], self.rules.stated);
            }
            row[race] = points;
            averages += i32::from(points);
        }
        self.boats[boat].total = bare + averages;
        self.weigh(boat);
    }

    /// The place of the boats whose group begins at `head`, from the boats ahead of them.
    fn place_at(&self, race: usize, head: usize) -> i16 {
        let order = &self.orders[race];
        let (mut at, mut count, mut base) = (head, 0, -5);
        // The nearest group with a finisher, whose base tells its place.
        while at > 0 {
            at -= 1;
            let boat = &self.boats[usize::from(order[at] & !TIED)];
            if boat.held[race] & CODE == 0 {
                count += 1;
                base = boat.base[race];
            }
            if order[at] & TIED == 0 && count > 0 {
                break;
            }
        }
        if count == 0 {
            return 1;
        }
        (base - 5 * (count - 1)) / 10 + count
    }

    /// Scores again the groups of a counting race from the one that begins at `head` on, and a boat whose place or
    /// code has changed.
    pub fn score_from(&mut self, race: usize, head: usize, boat: u16) {
        let dnf = self.dnf_score(race);
        if dnf != self.dnf[race] {
            return self.score_whole(race);
        }
        let place = self.place_at(race, head);
        self.score_groups(race, head, place);
        let one = &mut self.boats[usize::from(boat)];
        match one.held[race] & CODE {
            0 if one.placed >> race & 1 != 0 => {}
            0 | DNC => one.base[race] = 10 * (self.standing.sails.len() as i16 + 1),
            _ => one.base[race] = dnf,
        }
        self.settle(usize::from(boat), race);
    }

    /// Scores the groups from `head` on, the first of which has this place.
    fn score_groups(&mut self, race: usize, head: usize, mut place: i16) {
        let order = std::mem::take(&mut self.orders[race]);
        let mut at = head;
        while at < order.len() {
            let mut end = at + 1;
            if end == order.len() || order[end] & TIED == 0 {
                place += i16::from(self.finish(usize::from(order[at] & !TIED), race, 10 * place));
                at = end;
                continue;
            }
            while end < order.len() && order[end] & TIED != 0 {
                end += 1;
            }
            let boats = order[at..end].iter().map(|entry| usize::from(entry & !TIED));
            let count = boats.clone().filter(|&boat| self.boats[boat].held[race] & CODE == 0).count() as i16;
            for boat in boats {
                self.finish(boat, race, 10 * place + 5 * (count - 1));
            }
            place += count;
            at = end;
        }
        self.orders[race] = order;
    }

    /// Gives a boat the points of her finishing place, if she has no code, and says whether she has none.
    #[inline(always)]
    fn finish(&mut self, boat: usize, race: usize, points: i16) -> bool {
        let one = &mut self.boats[boat];
        let held = one.held[race];
        if held & CODE != 0 {
            return false;
        }
        one.base[race] = points;
        if held != 0 {
            self.settle(boat, race);
            return true;
        }
        let before = std::mem::replace(&mut self.standing.rows[boat][race], points);
        if before != points {
            self.note(boat);
            self.move_score(boat, before, points);
        }
        true
    }

    /// Scores a race whole.
    fn score_whole(&mut self, race: usize) {
        self.dnf[race] = self.dnf_score(race);
        let (dnc, dnf) = (self.dnc(), self.dnf[race]);
        for one in &mut self.boats {
            one.base[race] = match one.held[race] & CODE {
                0 | DNC => dnc,
                _ => dnf,
            };
        }
        let order = std::mem::take(&mut self.orders[race]);
        let (mut at, mut place) = (0, 1);
        while at < order.len() {
            let end = at + 1 + order[at + 1..].iter().take_while(|&next| next & TIED != 0).count();
            let finishes = |entry: &&u16| self.boats[usize::from(*entry & !TIED)].held[race] & CODE == 0;
            let count = order[at..end].iter().filter(finishes).count() as i16;
            for entry in &order[at..end] {
                let one = &mut self.boats[usize::from(entry & !TIED)];
                if one.held[race] & CODE == 0 {
                    one.base[race] = 10 * place + 5 * (count - 1);
                }
            }
            place += count;
            at = end;
        }
        self.orders[race] = order;
        for boat in 0..self.boats.len() {
            self.settle(boat, race);
        }
    }

    /// Makes a race count.
    pub fn score(&mut self, race: usize) {
        self.standing.counted |= 1 << race;
        self.score_whole(race);
        self.weigh_all();
    }

    /// Makes a race count no longer.
    pub fn unscore(&mut self, race: usize) {
        self.standing.counted &= !(1 << race);
        for boat in 0..self.boats.len() {
            self.note(boat);
            let before = std::mem::replace(&mut self.standing.rows[boat][race], 0);
            self.move_score(boat, before, 0);
        }
        self.weigh_all();
    }

    /// Computes what follows from another number of excluded scores.
    fn weigh_all(&mut self) {
        let drops = self.drops();
        if drops != self.standing.drops {
            self.standing.drops = drops;
            for boat in 0..self.boats.len() {
                self.weigh(boat);
            }
        }
    }

    /// Scores the series again after a boat has entered.
    pub fn score_entry(&mut self) {
        let new = self.boats.len() - 1;
        if self.is_sorted {
            self.standing.rank_new(new);
        }
        if self.standing.counted == 0 {
            return;
        }
        if self.rules.counts_who_came {
            for race in Races(self.standing.counted) {
                self.score_whole(race);
            }
        } else {
            self.raise_dnf();
        }
    }

    /// Adds a point to the DNF score of each race, which is the last boat's score in all of them (A5.2).
    fn raise_dnf(&mut self) {
        let (new, dnf) = (self.boats.len() - 1, self.dnc());
        self.dnf = [dnf; RACES];
        for race in Races(self.standing.counted) {
            self.boats[new].base[race] = dnf;
            self.standing.rows[new][race] = dnf;
        }
        // No place scores as many points as a DNF, so a base that does is one.
        let before = dnf - 10;
        for boat in 0..self.boats.len() {
            self.note(boat);
            let one = &mut self.boats[boat];
            for base in &mut one.base {
                *base += if *base == before { 10 } else { 0 };
            }
            let row = &mut self.standing.rows[boat];
            for score in row.iter_mut() {
                let more = if *score == before { 10 } else { 0 };
                let less = if *score == -before { 10 } else { 0 };
                *score += more - less;
            }
            one.total = total_of(row);
            let special = one.penalised | one.averaged | one.given;
            let counted = self.standing.counted;
            for race in Races(special & counted & !self.boats[boat].averaged) {
                self.settle(boat, race);
            }
            if self.boats[boat].averaged & counted != 0 {
                self.average_again(boat);
            } else {
                self.weigh(boat);
            }
        }
    }
}
