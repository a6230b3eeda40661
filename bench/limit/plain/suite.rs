//! One architecture's rows of testing, and which of them are installable (docs/RULES.md, parts 4 and 12.3): those in
//! the greatest set in which each clause of each member is satisfied by a member.

use crate::facts::RowId;
use crate::mail::Arch;
use crate::names::Names;
use crate::pool::{ClauseId, Pool};

#[derive(Clone, Copy, PartialEq, Eq)]
enum State {
    /// It isn't in testing, or isn't one of this architecture's rows.
    Away,
    Broken,
    Installable,
}

/// What a trial changed, to be taken back.
enum Step {
    State(RowId, State),
    ProviderCame(ClauseId),
    ProviderLeft(ClauseId),
}

/// Whether a trial that fails is to tell the first row that fails, or any.
#[derive(Clone, Copy, PartialEq, Eq)]
pub enum Offenders {
    First,
    Any,
}

pub struct ArchSuite {
    arch: Arch,
    states: Vec<State>,
    broken: usize,
    /// How many installable rows satisfy each clause.
    providers: Vec<u32>,
    /// How many rows that are here satisfy it, installable or not.
    rows_for: Vec<u32>,
    steps: Vec<Step>,
}

impl ArchSuite {
    pub fn new(arch: Arch) -> Self {
        ArchSuite { arch, states: vec![], broken: 0, providers: vec![], rows_for: vec![], steps: vec![] }
    }

    /// Makes room for what came into the pool.
    pub fn grow(&mut self, pool: &Pool) {
        self.states.resize(pool.rows.len(), State::Away);
        for clause in &pool.clauses[self.providers.len()..] {
            let states = || clause.providers.iter().map(|&row| self.states[row as usize]);
            let installable = states().filter(|&state| state == State::Installable).count();
            let here = states().filter(|&state| state != State::Away).count();
            self.providers.push(installable as u32);
            self.rows_for.push(here as u32);
        }
    }

    /// The architecture's own rows are watched, and those of `all` on the first one.
    fn watches(&self, arch: Arch) -> bool {
        arch == self.arch || (arch == Arch::ALL && self.arch == Arch(0))
    }

    /// A coming row that is watched and can't be installable, since nothing satisfies one of its clauses: neither a row
    /// that is here nor one that comes.
    pub fn hopeless(&self, pool: &Pool, coming: &[RowId]) -> Option<RowId> {
        let is_met = |clause: ClauseId| {
            let providers = &pool.clauses[clause as usize].providers;
            self.rows_for[clause as usize] > 0
                || providers.iter().any(|row| pool.rows[*row as usize].arch.is_on(self.arch) && coming.contains(row))
        };
        coming.iter().copied().find(|&id| {
            let row = &pool.rows[id as usize];
            self.watches(row.arch) && !row.clauses.iter().all(|&clause| is_met(clause))
        })
    }

    /// Lets rows leave and come. Tells a watched row that isn't installable then: it came, or was installable before, as
    /// all watched rows of testing are, since each change was allowed.
    pub fn change(
        &mut self,
        pool: &Pool,
        names: &Names,
        leaving: &[RowId],
        coming: &[RowId],
        offenders: Offenders,
    ) -> Option<RowId> {
        self.steps.clear();
        let unmet = self.leave(pool, leaving);
        let mut hoped_for = self.come(pool, coming);
        self.hope(pool, &mut hoped_for);
        let mut falling: Vec<RowId> = hoped_for.iter().copied().filter(|&row| !self.is_met(pool, row)).collect();
        for clause in unmet {
            self.find_falling(pool, clause, &mut falling);
        }
        self.fall(pool, names, falling, offenders)
    }

    /// Takes rows out; tells the clauses that lost their last installable row.
    fn leave(&mut self, pool: &Pool, leaving: &[RowId]) -> Vec<ClauseId> {
        let mut unmet = Vec::new();
        for &row in leaving {
            match self.states[row as usize] {
                State::Away => {}
                State::Broken => self.set(row, State::Away),
                State::Installable => {
                    self.set(row, State::Away);
                    self.lose_provider(pool, row, &mut unmet);
                }
            }
        }
        unmet
    }

    /// Brings rows in, and takes them to be installable.
    fn come(&mut self, pool: &Pool, coming: &[RowId]) -> Vec<RowId> {
        let on_arch = |row: &RowId| pool.rows[*row as usize].arch.is_on(self.arch);
        let came: Vec<RowId> = coming.iter().copied().filter(on_arch).collect();
        for &row in &came {
            self.set(row, State::Installable);
            self.gain_provider(pool, row);
        }
        came
    }

    /// Takes each broken row to be installable that has a clause which a row taken so satisfies, and so on.
    fn hope(&mut self, pool: &Pool, hoped_for: &mut Vec<RowId>) {
        let mut next = 0;
        while self.broken > 0 && next < hoped_for.len() {
            for &clause in &pool.rows[hoped_for[next] as usize].satisfies {
                for &user in &pool.clauses[clause as usize].users {
                    if self.states[user as usize] == State::Broken {
                        self.set(user, State::Installable);
                        self.gain_provider(pool, user);
                        hoped_for.push(user);
                    }
                }
            }
            next += 1;
        }
    }

    /// Breaks rows until each clause of each installable row is met.
    fn fall(&mut self, pool: &Pool, names: &Names, mut falling: Vec<RowId>, offenders: Offenders) -> Option<RowId> {
        let name_of = |row: RowId| names.text(pool.rows[row as usize].name);
        let (mut offender, mut unmet) = (None, Vec::new());
        while let Some(row) = falling.pop() {
            if self.states[row as usize] != State::Installable {
                continue;
            }
            self.set(row, State::Broken);
            if self.watches(pool.rows[row as usize].arch) {
                if offenders == Offenders::Any {
                    return Some(row);
                }
                offender = offender.into_iter().chain([row]).min_by_key(|&row| name_of(row));
            }
            self.lose_provider(pool, row, &mut unmet);
            for clause in unmet.drain(..) {
                self.find_falling(pool, clause, &mut falling);
            }
        }
        offender
    }

    fn is_met(&self, pool: &Pool, row: RowId) -> bool {
        pool.rows[row as usize].clauses.iter().all(|&clause| self.providers[clause as usize] > 0)
    }

    /// The installable rows that have a clause which isn't met.
    fn find_falling(&self, pool: &Pool, clause: ClauseId, falling: &mut Vec<RowId>) {
        if self.providers[clause as usize] == 0 {
            let users = pool.clauses[clause as usize].users.iter().copied();
            falling.extend(users.filter(|&user| self.states[user as usize] == State::Installable));
        }
    }

    fn set(&mut self, row: RowId, state: State) {
        let before = std::mem::replace(&mut self.states[row as usize], state);
        self.broken = self.broken + usize::from(state == State::Broken) - usize::from(before == State::Broken);
        self.steps.push(Step::State(row, before));
    }

    fn gain_provider(&mut self, pool: &Pool, row: RowId) {
        for &clause in &pool.rows[row as usize].satisfies {
            self.providers[clause as usize] += 1;
            self.steps.push(Step::ProviderCame(clause));
        }
    }

    fn lose_provider(&mut self, pool: &Pool, row: RowId, unmet: &mut Vec<ClauseId>) {
        for &clause in &pool.rows[row as usize].satisfies {
            let providers = &mut self.providers[clause as usize];
            *providers -= 1;
            if *providers == 0 {
                unmet.push(clause);
            }
            self.steps.push(Step::ProviderLeft(clause));
        }
    }

    /// Takes the last change back.
    pub fn undo(&mut self) {
        for step in self.steps.drain(..).rev() {
            match step {
                Step::ProviderCame(clause) => self.providers[clause as usize] -= 1,
                Step::ProviderLeft(clause) => self.providers[clause as usize] += 1,
                Step::State(row, before) => {
                    let state = std::mem::replace(&mut self.states[row as usize], before);
                    self.broken =
                        self.broken + usize::from(before == State::Broken) - usize::from(state == State::Broken);
                }
            }
        }
    }

    /// Counts the rows of a change that stays.
    pub fn count_rows(&mut self, pool: &Pool, leaving: &[RowId], coming: &[RowId]) {
        let on = |rows: &&RowId| pool.rows[**rows as usize].arch.is_on(self.arch);
        for &row in leaving.iter().filter(on) {
            pool.rows[row as usize].satisfies.iter().for_each(|&clause| self.rows_for[clause as usize] -= 1);
        }
        for &row in coming.iter().filter(on) {
            pool.rows[row as usize].satisfies.iter().for_each(|&clause| self.rows_for[clause as usize] += 1);
        }
    }
}
