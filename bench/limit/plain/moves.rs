//! The moves of a run (docs/RULES.md, part 12.3): removals, groups, then single moves.

use crate::excuses::Excuse;
use crate::facts::HintItem;
use crate::hints::StandingHints;
use crate::mail::Setup;
use crate::names::{Map, NameId, Names};
use crate::suite::Offenders;
use crate::testing::{Offender, Testing};

/// The moves of one run: what they are decided from, testing that they change, and the update that tells them.
pub struct Moves<'r, 'a> {
    pub setup: &'r Setup<'a>,
    pub names: &'r Names<'a>,
    /// The candidates by name.
    pub candidates: &'r [&'r Excuse<'a>],
    pub testing: &'r mut Testing<'a>,
    pub output: &'r mut Vec<u8>,
}

impl<'a> Moves<'_, 'a> {
    pub fn decide(&mut self, hints: &StandingHints<'_, 'a>) {
        for (number, item) in &hints.removals {
            self.remove(*number, item);
        }
        let candidates: Map<NameId, &Excuse> = self.candidates.iter().map(|excuse| (excuse.source, *excuse)).collect();
        for (number, items) in &hints.groups {
            self.move_group(*number, items, &candidates);
        }
        self.move_singles();
    }

    /// A hint to remove a source at testing's version.
    fn remove(&mut self, number: usize, item: &HintItem) {
        let Some(&version) = self.testing.sources.get(&item.source).filter(|&&version| version == item.version) else {
            return;
        };
        let decision = self.testing.change(self.names, &[item.source], &[], Offenders::First);
        let verdict = if decision.is_ok() { "accept" } else { "refuse" };
        self.write(&[b"remove ", number.to_string().as_bytes(), b" ", verdict.as_bytes(), b" "]);
        self.write(&[self.names.text(item.source), b" ", version.text]);
        match decision {
            Ok(()) => {
                self.testing.sources.remove(&item.source);
            }
            Err(offender) => self.write_offender(&offender),
        }
        self.write(&[b"\n"]);
    }

    /// A hint to move all its items as one, without those that are in testing already.
    fn move_group(&mut self, number: usize, items: &[HintItem], candidates: &Map<NameId, &Excuse<'a>>) {
        let is_here = |item: &&HintItem| self.testing.sources.get(&item.source) == Some(&item.version);
        let items: Vec<&HintItem> = items.iter().filter(|item| !is_here(item)).collect();
        if items.is_empty() {
            return;
        }
        self.write(&[b"easy ", number.to_string().as_bytes()]);
        let group: Result<Vec<&Excuse>, &HintItem> = items
            .into_iter()
            .map(|item| candidates.get(&item.source).copied().filter(|one| one.unstable == item.version).ok_or(item))
            .collect();
        match group {
            Ok(group) => self.try_group(&group),
            Err(item) => {
                let name = self.names.text(item.source);
                self.write(&[b" refuse ", name, b"/", item.version.text, b" not a candidate"]);
            }
        }
        self.write(&[b"\n"]);
    }

    fn try_group(&mut self, group: &[&Excuse<'a>]) {
        let sources: Vec<_> = group.iter().map(|candidate| candidate.source).collect();
        let coming: Vec<_> = group.iter().flat_map(|candidate| candidate.current_rows.iter().copied()).collect();
        if let Err(offender) = self.testing.change(self.names, &sources, &coming, Offenders::First) {
            self.write(&[b" refuse"]);
            return self.write_offender(&offender);
        }
        self.write(&[b" accept"]);
        for candidate in group {
            self.testing.sources.insert(candidate.source, candidate.unstable);
            self.write(&[b" ", self.names.text(candidate.source), b" ", candidate.unstable.text]);
        }
    }

    /// The first candidate in order of names that is allowed to move, then each time the first one in circular order
    /// after that, until none is. What remains waits.
    fn move_singles(&mut self) {
        let is_moved = |one: &&Excuse| self.testing.sources.get(&one.source) == Some(&one.unstable);
        let mut waiting: Vec<&Excuse> = self.candidates.iter().copied().filter(|one| !is_moved(one)).collect();
        let mut refused = 0;
        while refused < waiting.len() {
            waiting = self.go_round(&waiting, &mut refused);
        }
        for candidate in waiting {
            self.tell_offender(candidate);
        }
    }

    /// Tries the candidates that wait, one after the other, and tells which ones still do. It ends where as many were
    /// refused in turn as are left.
    fn go_round<'w>(&mut self, waiting: &[&'w Excuse<'a>], refused: &mut usize) -> Vec<&'w Excuse<'a>> {
        let mut left = Vec::with_capacity(waiting.len());
        for (place, &candidate) in waiting.iter().enumerate() {
            if *refused >= left.len() + waiting.len() - place {
                left.extend_from_slice(&waiting[place..]);
                break;
            }
            if self.try_single(candidate, Offenders::Any).is_ok() {
                self.write(&[b"accept ", self.names.text(candidate.source), b" ", candidate.unstable.text, b"\n"]);
                *refused = 0;
            } else {
                left.push(candidate);
                *refused += 1;
            }
        }
        left
    }

    /// A candidate that waits, and the offender of moving it alone.
    fn tell_offender(&mut self, candidate: &Excuse<'a>) {
        if let Err(offender) = self.try_single(candidate, Offenders::First) {
            self.write(&[b"wait ", self.names.text(candidate.source), b" ", candidate.unstable.text]);
            self.write_offender(&offender);
            self.write(&[b"\n"]);
        }
    }

    fn try_single(&mut self, candidate: &Excuse<'a>, offenders: Offenders) -> Result<(), Offender> {
        self.testing.change(self.names, &[candidate.source], &candidate.current_rows, offenders)?;
        self.testing.sources.insert(candidate.source, candidate.unstable);
        Ok(())
    }

    fn write(&mut self, texts: &[&[u8]]) {
        texts.iter().for_each(|text| self.output.extend_from_slice(text));
    }

    fn write_offender(&mut self, offender: &Offender) {
        self.write(&[b" uninstallable ", self.setup.arch_name(offender.arch), b" ", self.names.text(offender.name)]);
    }
}
