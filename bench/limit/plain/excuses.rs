//! The excuses of a run (docs/RULES.md, part 12.2; Developer's Reference 5.13).

use crate::facts::{Bug, Facts, RowId, Upload, Urgency, unstable_source};
use crate::hints::StandingHints;
use crate::mail::{Arch, Setup};
use crate::names::{Map, NameId, Names};
use crate::version::Version;
use std::io::{Result, Write};

pub enum Reason {
    TooYoung,
    NewBug(u32),
    NoBinaries,
    MissingOn(Arch),
    Blocked,
    RemovalAsked,
}

pub struct Excuse<'a> {
    pub source: NameId,
    testing: Option<Version<'a>>,
    pub unstable: Version<'a>,
    age: i64,
    days_needed: u32,
    reasons: Vec<Reason>,
    /// The unstable rows that were built from the unstable version.
    pub current_rows: Vec<RowId>,
}

/// What the excuses of a run are made from.
struct ExcuseInput<'r, 'a> {
    setup: &'r Setup<'a>,
    facts: &'r Facts<'a>,
    hints: &'r StandingHints<'r, 'a>,
    bugs_of: Map<NameId, Vec<(u32, &'r Bug<'a>)>>,
    day: i64,
}

/// An excuse for each source whose unstable version is above testing's, or which isn't in testing, by name.
pub fn excuses<'a>(
    setup: &Setup<'a>,
    facts: &Facts<'a>,
    hints: &StandingHints<'_, 'a>,
    names: &Names<'a>,
    testing: &Map<NameId, Version<'a>>,
    day: i64,
) -> Vec<Excuse<'a>> {
    let mut bugs_of: Map<NameId, Vec<(u32, &Bug)>> = Map::default();
    for (&number, bug) in facts.bugs.iter().filter(|(_, bug)| bug.is_release_critical) {
        bugs_of.entry(bug.source).or_default().push((number, bug));
    }
    let input = ExcuseInput { setup, facts, hints, bugs_of, day };
    let mut news: Vec<_> = facts
        .uploads
        .iter()
        .map(|(&source, uploads)| (source, uploads, unstable_source(uploads), testing.get(&source).copied()))
        .filter(|(_, _, unstable, testing)| testing.is_none_or(|testing| unstable.version > testing))
        .collect();
    news.sort_unstable_by_key(|news| names.text(news.0));
    news.into_iter()
        .map(|(source, uploads, unstable, testing)| input.excuse(source, uploads, unstable, testing))
        .collect()
}

impl<'a> ExcuseInput<'_, 'a> {
    fn excuse(
        &self,
        source: NameId,
        uploads: &[Upload<'a>],
        unstable: &Upload<'a>,
        testing: Option<Version<'a>>,
    ) -> Excuse<'a> {
        let rows = || self.facts.unstable_rows(source);
        let is_current = |&row: &RowId| self.facts.rows[row as usize].source_version == unstable.version;
        let mut excuse = Excuse {
            source,
            testing,
            unstable: unstable.version,
            age: (self.day - unstable.day).max(0),
            days_needed: self.days_needed(source, uploads, unstable.version, testing),
            reasons: Vec::new(),
            current_rows: rows().filter(is_current).collect(),
        };
        excuse.reasons = self.reasons(&excuse, &rows().collect::<Vec<_>>());
        excuse
    }

    /// Those of the last hint on this version, else those of the most urgent upload above testing's version.
    fn days_needed(&self, source: NameId, uploads: &[Upload], unstable: Version, testing: Option<Version>) -> u32 {
        let counts = |upload: &&Upload| testing.is_none_or(|testing| upload.version > testing);
        self.hints.days(source, unstable).unwrap_or_else(|| {
            let urgency = uploads.iter().filter(counts).map(|upload| upload.urgency).max();
            self.facts.delays.of(urgency.unwrap_or(Urgency::Low))
        })
    }

    /// What keeps a source out, in the order in which it is told.
    fn reasons(&self, excuse: &Excuse, rows: &[RowId]) -> Vec<Reason> {
        let Excuse { source, unstable, testing, .. } = *excuse;
        let mut reasons = Vec::new();
        if excuse.age < i64::from(excuse.days_needed) {
            reasons.push(Reason::TooYoung);
        }
        let bugs = self.bugs_of.get(&source).into_iter().flatten();
        let new_bugs =
            bugs.filter(|(_, bug)| bug.affects(unstable) && testing.is_none_or(|testing| !bug.affects(testing)));
        reasons.extend(new_bugs.map(|&(number, _)| Reason::NewBug(number)));
        if excuse.current_rows.is_empty() {
            reasons.push(Reason::NoBinaries);
        }
        let has = |rows: &[RowId], arch| rows.iter().any(|&row| self.facts.rows[row as usize].arch == arch);
        let archs = self.setup.archs().chain([Arch::ALL]);
        let missing = archs.filter(|&arch| has(rows, arch) && !has(&excuse.current_rows, arch));
        reasons.extend(missing.map(Reason::MissingOn));
        if self.hints.is_blocked(source, unstable) {
            reasons.push(Reason::Blocked);
        }
        if [Some(unstable), testing].into_iter().flatten().any(|version| self.hints.is_removal_asked(source, version)) {
            reasons.push(Reason::RemovalAsked);
        }
        reasons
    }
}

impl Excuse<'_> {
    pub fn is_candidate(&self) -> bool {
        self.reasons.is_empty()
    }

    pub fn write(&self, setup: &Setup, names: &Names, output: &mut Vec<u8>) -> Result<()> {
        let testing = self.testing.map_or(b"-".as_slice(), |version| version.text);
        output.extend([names.text(self.source), b" ", testing, b" ", self.unstable.text].into_iter().flatten());
        writeln!(output, "\n age {} of {}", self.age, self.days_needed)?;
        for reason in &self.reasons {
            match reason {
                Reason::TooYoung => output.extend(b" too young"),
                Reason::NewBug(number) => write!(output, " new bug {number}")?,
                Reason::NoBinaries => output.extend(b" no binaries"),
                Reason::MissingOn(arch) => {
                    output.extend([b" missing on ", setup.arch_name(*arch)].into_iter().flatten())
                }
                Reason::Blocked => output.extend(b" blocked"),
                Reason::RemovalAsked => output.extend(b" removal asked"),
            }
            output.push(b'\n');
        }
        output.extend(if self.is_candidate() { b" candidate\n".as_slice() } else { b" not a candidate\n" });
        Ok(())
    }
}
