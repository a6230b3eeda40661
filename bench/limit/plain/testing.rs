//! Testing: its sources and rows, and the changes that are allowed (docs/RULES.md, part 12.3).

use crate::facts::{Facts, RowId};
use crate::mail::{Arch, Setup};
use crate::names::{Map, NameId, Names};
use crate::pool::Pool;
use crate::suite::{ArchSuite, Offenders};
use crate::version::Version;

/// One version for each source, and one row for each architecture and name.
pub struct Testing<'a> {
    pub sources: Map<NameId, Version<'a>>,
    rows: Map<(Arch, NameId), RowId>,
    rows_of_source: Map<NameId, Vec<RowId>>,
    pool: Pool<'a>,
    suites: Vec<ArchSuite>,
}

/// The first row that fails where a change isn't allowed.
pub struct Offender {
    pub arch: Arch,
    pub name: NameId,
}

impl<'a> Testing<'a> {
    pub fn new(setup: &Setup) -> Self {
        Testing {
            sources: Map::default(),
            rows: Map::default(),
            rows_of_source: Map::default(),
            pool: Pool::default(),
            suites: setup.archs().map(ArchSuite::new).collect(),
        }
    }

    /// Brings rows that may come in this run into the pool.
    pub fn pool(&mut self, facts: &Facts<'a>, names: &mut Names<'a>, rows: impl Iterator<Item = RowId>) {
        self.pool.grow(facts.rows.len());
        for row in rows {
            self.pool.add(row, &facts.rows[row as usize], names);
        }
        for suite in &mut self.suites {
            suite.grow(&self.pool);
        }
    }

    /// Takes all rows of the sources out and brings rows in, if that is allowed; else nothing changes. A row with the
    /// same architecture and name gives way to one that comes.
    pub fn change(
        &mut self,
        names: &Names,
        sources: &[NameId],
        coming: &[RowId],
        offenders: Offenders,
    ) -> Result<(), Offender> {
        if offenders == Offenders::Any {
            self.refuse_hopeless(coming)?;
        }
        let leaving = self.leaving(sources, coming);
        for place in 0..self.suites.len() {
            if let Some(row) = self.suites[place].change(&self.pool, names, &leaving, coming, offenders) {
                self.suites[..=place].iter_mut().for_each(ArchSuite::undo);
                return Err(self.offender(place, row));
            }
        }
        self.keep(&leaving, coming);
        Ok(())
    }

    fn offender(&self, place: usize, row: RowId) -> Offender {
        Offender { arch: Arch(place as u8), name: self.pool.rows[row as usize].name }
    }

    /// Refuses at once what can't be allowed.
    fn refuse_hopeless(&self, coming: &[RowId]) -> Result<(), Offender> {
        let hopeless = self
            .suites
            .iter()
            .enumerate()
            .find_map(|(place, suite)| Some((place, suite.hopeless(&self.pool, coming)?)));
        hopeless.map_or(Ok(()), |(place, row)| Err(self.offender(place, row)))
    }

    /// The rows that leave: those of the sources, and those that give way.
    fn leaving(&self, sources: &[NameId], coming: &[RowId]) -> Vec<RowId> {
        let of_sources = sources.iter().filter_map(|source| self.rows_of_source.get(source)).flatten().copied();
        let give_way = coming.iter().filter_map(|&row| {
            let row = &self.pool.rows[row as usize];
            let other = *self.rows.get(&(row.arch, row.name))?;
            (!sources.contains(&self.pool.rows[other as usize].source)).then_some(other)
        });
        of_sources.chain(give_way).collect()
    }

    fn keep(&mut self, leaving: &[RowId], coming: &[RowId]) {
        for &id in leaving {
            let row = &self.pool.rows[id as usize];
            self.rows.remove(&(row.arch, row.name));
            self.rows_of_source.entry(row.source).or_default().retain(|&other| other != id);
        }
        for &id in coming {
            let row = &self.pool.rows[id as usize];
            self.rows.insert((row.arch, row.name), id);
            self.rows_of_source.entry(row.source).or_default().push(id);
        }
        for suite in &mut self.suites {
            suite.count_rows(&self.pool, leaving, coming);
        }
    }

    /// The lines of testing's text: sources by name, then rows by architecture and name.
    pub fn write(&self, setup: &Setup, facts: &Facts, names: &Names, output: &mut Vec<u8>) {
        let mut sources: Vec<_> = self.sources.iter().map(|(&name, version)| (names.text(name), version)).collect();
        sources.sort_unstable();
        for (name, version) in sources {
            output.extend([b"source ", name, b" ", version.text, b"\n"].into_iter().flatten());
        }
        let mut rows: Vec<_> = self.rows.iter().map(|(&(arch, name), &row)| (arch, names.text(name), row)).collect();
        rows.sort_unstable();
        for (arch, name, row) in rows {
            let row = &facts.rows[row as usize];
            let words = [b"binary", setup.arch_name(arch), name, row.version.text, names.text(row.source)];
            output.extend(words.join(&b' '));
            output.push(b'\n');
        }
    }
}
