//! The rows that may stand in testing, their clauses, and which rows satisfy which clauses (docs/RULES.md, part 3).

use crate::control::items;
use crate::facts::{Row, RowId};
use crate::mail::Arch;
use crate::names::{Map, NameId, Names};
use crate::relation::Alternative;
use crate::version::Version;

pub type ClauseId = u32;

/// A row with what is known of it in the pool.
#[derive(Default)]
pub struct PoolRow {
    pub arch: Arch,
    pub name: NameId,
    pub source: NameId,
    pub clauses: Vec<ClauseId>,
    pub satisfies: Vec<ClauseId>,
    is_known: bool,
}

/// Alternatives, one of which has to be met.
pub struct Clause<'a> {
    alternatives: Vec<Alternative<'a>>,
    /// The rows that satisfy the clause.
    pub providers: Vec<RowId>,
    /// The rows that have it.
    pub users: Vec<RowId>,
}

impl Clause<'_> {
    fn accepts(&self, name: NameId, version: Option<Version>) -> bool {
        self.alternatives.iter().any(|alternative| alternative.name == name && alternative.accepts(version))
    }
}

/// What a name is offered by, and which clauses ask for it.
#[derive(Default)]
struct Name<'a> {
    offers: Vec<(RowId, Option<Version<'a>>)>,
    asked_by: Vec<ClauseId>,
}

#[derive(Default)]
pub struct Pool<'a> {
    /// By the rows' places among those of the facts.
    pub rows: Vec<PoolRow>,
    pub clauses: Vec<Clause<'a>>,
    clause_of_text: Map<&'a [u8], ClauseId>,
    names: Vec<Name<'a>>,
}

impl<'a> Pool<'a> {
    /// Makes room for as many rows.
    pub fn grow(&mut self, rows: usize) {
        self.rows.resize_with(rows, PoolRow::default);
    }

    /// Brings a row in, if it isn't there.
    pub fn add(&mut self, id: RowId, row: &Row<'a>, names: &mut Names<'a>) {
        let known = &mut self.rows[id as usize];
        if known.is_known {
            return;
        }
        *known = PoolRow { arch: row.arch, name: row.name, source: row.source, is_known: true, ..PoolRow::default() };
        self.add_offers(id, row, names);
        for text in items(row.pre_depends).chain(items(row.depends)) {
            let clause = self.clause(text, names);
            self.clauses[clause as usize].users.push(id);
            self.rows[id as usize].clauses.push(clause);
        }
    }

    /// The row offers its own name, and those that it provides.
    fn add_offers(&mut self, id: RowId, row: &Row<'a>, names: &mut Names<'a>) {
        let provided = items(row.provides).map(|item| {
            let provision = Alternative::read(item, names);
            (provision.name, provision.wanted.map(|(_, version)| version))
        });
        let offers: Vec<_> = std::iter::once((row.name, Some(row.version))).chain(provided).collect();
        self.names.resize_with(names.len(), Name::default);
        let mut satisfies = Vec::new();
        for &(name, version) in &offers {
            let name_in_pool = &mut self.names[name as usize];
            name_in_pool.offers.push((id, version));
            let asked_by = name_in_pool.asked_by.iter().copied();
            satisfies.extend(asked_by.filter(|&clause| self.clauses[clause as usize].accepts(name, version)));
        }
        satisfies.sort_unstable();
        satisfies.dedup();
        for &clause in &satisfies {
            self.clauses[clause as usize].providers.push(id);
        }
        self.rows[id as usize].satisfies = satisfies;
    }

    /// The clause of a text: rows that spell a clause alike share it.
    fn clause(&mut self, text: &'a [u8], names: &mut Names<'a>) -> ClauseId {
        if let Some(&clause) = self.clause_of_text.get(text) {
            return clause;
        }
        let id = self.clauses.len() as ClauseId;
        let alternatives: Vec<_> =
            text.split(|&byte| byte == b'|').map(|text| Alternative::read(text, names)).collect();
        self.names.resize_with(names.len(), Name::default);
        let mut providers = Vec::new();
        for alternative in &alternatives {
            let name = &mut self.names[alternative.name as usize];
            providers.extend(name.offers.iter().filter(|offer| alternative.accepts(offer.1)).map(|offer| offer.0));
            name.asked_by.push(id);
        }
        providers.sort_unstable();
        providers.dedup();
        for &row in &providers {
            self.rows[row as usize].satisfies.push(id);
        }
        self.clauses.push(Clause { alternatives, providers, users: Vec::new() });
        self.clause_of_text.insert(text, id);
        id
    }
}
