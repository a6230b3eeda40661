//! The hints that stand in a run, by what they ask (docs/RULES.md, parts 6 and 12).

use crate::facts::{Facts, Hint, HintItem};
use crate::names::{Map, NameId, Set};
use crate::version::Version;

/// A hint of several items, other than `easy`, counts as one hint for each.
#[derive(Default)]
pub struct StandingHints<'f, 'a> {
    blocks_all: bool,
    blocked: Set<NameId>,
    unblocked: Map<NameId, Vec<Version<'a>>>,
    days: Map<NameId, Vec<(Version<'a>, u32)>>,
    removed: Map<NameId, Vec<Version<'a>>>,
    /// The removals in the order of their numbers and places.
    pub removals: Vec<(usize, HintItem<'a>)>,
    /// The groups that are to move as one, in the order of their numbers.
    pub groups: Vec<(usize, &'f [HintItem<'a>])>,
}

impl<'f, 'a> StandingHints<'f, 'a> {
    pub fn new(facts: &'f Facts<'a>) -> Self {
        let mut standing = StandingHints::default();
        for (number, hint) in facts.hints() {
            standing.add(number, hint);
        }
        standing
    }

    fn add(&mut self, number: usize, hint: &'f Hint<'a>) {
        match hint {
            Hint::BlockAll => self.blocks_all = true,
            Hint::Block(sources) => self.blocked.extend(sources),
            Hint::Easy(items) => self.groups.push((number, items)),
            Hint::Unblock(items) => {
                items.iter().for_each(|item| self.unblocked.entry(item.source).or_default().push(item.version));
            }
            Hint::AgeDays(days, items) => {
                items.iter().for_each(|item| self.days.entry(item.source).or_default().push((item.version, *days)));
            }
            Hint::Remove(items) => {
                items.iter().for_each(|item| self.removed.entry(item.source).or_default().push(item.version));
                self.removals.extend(items.iter().map(|&item| (number, item)));
            }
        }
    }

    /// A block names the source or all sources, and no unblock names it at this version.
    pub fn is_blocked(&self, source: NameId, version: Version) -> bool {
        (self.blocks_all || self.blocked.contains(&source)) && !names_version(&self.unblocked, source, version)
    }

    /// A removal names the source at this version.
    pub fn is_removal_asked(&self, source: NameId, version: Version) -> bool {
        names_version(&self.removed, source, version)
    }

    /// The days that the last hint asks for the source at this version.
    pub fn days(&self, source: NameId, version: Version) -> Option<u32> {
        self.days.get(&source)?.iter().rfind(|asked| asked.0 == version).map(|asked| asked.1)
    }
}

fn names_version(items: &Map<NameId, Vec<Version>>, source: NameId, version: Version) -> bool {
    items.get(&source).is_some_and(|versions| versions.contains(&version))
}
