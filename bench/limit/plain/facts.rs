//! What the covered messages say of unstable, bugs and hints (docs/RULES.md, parts 6 and 12.1).

use crate::control::{Paragraph, Paragraphs, day_count, number, split_at_byte, words};
use crate::mail::{Arch, Setup};
use crate::names::{Map, NameId, Names, Set};
use crate::relation::split_name;
use crate::version::Version;
use std::cmp::Reverse;
use std::collections::BTreeMap;

pub type RowId = u32;

/// Where a fact stands: the sender's place in the setup, the message's number, the paragraph's place in it. Among facts
/// of the same version the first one counts.
type Origin = (usize, usize, usize);

#[derive(Clone, Copy, PartialEq, Eq, PartialOrd, Ord)]
pub enum Urgency {
    Low,
    Medium,
    High,
    Critical,
}

pub struct Upload<'a> {
    pub version: Version<'a>,
    pub urgency: Urgency,
    pub day: i64,
    origin: Origin,
}

/// A binary package of a build on an architecture.
pub struct Row<'a> {
    pub arch: Arch,
    pub name: NameId,
    pub version: Version<'a>,
    pub source: NameId,
    pub source_version: Version<'a>,
    pub pre_depends: &'a [u8],
    pub depends: &'a [u8],
    pub provides: &'a [u8],
    origin: Origin,
}

pub struct Bug<'a> {
    pub source: NameId,
    pub is_release_critical: bool,
    found: Option<Version<'a>>,
    fixed: Option<Version<'a>>,
}

impl Bug<'_> {
    pub fn affects(&self, version: Version) -> bool {
        self.found.is_none_or(|found| found <= version) && self.fixed.is_none_or(|fixed| version < fixed)
    }
}

/// A source at a version, as hints name it.
#[derive(Clone, Copy)]
pub struct HintItem<'a> {
    pub source: NameId,
    pub version: Version<'a>,
}

pub enum Hint<'a> {
    Block(Vec<NameId>),
    BlockAll,
    Unblock(Vec<HintItem<'a>>),
    Easy(Vec<HintItem<'a>>),
    AgeDays(u32, Vec<HintItem<'a>>),
    Remove(Vec<HintItem<'a>>),
}

/// The days that an upload of each urgency waits.
pub struct Delays([u32; 4]);

impl Delays {
    pub fn of(&self, urgency: Urgency) -> u32 {
        self.0[urgency as usize]
    }
}

/// What the messages that were taken so far say.
pub struct Facts<'a> {
    /// The covered uploads of each source.
    pub uploads: Map<NameId, Vec<Upload<'a>>>,
    /// The rows that were the best of their architecture and name when they came.
    pub rows: Vec<Row<'a>>,
    best: Map<(Arch, NameId), RowId>,
    best_of_source: Map<NameId, Vec<RowId>>,
    /// The greatest version that was dropped.
    drops: Map<(Arch, NameId), Version<'a>>,
    /// Each bug's last state.
    pub bugs: BTreeMap<u32, Bug<'a>>,
    hints: Vec<(usize, Hint<'a>)>,
    cancelled: Set<usize>,
    pub delays: Delays,
}

impl<'a> Facts<'a> {
    pub fn new() -> Self {
        Facts {
            uploads: Map::default(),
            rows: Vec::new(),
            best: Map::default(),
            best_of_source: Map::default(),
            drops: Map::default(),
            bugs: BTreeMap::new(),
            hints: Vec::new(),
            cancelled: Set::default(),
            delays: Delays([10, 5, 2, 0]),
        }
    }

    /// Takes the message of a sender's number. Those of a sender come in the order of their numbers.
    pub fn take(&mut self, setup: &Setup, names: &mut Names<'a>, sender: usize, count: usize, text: &'a [u8]) {
        let (mut paragraphs, mut first) = (Paragraphs::new(text), Paragraph::default());
        paragraphs.read(&mut first);
        match first.value("Kind") {
            b"upload" => self.take_upload(&first, names, (sender, count, 0)),
            b"drop" => self.take_drop(&first, setup, names),
            b"build" => {
                let mut place = 1;
                while paragraphs.read(&mut first) {
                    self.take_row(Row::read(&first, setup, names, (sender, count, place)));
                    place += 1;
                }
            }
            b"bug" => self.take_bug(&first, names),
            b"hint" => self.hints.push((count, Hint::read(first.value("Hint"), names))),
            b"unhint" => {
                self.cancelled.insert(number(first.value("Cancels")) as usize);
            }
            b"delays" => {
                self.delays = Delays(["Low", "Medium", "High", "Critical"].map(|urgency| days(&first, urgency)))
            }
            _ => {}
        }
    }

    fn take_upload(&mut self, message: &Paragraph<'a>, names: &mut Names<'a>, origin: Origin) {
        let urgency = match message.value("Urgency")[0].to_ascii_lowercase() {
            b'l' => Urgency::Low,
            b'm' => Urgency::Medium,
            b'h' => Urgency::High,
            _ => Urgency::Critical,
        };
        let version = Version::new(message.value("Version"));
        let upload = Upload { version, urgency, day: day_count(message.value("Day")), origin };
        self.uploads.entry(names.id(message.value("Source"))).or_default().push(upload);
    }

    fn take_drop(&mut self, message: &Paragraph<'a>, setup: &Setup, names: &mut Names<'a>) {
        let pair = (setup.arch(message.value("Architecture")), names.id(message.value("Package")));
        let version = Version::new(message.value("Version"));
        let dropped = self.drops.entry(pair).or_insert(version);
        *dropped = version.max(*dropped);
    }

    /// Keeps a row if it is the best of its architecture and name so far: that of the greatest version, and among the
    /// same version the first.
    fn take_row(&mut self, row: Row<'a>) {
        let id = self.rows.len() as RowId;
        let best = self.best.entry((row.arch, row.name)).or_insert(id);
        if *best != id {
            let other = &self.rows[*best as usize];
            if (row.version, Reverse(row.origin)) < (other.version, Reverse(other.origin)) {
                return;
            }
            let outdone = std::mem::replace(best, id);
            self.best_of_source.entry(other.source).or_default().retain(|&row| row != outdone);
        }
        self.best_of_source.entry(row.source).or_default().push(id);
        self.rows.push(row);
    }

    fn take_bug(&mut self, message: &Paragraph<'a>, names: &mut Names<'a>) {
        let bug = Bug {
            source: names.id(message.value("Source")),
            is_release_critical: matches!(message.value("Severity"), b"critical" | b"grave" | b"serious"),
            found: message.get("Found").map(Version::new),
            fixed: message.get("Fixed").map(Version::new),
        };
        self.bugs.insert(number(message.value("Bug")), bug);
    }

    /// The unstable rows of a source: the best ones that weren't dropped. A pair whose best row was dropped has none,
    /// since its other rows are of no greater version.
    pub fn unstable_rows(&self, source: NameId) -> impl Iterator<Item = RowId> {
        self.best_of_source.get(&source).into_iter().flatten().copied().filter(|&id| {
            let row = &self.rows[id as usize];
            self.drops.get(&(row.arch, row.name)).is_none_or(|&dropped| dropped < row.version)
        })
    }

    /// The hints that no message takes back, with their numbers.
    pub fn hints(&self) -> impl Iterator<Item = (usize, &Hint<'a>)> {
        self.hints.iter().map(|(number, hint)| (*number, hint)).filter(|(number, _)| !self.cancelled.contains(number))
    }
}

/// The unstable source among the uploads of a name: the greatest version, and among the same version the first.
pub fn unstable_source<'u, 'a>(uploads: &'u [Upload<'a>]) -> &'u Upload<'a> {
    uploads.iter().max_by_key(|upload| (upload.version, Reverse(upload.origin))).expect("a source has an upload")
}

impl<'a> Row<'a> {
    /// `Source` is a name, and a version in parentheses where that isn't the binary's (part 3).
    fn read(paragraph: &Paragraph<'a>, setup: &Setup, names: &mut Names<'a>, origin: Origin) -> Self {
        let name = paragraph.value("Package");
        let version = Version::new(paragraph.value("Version"));
        let (source, source_version) = split_name(paragraph.get("Source").unwrap_or(name));
        Row {
            arch: setup.arch(paragraph.value("Architecture")),
            name: names.id(name),
            version,
            source: names.id(source),
            source_version: source_version.map_or(version, Version::new),
            pre_depends: paragraph.get("Pre-Depends").unwrap_or_default(),
            depends: paragraph.get("Depends").unwrap_or_default(),
            provides: paragraph.get("Provides").unwrap_or_default(),
            origin,
        }
    }
}

impl<'a> Hint<'a> {
    fn read(text: &'a [u8], names: &mut Names<'a>) -> Self {
        let mut words = words(text);
        let kind = words.next().expect("a hint's first word");
        match kind {
            b"block" => Hint::Block(words.map(|name| names.id(name)).collect()),
            b"block-all" => Hint::BlockAll,
            b"age-days" => {
                let days = number(words.next().expect("a count of days"));
                Hint::AgeDays(days, hint_items(words, names))
            }
            b"unblock" => Hint::Unblock(hint_items(words, names)),
            b"easy" => Hint::Easy(hint_items(words, names)),
            _ => Hint::Remove(hint_items(words, names)),
        }
    }
}

/// Items `NAME/VERSION`.
fn hint_items<'a>(words: impl Iterator<Item = &'a [u8]>, names: &mut Names<'a>) -> Vec<HintItem<'a>> {
    words
        .filter_map(|word| split_at_byte(word, b'/'))
        .map(|(name, version)| HintItem { source: names.id(name), version: Version::new(version) })
        .collect()
}

fn days(message: &Paragraph, urgency: &str) -> u32 {
    number(message.value(urgency))
}
