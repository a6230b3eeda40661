//! Which packages are installable, by a worklist in plain Rust: what the proved crate is timed against.
//!
//! Reads paragraphs of Package, Version, Pre-Depends, Depends and Provides from standard input.

use std::cmp::Ordering;
use std::collections::HashMap;
use std::io::Read;
use std::time::{Duration, Instant};

struct Version {
    epoch: u32,
    upstream: String,
    revision: String,
}

struct Relation {
    sign: String,
    version: Version,
}

struct Alternative {
    name: String,
    relation: Option<Relation>,
}

struct Provision {
    name: String,
    version: Option<Version>,
}

struct Package {
    name: String,
    version: Version,
    clauses: Vec<Vec<Alternative>>,
    provides: Vec<Provision>,
}

fn version(text: &str) -> Version {
    let (epoch, rest) = text.split_once(':').unwrap_or(("0", text));
    let (upstream, revision) = rest.rsplit_once('-').unwrap_or((rest, "0"));
    Version {
        epoch: epoch.parse().unwrap_or(0),
        upstream: upstream.to_string(),
        revision: revision.to_string(),
    }
}

fn weight(byte: Option<&u8>) -> i32 {
    match byte {
        Some(b'~') => -1,
        None => 0,
        Some(byte) if byte.is_ascii_digit() => 0,
        Some(byte) if byte.is_ascii_alphabetic() => i32::from(*byte),
        Some(byte) => i32::from(*byte) + 256,
    }
}

fn digits(text: &[u8]) -> (&[u8], &[u8]) {
    let zeros = text.iter().take_while(|byte| **byte == b'0').count();
    let text = &text[zeros..];
    let end = text.iter().take_while(|byte| byte.is_ascii_digit()).count();
    text.split_at(end)
}

fn order_parts(mut left: &[u8], mut right: &[u8]) -> Ordering {
    let is_text = |part: &[u8]| part.first().is_some_and(|byte| !byte.is_ascii_digit());
    while !left.is_empty() || !right.is_empty() {
        while is_text(left) || is_text(right) {
            let order = weight(left.first()).cmp(&weight(right.first()));
            if order.is_ne() {
                return order;
            }
            left = &left[1..];
            right = &right[1..];
        }
        let (left_number, left_rest) = digits(left);
        let (right_number, right_rest) = digits(right);
        let order = left_number.len().cmp(&right_number.len());
        let order = order.then_with(|| left_number.cmp(right_number));
        if order.is_ne() {
            return order;
        }
        left = left_rest;
        right = right_rest;
    }
    Ordering::Equal
}

fn order(left: &Version, right: &Version) -> Ordering {
    let parts = |left: &str, right: &str| order_parts(left.as_bytes(), right.as_bytes());
    let order = left.epoch.cmp(&right.epoch);
    let order = order.then_with(|| parts(&left.upstream, &right.upstream));
    order.then_with(|| parts(&left.revision, &right.revision))
}

fn holds(relation: &Relation, version: &Version) -> bool {
    let order = order(version, &relation.version);
    match relation.sign.as_str() {
        "<<" => order.is_lt(),
        "<=" | "<" => order.is_le(),
        "=" => order.is_eq(),
        ">>" => order.is_gt(),
        _ => order.is_ge(),
    }
}

// `name:any (sign version) [..]`: the name, and the relation where one is stated.
fn alternative(text: &str) -> Alternative {
    let (head, rest) = text.split_once('(').unwrap_or((text, ""));
    let name = head.trim().split(':').next().unwrap_or("").to_string();
    let inner = rest.split(')').next().unwrap_or("").trim();
    let signs = inner.find(|c| !"<=>".contains(c)).unwrap_or(inner.len());
    let relation = (!inner.is_empty()).then(|| Relation {
        sign: inner[..signs].to_string(),
        version: version(inner[signs..].trim()),
    });
    Alternative { name, relation }
}

fn items(text: &str) -> impl Iterator<Item = &str> {
    text.split(',')
        .map(str::trim)
        .filter(|item| !item.is_empty())
}

fn package(paragraph: &str) -> Option<Package> {
    let field = |name: &str| {
        paragraph
            .lines()
            .find_map(|line| line.strip_prefix(name)?.strip_prefix(':'))
            .map(str::trim)
    };
    let depends =
        items(field("Pre-Depends").unwrap_or("")).chain(items(field("Depends").unwrap_or("")));
    let provisions = items(field("Provides").unwrap_or("")).map(alternative);
    Some(Package {
        name: field("Package")?.to_string(),
        version: version(field("Version")?),
        clauses: depends
            .map(|item| item.split('|').map(alternative).collect())
            .collect(),
        provides: provisions
            .map(|Alternative { name, relation }| Provision {
                name,
                version: relation.map(|r| r.version),
            })
            .collect(),
    })
}

fn satisfies(package: &Package, alternative: &Alternative) -> bool {
    let fits = |version: Option<&Version>| match (&alternative.relation, version) {
        (None, _) => true,
        (Some(_), None) => false,
        (Some(relation), Some(version)) => holds(relation, version),
    };
    package.name == alternative.name && fits(Some(&package.version))
        || package
            .provides
            .iter()
            .any(|p| p.name == alternative.name && fits(p.version.as_ref()))
}

struct Work<'a> {
    packages: &'a [Package],
    providers: HashMap<&'a str, Vec<usize>>,
    claims: Vec<(usize, &'a [Alternative])>,
    marks: Vec<bool>,
    resting: Vec<Vec<usize>>,
    waiting: Vec<usize>,
    turns: usize,
    looks: u64,
}

impl<'a> Work<'a> {
    fn new(packages: &'a [Package]) -> Self {
        let mut providers: HashMap<&str, Vec<usize>> = HashMap::new();
        let mut claims = Vec::new();
        for (place, package) in packages.iter().enumerate() {
            providers.entry(&package.name).or_default().push(place);
            for provision in &package.provides {
                providers.entry(&provision.name).or_default().push(place);
            }
            claims.extend(
                package
                    .clauses
                    .iter()
                    .map(|clause| (place, clause.as_slice())),
            );
        }
        Work {
            packages,
            providers,
            claims,
            marks: vec![true; packages.len()],
            resting: vec![Vec::new(); packages.len()],
            waiting: Vec::new(),
            turns: 0,
            looks: 0,
        }
    }

    fn find(&self, clause: &[Alternative]) -> Option<usize> {
        clause.iter().find_map(|alternative| {
            let places = self.providers.get(alternative.name.as_str())?;
            let does = |place: &usize| {
                self.marks[*place] && satisfies(&self.packages[*place], alternative)
            };
            places.iter().copied().find(does)
        })
    }

    fn look(&mut self, claim: usize) {
        self.looks += 1;
        let (owner, clause) = self.claims[claim];
        match self.find(clause) {
            Some(place) => self.resting[place].push(claim),
            None if self.marks[owner] => {
                self.marks[owner] = false;
                self.waiting.push(owner);
            }
            None => {}
        }
    }

    fn solve(&mut self) {
        for claim in 0..self.claims.len() {
            self.look(claim);
        }
        while let Some(place) = self.waiting.pop() {
            self.turns += 1;
            for claim in std::mem::take(&mut self.resting[place]) {
                self.look(claim);
            }
        }
    }
}

fn main() {
    let mut text = String::new();
    std::io::stdin()
        .read_to_string(&mut text)
        .expect("rows on standard input");
    let packages: Vec<Package> = text.split("\n\n").filter_map(package).collect();
    let (mut index, mut whole) = (Duration::MAX, Duration::MAX);
    for _round in 0..5 {
        let start = Instant::now();
        let mut work = Work::new(&packages);
        index = index.min(start.elapsed());
        work.solve();
        whole = whole.min(start.elapsed());
    }
    let mut work = Work::new(&packages);
    work.solve();
    let digest = work.marks.iter().fold(0u64, |digest, mark| {
        digest.wrapping_mul(31).wrapping_add(u64::from(*mark))
    });
    println!(
        "rows {} clauses {} installable {} turns {} looks {} digest {digest}",
        packages.len(),
        work.claims.len(),
        work.marks.iter().filter(|mark| **mark).count(),
        work.turns,
        work.looks,
    );
    println!("index {} whole {}", index.as_micros(), whole.as_micros());
}
