//! Replays a bag as `office replay` does, in plain Rust: what the office is timed against.
//!
//! usage: plain SETUP < BAG
//!
//! It follows docs/RULES.md, and writes the office's output byte for byte, but trusts what it reads: the setup and the
//! messages are well formed, their fields are spelled as there, and the numbers of each sender have no great gaps. The
//! whole bag is read before anything is decided, and its texts are never copied.

mod control;
mod excuses;
mod facts;
mod hints;
mod mail;
mod moves;
mod names;
mod pool;
mod relation;
mod suite;
mod testing;
mod version;

use control::day_count;
use excuses::{Excuse, excuses};
use facts::Facts;
use hints::StandingHints;
use mail::{Mail, Run, Setup};
use moves::Moves;
use names::Names;
use std::io::{Error, Read, Result, Write};
use testing::Testing;

/// What runs leave to the runs after them.
struct Office<'a> {
    setup: &'a Setup<'a>,
    names: Names<'a>,
    facts: Facts<'a>,
    testing: Testing<'a>,
}

impl<'a> Office<'a> {
    /// Decides a run over the facts so far, and writes its excuses and its update.
    fn run(&mut self, number: usize, run: &Run, output: &mut Vec<u8>) -> Result<()> {
        let date = str::from_utf8(run.date).map_err(Error::other)?;
        let hints = StandingHints::new(&self.facts);
        let day = day_count(run.date);
        let excuses = excuses(self.setup, &self.facts, &hints, &self.names, &self.testing.sources, day);
        writeln!(output, "excuses {number} {date}")?;
        for excuse in &excuses {
            excuse.write(self.setup, &self.names, output)?;
        }
        let candidates: Vec<&Excuse> = excuses.iter().filter(|excuse| excuse.is_candidate()).collect();
        let rows = candidates.iter().flat_map(|candidate| candidate.current_rows.iter().copied());
        self.testing.pool(&self.facts, &mut self.names, rows);
        writeln!(output, "update {number} {date}")?;
        let Office { setup, names, testing, .. } = self;
        Moves { setup, names, candidates: &candidates, testing, output }.decide(&hints);
        Ok(())
    }
}

/// What the office prints for a bag.
fn replay(setup: &Setup, bag: &[u8]) -> Result<Vec<u8>> {
    let mut output = Vec::new();
    let mail = Mail::deliver(setup, bag, &mut output);
    let runs = mail.ready(setup);
    writeln!(output, "ready {0} finished {0}", runs.len())?;
    let mut office = Office { setup, names: Names::default(), facts: Facts::new(), testing: Testing::new(setup) };
    let mut covered = mail.nothing();
    for (number, run) in (1..).zip(&runs) {
        for (sender, count, text) in mail.between(&covered, &run.cover) {
            office.facts.take(setup, &mut office.names, sender, count, text);
        }
        office.run(number, run, &mut output)?;
        covered.clone_from(&run.cover);
    }
    writeln!(output, "testing {}", runs.len())?;
    office.testing.write(setup, &office.facts, &office.names, &mut output);
    Ok(output)
}

fn main() -> Result<()> {
    let path = std::env::args_os().nth(1).ok_or_else(|| Error::other("usage: plain SETUP < BAG"))?;
    let (setup, mut bag) = (std::fs::read(path)?, Vec::new());
    std::io::stdin().lock().read_to_end(&mut bag)?;
    let output = replay(&Setup::read(&setup), &bag)?;
    std::io::stdout().lock().write_all(&output)
}
