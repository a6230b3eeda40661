//! Versions and their order (docs/RULES.md, part 1; Debian Policy 5.6.12).

use crate::control::number;
use std::cmp::Ordering;

/// A version, as its text and where its parts lie in it. Versions are equal where they are the same version.
#[derive(Clone, Copy)]
pub struct Version<'a> {
    pub text: &'a [u8],
    epoch: u32,
    upstream_start: u16,
    upstream_end: u16,
}

impl<'a> Version<'a> {
    /// The epoch stands before the first colon, the revision behind the last hyphen of the rest.
    pub fn new(text: &'a [u8]) -> Self {
        let colon = text.iter().position(|&byte| byte == b':');
        let start = colon.map_or(0, |colon| colon + 1);
        let end = text[start..].iter().rposition(|&byte| byte == b'-').map_or(text.len(), |hyphen| start + hyphen);
        Version {
            text,
            epoch: colon.map_or(0, |colon| number(&text[..colon])),
            upstream_start: start as u16,
            upstream_end: end as u16,
        }
    }

    fn upstream(&self) -> &'a [u8] {
        &self.text[usize::from(self.upstream_start)..usize::from(self.upstream_end)]
    }

    /// An absent revision counts as 0.
    fn revision(&self) -> &'a [u8] {
        self.text.get(usize::from(self.upstream_end) + 1..).unwrap_or(b"0")
    }
}

impl Ord for Version<'_> {
    fn cmp(&self, other: &Self) -> Ordering {
        if self.text == other.text {
            return Ordering::Equal;
        }
        self.epoch
            .cmp(&other.epoch)
            .then_with(|| compare_parts(self.upstream(), other.upstream()))
            .then_with(|| compare_parts(self.revision(), other.revision()))
    }
}

impl PartialOrd for Version<'_> {
    fn partial_cmp(&self, other: &Self) -> Option<Ordering> {
        Some(self.cmp(other))
    }
}

impl PartialEq for Version<'_> {
    fn eq(&self, other: &Self) -> bool {
        self.cmp(other).is_eq()
    }
}

impl Eq for Version<'_> {}

/// Runs of non-digits and of digits by turns, until a difference is found or both parts are used up.
fn compare_parts(mut left: &[u8], mut right: &[u8]) -> Ordering {
    while !left.is_empty() || !right.is_empty() {
        let others = compare_others(take_run(&mut left, false), take_run(&mut right, false));
        let ordering = others.then_with(|| compare_numbers(take_run(&mut left, true), take_run(&mut right, true)));
        if ordering.is_ne() {
            return ordering;
        }
    }
    Ordering::Equal
}

/// Takes the leading run of digits, or that of non-digits, off a part.
fn take_run<'a>(part: &mut &'a [u8], of_digits: bool) -> &'a [u8] {
    let end = part.iter().position(|byte| byte.is_ascii_digit() != of_digits).unwrap_or(part.len());
    let (run, rest) = part.split_at(end);
    *part = rest;
    run
}

/// Two runs of non-digits, character by character.
fn compare_others(left: &[u8], right: &[u8]) -> Ordering {
    (0..left.len().max(right.len()))
        .map(|place| weight(left.get(place)).cmp(&weight(right.get(place))))
        .find(|ordering| ordering.is_ne())
        .unwrap_or(Ordering::Equal)
}

/// `~` sorts before the end of a run, that before the letters, and those before all other characters.
fn weight(character: Option<&u8>) -> i32 {
    match character {
        Some(b'~') => -1,
        None => 0,
        Some(&letter) if letter.is_ascii_alphabetic() => i32::from(letter),
        Some(&other) => i32::from(other) + 256,
    }
}

/// Two runs of digits as numbers of any length; an empty run is zero.
fn compare_numbers(left: &[u8], right: &[u8]) -> Ordering {
    let [left, right] = [left, right].map(|digits| {
        let zeros = digits.iter().position(|&digit| digit != b'0').unwrap_or(digits.len());
        &digits[zeros..]
    });
    left.len().cmp(&right.len()).then_with(|| left.cmp(right))
}
