//! Alternatives of relations, and provisions (docs/RULES.md, part 3; Debian Policy 7.1, 7.2 and 7.5).

use crate::control::{is_white, trim};
use crate::names::{NameId, Names};
use crate::version::Version;
use std::cmp::Ordering;

#[derive(Clone, Copy)]
pub enum Relation {
    Below,
    AtMost,
    Same,
    AtLeast,
    Above,
}

impl Relation {
    /// The relation at the front of a text, and what stands behind it; `<` and `>` mean `<=` and `>=`.
    fn read(text: &[u8]) -> (Relation, &[u8]) {
        match text {
            [b'<', b'<', rest @ ..] => (Relation::Below, rest),
            [b'<', b'=', rest @ ..] | [b'<', rest @ ..] => (Relation::AtMost, rest),
            [b'>', b'>', rest @ ..] => (Relation::Above, rest),
            [b'>', b'=', rest @ ..] | [b'>', rest @ ..] => (Relation::AtLeast, rest),
            [_, rest @ ..] => (Relation::Same, rest),
            [] => unreachable!("a relation stands behind an opening parenthesis"),
        }
    }

    fn holds(self, ordering: Ordering) -> bool {
        match self {
            Relation::Below => ordering.is_lt(),
            Relation::AtMost => ordering.is_le(),
            Relation::Same => ordering.is_eq(),
            Relation::AtLeast => ordering.is_ge(),
            Relation::Above => ordering.is_gt(),
        }
    }
}

/// A name, and the versions of it that are wanted.
pub struct Alternative<'a> {
    pub name: NameId,
    pub wanted: Option<(Relation, Version<'a>)>,
}

impl<'a> Alternative<'a> {
    /// A name, perhaps a qualifier, which is ignored, and perhaps a relation and a version in parentheses.
    pub fn read(text: &'a [u8], names: &mut Names<'a>) -> Self {
        let (name, version) = split_name(text);
        let wanted = version.map(|version| {
            let (relation, version) = Relation::read(version);
            (relation, Version::new(trim(version)))
        });
        Alternative { name: names.id(name), wanted }
    }

    /// A row or a provision of the name, of this version or without one, satisfies the alternative.
    pub fn accepts(&self, offered: Option<Version>) -> bool {
        match (&self.wanted, offered) {
            (None, _) => true,
            (Some((relation, version)), Some(offered)) => relation.holds(offered.cmp(version)),
            (Some(_), None) => false,
        }
    }
}

/// A name, and what stands in parentheses behind it.
pub fn split_name(text: &[u8]) -> (&[u8], Option<&[u8]>) {
    let text = trim(text);
    let end = text.iter().position(|&byte| is_white(byte) || matches!(byte, b':' | b'(')).unwrap_or(text.len());
    let (name, rest) = text.split_at(end);
    let open = rest.iter().position(|&byte| byte == b'(');
    let inside = open.map(|open| trim(rest[open + 1..].strip_suffix(b")").expect("a closing parenthesis")));
    (name, inside)
}
