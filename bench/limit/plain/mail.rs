//! The setup, the mail of a bag, and the runs that are ready (docs/RULES.md, parts 5 to 9).

use crate::control::{Paragraph, Paragraphs, items, number, split_at_byte, words};

/// An architecture as its place in the setup.
#[derive(Clone, Copy, Default, PartialEq, Eq, PartialOrd, Ord, Hash)]
pub struct Arch(pub u8);

impl Arch {
    /// The architecture `all`, which sorts behind those of the setup.
    pub const ALL: Arch = Arch(16);

    /// A row of this architecture is one of the other's rows: its own, or one of `all` (part 4).
    pub fn is_on(self, other: Arch) -> bool {
        self == other || self == Arch::ALL
    }
}

pub struct Setup<'a> {
    archs: Vec<&'a [u8]>,
    senders: Vec<Sender<'a>>,
}

struct Sender<'a> {
    name: &'a [u8],
    role: &'a [u8],
}

impl<'a> Setup<'a> {
    pub fn read(text: &'a [u8]) -> Self {
        let (mut paragraphs, mut paragraph) = (Paragraphs::new(text), Paragraph::default());
        paragraphs.read(&mut paragraph);
        let archs = words(paragraph.value("Architectures")).collect();
        let mut senders = Vec::new();
        while paragraphs.read(&mut paragraph) {
            senders.push(Sender { name: paragraph.value("Sender"), role: paragraph.value("Role") });
        }
        Setup { archs, senders }
    }

    /// The listed architectures.
    pub fn archs(&self) -> impl Iterator<Item = Arch> + use<> {
        (0..self.archs.len() as u8).map(Arch)
    }

    pub fn arch(&self, name: &[u8]) -> Arch {
        self.archs.iter().position(|&arch| arch == name).map_or(Arch::ALL, |place| Arch(place as u8))
    }

    pub fn arch_name(&self, arch: Arch) -> &'a [u8] {
        self.archs.get(usize::from(arch.0)).copied().unwrap_or(b"all")
    }

    fn sender(&self, name: &[u8]) -> usize {
        self.senders.iter().position(|sender| sender.name == name).expect("a sender of the setup")
    }
}

/// The kept texts of each sender by number; an empty one stands for a number that is free.
pub struct Mail<'a> {
    kept: Vec<Vec<&'a [u8]>>,
}

/// A run that is ready: its date, and the last covered number of each sender.
pub struct Run<'a> {
    pub date: &'a [u8],
    pub cover: Vec<usize>,
}

impl<'a> Mail<'a> {
    /// Takes the messages of a bag, and writes a reply to each.
    pub fn deliver(setup: &Setup, mut bag: &'a [u8], replies: &mut Vec<u8>) -> Self {
        let mut mail = Mail { kept: vec![Vec::new(); setup.senders.len()] };
        let mut paragraph = Paragraph::default();
        while let Some((header, rest)) = split_at_byte(bag, b'\n') {
            let length = number(header.strip_prefix(b"mail ").expect("the line before a message"));
            let (text, rest) = rest.split_at(length as usize);
            bag = rest;
            Paragraphs::new(text).read(&mut paragraph);
            let [sender, count] = ["From", "Number"].map(|field| paragraph.value(field));
            if mail.keep(setup.sender(sender), number(count) as usize, text) {
                replies.extend([b"held ", sender, b" ", count, b"\n"].into_iter().flatten());
            } else {
                replies.extend(b"refused OtherText\n");
            }
        }
        mail
    }

    /// Keeps a text; false where its number has another one already.
    fn keep(&mut self, sender: usize, number: usize, text: &'a [u8]) -> bool {
        let kept = &mut self.kept[sender];
        if kept.len() <= number {
            kept.resize(number + 1, b"");
        }
        if kept[number].is_empty() {
            kept[number] = text;
        }
        kept[number] == text
    }

    /// The runs that are ready: those whose order is kept, with all that they cover, and so on from the first.
    pub fn ready(&self, setup: &Setup) -> Vec<Run<'a>> {
        let unbroken: Vec<usize> =
            self.kept.iter().map(|kept| kept.iter().skip(1).take_while(|text| !text.is_empty()).count()).collect();
        let clock = setup.senders.iter().position(|sender| sender.role == b"runs").expect("a sender of runs");
        let mut runs: Vec<Run> = Vec::new();
        let first = Run { date: b"", cover: self.nothing() };
        for order in self.kept[clock].iter().skip(1).take(unbroken[clock]) {
            let run = runs.last().unwrap_or(&first).next(setup, order);
            if run.cover.iter().zip(&unbroken).any(|(covered, kept)| covered > kept) {
                break;
            }
            runs.push(run);
        }
        runs
    }

    /// A cover of no message.
    pub fn nothing(&self) -> Vec<usize> {
        vec![0; self.kept.len()]
    }

    /// Each sender's texts from one cover to the next, with their numbers.
    pub fn between(&self, from: &[usize], to: &[usize]) -> impl Iterator<Item = (usize, usize, &'a [u8])> {
        (0..self.kept.len())
            .flat_map(move |sender| (from[sender] + 1..=to[sender]).map(move |number| (sender, number)))
            .map(|(sender, number)| (sender, number, self.kept[sender][number]))
    }
}

impl<'a> Run<'a> {
    /// The run of the next order: a cover never shrinks, and the date is the latest of the days so far.
    fn next(&self, setup: &Setup, order: &'a [u8]) -> Run<'a> {
        let mut paragraph = Paragraph::default();
        Paragraphs::new(order).read(&mut paragraph);
        let mut cover = self.cover.clone();
        for item in items(paragraph.value("Covers")) {
            let mut words = words(item);
            if let (Some(sender), Some(stated)) = (words.next(), words.next()) {
                let covered = &mut cover[setup.sender(sender)];
                *covered = (*covered).max(number(stated) as usize);
            }
        }
        Run { date: self.date.max(paragraph.value("Day")), cover }
    }
}
