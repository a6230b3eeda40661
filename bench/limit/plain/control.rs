//! Control data (docs/RULES.md, part 2), numbers and days (part 5), as they stand in texts that are well formed.

/// Space, tab, carriage return and line feed.
pub fn is_white(byte: u8) -> bool {
    matches!(byte, b' ' | b'\t' | b'\r' | b'\n')
}

/// The text from its first to its last character that isn't white.
pub fn trim(text: &[u8]) -> &[u8] {
    let start = text.iter().position(|&byte| !is_white(byte)).unwrap_or(text.len());
    let end = text.iter().rposition(|&byte| !is_white(byte)).map_or(start, |last| last + 1);
    &text[start..end]
}

/// The words of a text, which white separates.
pub fn words(text: &[u8]) -> impl Iterator<Item = &[u8]> {
    text.split(|&byte| is_white(byte)).filter(|word| !word.is_empty())
}

/// The items of a list by commas; those of white alone are skipped.
pub fn items(list: &[u8]) -> impl Iterator<Item = &[u8]> {
    list.split(|&byte| byte == b',').map(trim).filter(|item| !item.is_empty())
}

/// The value of decimal digits.
pub fn number(digits: &[u8]) -> u32 {
    digits.iter().fold(0, |value, digit| value * 10 + u32::from(digit - b'0'))
}

/// A text in two, before and behind the first such byte.
pub fn split_at_byte(text: &[u8], byte: u8) -> Option<(&[u8], &[u8])> {
    let place = text.iter().position(|&other| other == byte)?;
    Some((&text[..place], &text[place + 1..]))
}

/// The days from the first of March of year 0 to a day `YYYY-MM-DD`. A year begins with March here, so its leap day is
/// the last one; 146,097 days are 400 years, and 153 are five months from March or from August on.
pub fn day_count(day: &[u8]) -> i64 {
    let [year, month, day] = [&day[..4], &day[5..7], &day[8..10]].map(|digits| i64::from(number(digits)));
    let (year, month) = if month < 3 { (year - 1, month + 9) } else { (year, month - 3) };
    year * 365 + year / 4 - year / 100 + year / 400 + (153 * month + 2) / 5 + day - 1
}

/// Reads a text paragraph by paragraph.
pub struct Paragraphs<'a> {
    rest: &'a [u8],
}

/// The fields of one paragraph.
#[derive(Default)]
pub struct Paragraph<'a> {
    fields: Vec<(&'a [u8], &'a [u8])>,
}

impl<'a> Paragraphs<'a> {
    pub fn new(text: &'a [u8]) -> Self {
        Paragraphs { rest: text }
    }

    /// Reads the next paragraph in place of the last one; false where there is none.
    pub fn read(&mut self, paragraph: &mut Paragraph<'a>) -> bool {
        paragraph.fields.clear();
        while !self.rest.is_empty() {
            let end = line_end(self.rest);
            if trim(&self.rest[..end]).is_empty() {
                self.skip(end);
                if !paragraph.fields.is_empty() {
                    break;
                }
                continue;
            }
            let end = self.continued_to(end);
            paragraph.fields.extend(split_at_byte(&self.rest[..end], b':').map(|(name, value)| (name, trim(value))));
            self.skip(end);
        }
        !paragraph.fields.is_empty()
    }

    /// Where the lines end that continue the field whose first line ends here.
    fn continued_to(&self, mut end: usize) -> usize {
        while matches!(self.rest.get(end + 1), Some(b' ' | b'\t')) {
            let next = end + 1 + line_end(&self.rest[end + 1..]);
            if trim(&self.rest[end + 1..next]).is_empty() {
                break;
            }
            end = next;
        }
        end
    }

    /// Goes on behind the line that ends here.
    fn skip(&mut self, end: usize) {
        self.rest = self.rest.get(end + 1..).unwrap_or_default();
    }
}

impl<'a> Paragraph<'a> {
    /// The value of a field, if it is there. Names are taken as they are spelled in docs/RULES.md.
    pub fn get(&self, name: &str) -> Option<&'a [u8]> {
        self.fields.iter().find(|field| field.0 == name.as_bytes()).map(|field| field.1)
    }

    /// The value of a field that is there.
    pub fn value(&self, name: &str) -> &'a [u8] {
        self.get(name).expect("a field that the message's kind has")
    }
}

/// Where the first line ends.
fn line_end(text: &[u8]) -> usize {
    text.iter().position(|&byte| byte == b'\n').unwrap_or(text.len())
}
