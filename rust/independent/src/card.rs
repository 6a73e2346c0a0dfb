//! The card: reader, writer and name question (01, "The card").

use crate::Refusal;
use crate::table::{Table, first_bad_code, within_limit};

/// The longest name.
pub const LONGEST_NAME: usize = 24;

/// The bytes of the longest card.
pub const LONGEST_CARD: usize = 14_847;

/// The highest order that a card can give.
const HIGHEST_ORDER: usize = 3;

/// A good card.
#[derive(Clone, Debug, PartialEq, Eq)]
pub struct Card<'a> {
    /// The part of the card that holds the name.
    pub name: &'a [u8],
    /// The table.
    pub table: Table,
}

/// What the reader hands back.
#[derive(Clone, Copy, Debug, Default, PartialEq, Eq)]
pub struct Reading {
    /// 0 for a good card, else the refusal.
    pub number: u8,
    /// The refusal's place.
    pub place: usize,
    /// E, or 0 when refused.
    pub equations: usize,
    /// U, or 0 when refused.
    pub unknowns: usize,
}

/// What the writer hands back.
#[derive(Clone, Copy, Debug, Default, PartialEq, Eq)]
pub struct Writing {
    /// 0 when the card was written, else the refusal.
    pub number: u8,
    /// The refusal's place.
    pub place: usize,
    /// The length written, or 0 when refused.
    pub length: usize,
}

/// Reads a card into a table buffer. A refusal writes nothing.
pub fn read(card: &[u8], buffer: &mut [u8]) -> Reading {
    let card = match judge(card) {
        Ok(card) => card,
        Err(refusal) => return refused_reading(refusal),
    };
    let codes = card.table.codes();
    if buffer.len() < codes.len() {
        return refused_reading(Refusal::without_place(17));
    }
    buffer[..codes.len()].copy_from_slice(codes);
    Reading { number: 0, place: 0, equations: card.table.equations(), unknowns: card.table.unknowns() }
}

fn refused_reading(refusal: Refusal) -> Reading {
    Reading { number: refusal.number, place: refusal.place, ..Reading::default() }
}

/// The part of the card that holds the name; a part of length 0 if 11 to 16 applies.
pub fn name(card: &[u8]) -> &[u8] {
    match judge(card) {
        Ok(good) => good.name,
        Err(_) => &card[..0],
    }
}

/// The card, or the refusal 11 to 16 of its first faulty line.
pub fn judge(card: &[u8]) -> Result<Card<'_>, Refusal> {
    let mut lines = Lines { card, next: 0 };
    let name = lines.due()?.name()?;
    let equations = lines.due()?.limit(b"equations=")?;
    let unknowns = lines.due()?.limit(b"unknowns=")?;
    let mut codes = vec![0; equations * unknowns];
    let mut before = (0, 0);
    let mut occurs_lines = 0;
    loop {
        let line = lines.due()?;
        if line.text.starts_with(b"end=") {
            line.end(occurs_lines)?;
            break;
        }
        let (e, u, k) = line.occurrence(equations, unknowns)?;
        if (e, u) <= before {
            return Err(line.refused(15));
        }
        codes[(e - 1) * unknowns + (u - 1)] = k as u8 + 1;
        before = (e, u);
        occurs_lines += 1;
    }
    lines.none_left()?;
    let table = Table::judge(equations, unknowns, &codes)?;
    Ok(Card { name, table })
}

/// The card's lines, from one on.
struct Lines<'a> {
    card: &'a [u8],
    next: usize,
}

/// One line without its LF, and where it starts.
struct Line<'a> {
    text: &'a [u8],
    start: usize,
}

impl<'a> Lines<'a> {
    /// The line due here; 11 where it is missing or has no LF. Where no byte is left the place is the card's
    /// length, and so is `next`.
    fn due(&mut self) -> Result<Line<'a>, Refusal> {
        let start = self.next;
        let rest = &self.card[start..];
        match rest.iter().position(|&byte| byte == b'\n') {
            Some(length) => {
                self.next = start + length + 1;
                Ok(Line { text: &rest[..length], start })
            }
            None => Err(Refusal::at(11, start)),
        }
    }

    /// Bytes after the end line count as a line of their own.
    fn none_left(&self) -> Result<(), Refusal> {
        if self.next == self.card.len() { Ok(()) } else { Err(Refusal::at(11, self.next)) }
    }
}

impl<'a> Line<'a> {
    fn refused(&self, number: u8) -> Refusal {
        Refusal::at(number, self.start)
    }

    /// What follows the key; 11 where the key is another.
    fn after(&self, key: &[u8]) -> Result<&'a [u8], Refusal> {
        self.text.strip_prefix(key).ok_or(self.refused(11))
    }

    fn number(&self, digits: &[u8]) -> Result<usize, Refusal> {
        number(digits).ok_or(self.refused(11))
    }

    fn name(&self) -> Result<&'a [u8], Refusal> {
        let name = self.after(b"rig=")?;
        if is_name(name) { Ok(name) } else { Err(self.refused(12)) }
    }

    fn limit(&self, key: &[u8]) -> Result<usize, Refusal> {
        let limit = self.number(self.after(key)?)?;
        if within_limit(limit) { Ok(limit) } else { Err(self.refused(13)) }
    }

    fn occurrence(&self, equations: usize, unknowns: usize) -> Result<(usize, usize, usize), Refusal> {
        let parts: Vec<&[u8]> = self.after(b"occurs=")?.split(|&byte| byte == b',').collect();
        let [e, u, k] = parts[..] else {
            return Err(self.refused(11));
        };
        let (e, u, k) = (self.number(e)?, self.number(u)?, self.number(k)?);
        let good = (1..=equations).contains(&e) && (1..=unknowns).contains(&u) && k <= HIGHEST_ORDER;
        if good { Ok((e, u, k)) } else { Err(self.refused(14)) }
    }

    fn end(&self, occurs_lines: usize) -> Result<(), Refusal> {
        let given = self.number(self.after(b"end=")?)?;
        if given == occurs_lines { Ok(()) } else { Err(self.refused(16)) }
    }
}

/// A number has 1 to 4 digits without a leading zero, except 0 itself.
fn number(digits: &[u8]) -> Option<usize> {
    let good_length = (1..=4).contains(&digits.len());
    let leading_zero = digits.len() > 1 && digits[0] == b'0';
    if !good_length || leading_zero || !digits.iter().all(u8::is_ascii_digit) {
        return None;
    }
    Some(digits.iter().fold(0, |value, digit| 10 * value + usize::from(digit - b'0')))
}

/// A name is 1 to 24 bytes of a-z, 0-9 and hyphen.
fn is_name(name: &[u8]) -> bool {
    let allowed = |byte: &u8| matches!(byte, b'a'..=b'z' | b'0'..=b'9' | b'-');
    (1..=LONGEST_NAME).contains(&name.len()) && name.iter().all(allowed)
}

/// Writes a card: 12, 13, 2, 4, 18 in that order. A refusal writes nothing.
pub fn write(name: &[u8], equations: usize, unknowns: usize, codes: &[u8], buffer: &mut [u8]) -> Writing {
    match card_of(name, equations, unknowns, codes) {
        Err(refusal) => refused_writing(refusal),
        Ok(card) if buffer.len() < card.len() => refused_writing(Refusal::without_place(18)),
        Ok(card) => {
            buffer[..card.len()].copy_from_slice(&card);
            Writing { number: 0, place: 0, length: card.len() }
        }
    }
}

fn refused_writing(refusal: Refusal) -> Writing {
    Writing { number: refusal.number, place: refusal.place, length: 0 }
}

/// The bytes of the card, or 12, 13, 2, 4 in that order.
pub fn card_of(name: &[u8], equations: usize, unknowns: usize, codes: &[u8]) -> Result<Vec<u8>, Refusal> {
    if !is_name(name) {
        return Err(Refusal::without_place(12));
    }
    if !within_limit(equations) || !within_limit(unknowns) {
        return Err(Refusal::without_place(13));
    }
    if codes.len() != equations * unknowns {
        return Err(Refusal::without_place(2));
    }
    if let Some(place) = first_bad_code(codes) {
        return Err(Refusal::at(4, place));
    }
    let mut card = [b"rig=", name, b"\n"].concat();
    card.extend(format!("equations={equations}\nunknowns={unknowns}\n").bytes());
    let mut occurs_lines = 0;
    for (cell, &code) in codes.iter().enumerate().filter(|&(_, &code)| code != 0) {
        let (e, u, k) = (cell / unknowns + 1, cell % unknowns + 1, code - 1);
        card.extend(format!("occurs={e},{u},{k}\n").bytes());
        occurs_lines += 1;
    }
    card.extend(format!("end={occurs_lines}\n").bytes());
    Ok(card)
}
