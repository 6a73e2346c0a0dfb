//! What happens to a card between a shift's keyboard and the reader.

use independent::generate::Random;

/// Bytes that a reader may stumble over.
const AWKWARD: [u8; 22] = *b"\0\t\n\r ,=-+.:/09azAZ`{\x7f\xff";

/// Numbers at the edges of document 01's limits, and others that are none.
const NUMBERS: [&str; 24] = [
    "", "0", "00", "1", "01", "2", "3", "4", "5", "24", "31", "32", "33", "032", "99", "256", "257", "288",
    "999", "1024", "9999", "10000", "65537", "-1",
];

/// Damages a card in one of many ways.
pub fn damage(card: &mut Vec<u8>, random: &mut Random) {
    match random.below(22) {
        0 => flip_a_bit(card, random),
        1 => replace_a_byte(card, random),
        2 => {
            let place = random.below(card.len() + 1);
            card.insert(place, random.pick(&AWKWARD));
        }
        3 => drop_a_byte(card, random),
        4 => card.truncate(random.below(card.len() + 1)),
        5 => carriage_returns(card, random),
        6 => space_beside(card, random),
        7 => on_lines(card, random, |lines, at, _| lines.insert(at, lines[at].clone())),
        8 => on_lines(card, random, |lines, at, _| {
            let other = (at + 1) % lines.len();
            lines.swap(at, other);
        }),
        9 => on_lines(card, random, |lines, at, _| {
            lines.remove(at);
        }),
        10 => on_lines(card, random, |lines, at, random| {
            let to = random.below(lines.len());
            let line = lines.remove(at);
            lines.insert(to, line);
        }),
        11 => wrong_end_number(card, random),
        12 | 13 => another_number(card, random),
        14 => longer_number(card, random),
        15 => drop_byte(card, random, b'\n'),
        16 => {
            let separator = random.pick(b",=");
            drop_byte(card, random, separator);
        }
        17 => after_the_end(card, random),
        18 => another_name(card, random),
        19 => another_key(card, random),
        20 => before_the_card(card, random),
        _ => nothing_left_of_it(card, random),
    }
}

fn flip_a_bit(card: &mut [u8], random: &mut Random) {
    if !card.is_empty() {
        let place = random.below(card.len());
        card[place] ^= 1 << random.below(8);
    }
}

fn replace_a_byte(card: &mut [u8], random: &mut Random) {
    if !card.is_empty() {
        let place = random.below(card.len());
        card[place] = random.pick(&AWKWARD);
    }
}

fn drop_a_byte(card: &mut Vec<u8>, random: &mut Random) {
    if !card.is_empty() {
        card.remove(random.below(card.len()));
    }
}

fn places_of(card: &[u8], wanted: impl Fn(u8) -> bool) -> Vec<usize> {
    (0..card.len()).filter(|&place| wanted(card[place])).collect()
}

fn drop_byte(card: &mut Vec<u8>, random: &mut Random, byte: u8) {
    let places = places_of(card, |other| other == byte);
    if !places.is_empty() {
        card.remove(random.pick(&places));
    }
}

/// As a card from a laptop: CR before one LF, or before each.
fn carriage_returns(card: &mut Vec<u8>, random: &mut Random) {
    let mut places = places_of(card, |byte| byte == b'\n');
    if random.percent(70) && !places.is_empty() {
        places = vec![random.pick(&places)];
    }
    for place in places.into_iter().rev() {
        card.insert(place, b'\r');
    }
}

/// A space on either side of = or a comma, or at a line's end.
fn space_beside(card: &mut Vec<u8>, random: &mut Random) {
    let places = places_of(card, |byte| matches!(byte, b'=' | b',' | b'\n'));
    if !places.is_empty() {
        let place = random.pick(&places) + random.below(2);
        card.insert(place, b' ');
    }
}

fn on_lines(card: &mut Vec<u8>, random: &mut Random, change: impl Fn(&mut Vec<Vec<u8>>, usize, &mut Random)) {
    let mut lines: Vec<Vec<u8>> = card.split_inclusive(|&byte| byte == b'\n').map(<[u8]>::to_vec).collect();
    if !lines.is_empty() {
        let at = random.below(lines.len());
        change(&mut lines, at, random);
        *card = lines.concat();
    }
}

/// The runs of digits.
fn numbers(card: &[u8]) -> Vec<std::ops::Range<usize>> {
    let starts =
        (0..card.len()).filter(|&i| card[i].is_ascii_digit() && (i == 0 || !card[i - 1].is_ascii_digit()));
    starts
        .map(|start| {
            let length = card[start..].iter().take_while(|byte| byte.is_ascii_digit()).count();
            start..start + length
        })
        .collect()
}

fn replace_number(card: &mut Vec<u8>, range: std::ops::Range<usize>, text: &str) {
    card.splice(range, text.bytes());
}

fn another_number(card: &mut Vec<u8>, random: &mut Random) {
    let numbers = numbers(card);
    if !numbers.is_empty() {
        let range = numbers[random.below(numbers.len())].clone();
        replace_number(card, range, random.pick(&NUMBERS));
    }
}

fn longer_number(card: &mut Vec<u8>, random: &mut Random) {
    let numbers = numbers(card);
    if !numbers.is_empty() {
        let range = numbers[random.below(numbers.len())].clone();
        let place = if random.percent(50) { range.start } else { range.end };
        let digit = random.pick(b"00123456789");
        let times = random.pick(&[1, 1, 2, 3, 4, 8, 20]);
        card.splice(place..place, vec![digit; times]);
    }
}

fn wrong_end_number(card: &mut Vec<u8>, random: &mut Random) {
    if let Some(range) = numbers(card).pop() {
        let digits: String = card[range.clone()].iter().take(6).map(|&byte| char::from(byte)).collect();
        let given: i64 = digits.parse().unwrap_or(0);
        let wrong = given + random.pick(&[-2, -1, 1, 2, 256, 1000]);
        replace_number(card, range, &wrong.to_string());
    }
}

fn after_the_end(card: &mut Vec<u8>, random: &mut Random) {
    let more: &[u8] = random.pick(&[
        b"\n".as_slice(),
        b"\0",
        b" ",
        b"\r\n",
        b"\xff\xff",
        b"end=0\n",
        b"occurs=1,1,0\n",
        b"rig=a\nequations=1\nunknowns=1\nend=0\n",
        &[b'x'; 300],
    ]);
    card.extend_from_slice(more);
}

fn before_the_card(card: &mut Vec<u8>, random: &mut Random) {
    let more: &[u8] = random.pick(&[b"\xef\xbb\xbf".as_slice(), b"\n", b" ", b"rig=a\n"]);
    card.splice(0..0, more.iter().copied());
}

fn another_name(card: &mut Vec<u8>, random: &mut Random) {
    let Some(end) = card.iter().position(|&byte| byte == b'\n') else { return };
    let start = 4.min(end);
    let length = random.pick(&[0, 1, 2, 23, 24, 25, 26, 255, 256, 257, 280]);
    let mut name = vec![b'n'; length];
    if length > 0 && random.percent(40) {
        let place = random.below(length);
        name[place] = random.pick(&AWKWARD);
    }
    card.splice(start..end, name);
}

fn another_key(card: &mut Vec<u8>, random: &mut Random) {
    on_lines(card, random, |lines, at, random| {
        let Some(end) = lines[at].iter().position(|&byte| byte == b'=') else { return };
        let keys = [
            &b"rig"[..],
            b"equations",
            b"unknowns",
            b"occurs",
            b"end",
            b"",
            b"End",
            b"en",
            b"ends",
            b"occur",
            b"eq",
        ];
        lines[at].splice(0..end, random.pick(&keys).iter().copied());
    });
}

fn nothing_left_of_it(card: &mut Vec<u8>, random: &mut Random) {
    let byte = random.pick(b"\0\xff\n =,0a");
    let length = random.pick(&[0, 0, 1, 2, 100]);
    *card = vec![byte; length];
}
