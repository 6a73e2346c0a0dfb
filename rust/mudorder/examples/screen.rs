//! Reads a card and shows its model as a person would want to see it.
//!
//! A solvable model is drawn in solving order, its blocks boxed: whatever stands left of a box is known when the
//! block is solved. A singular model is drawn as it stands on the card, with every place of a surplus equation
//! and of an unfixed unknown marked, so that nobody takes a blank for nil. Of a refused card the faulty line is
//! shown.
//!
//! ```text
//! cargo run --example screen < card
//! cargo run --example screen -- --ascii FILE
//! ```

use mudorder::{Equation, Model, Refusal, Unknown, Verdict};
use std::fmt::Write as _;
use std::fs;
use std::io::{self, IsTerminal, Read, Write as _};
use std::process::ExitCode;

const HELP: &str = "\
screen [--ascii] [--no-colour] [FILE]
  Shows the model on a card, from FILE or from standard input.
  --ascii       draw with plain characters
  --no-colour   no colours, even on a terminal
";

fn main() -> ExitCode {
    let mut style = Style { ascii: false, colour: io::stdout().is_terminal() };
    let mut file = None;
    for word in std::env::args().skip(1) {
        match word.as_str() {
            "--ascii" => style.ascii = true,
            "--no-colour" => style.colour = false,
            "--help" | "-h" => {
                print!("{HELP}");
                return ExitCode::SUCCESS;
            }
            _ => file = Some(word),
        }
    }
    match card_from(file.as_deref()) {
        Ok(card) => {
            // A reader that went away is no fault of the card.
            let _ = io::stdout().write_all(show(&card, style).as_bytes());
            ExitCode::SUCCESS
        }
        Err(error) => {
            eprintln!("screen: {}: {error}", file.as_deref().unwrap_or("standard input"));
            ExitCode::FAILURE
        }
    }
}

fn card_from(file: Option<&str>) -> io::Result<Vec<u8>> {
    match file {
        Some(path) => fs::read(path),
        None => {
            let mut card = Vec::new();
            io::stdin().read_to_end(&mut card)?;
            Ok(card)
        }
    }
}

/// The whole screen for this input.
fn show(card: &[u8], style: Style) -> String {
    let verdict = Verdict::of_card(card);
    match (&verdict, Model::read(card)) {
        (Verdict::Solvable { .. }, Ok(model)) => Solved::new(&model, &verdict, style).screen(),
        (Verdict::Singular { rank, surplus, unfixed, .. }, Ok(model)) => {
            Unsolved { model: &model, rank: *rank, surplus, unfixed, style }.screen()
        }
        (Verdict::Refused { number, place }, _) => {
            refused(card, Refusal { number: *number, place: *place }, style)
        }
        (_, Err(refusal)) => refused(card, refusal, style),
    }
}

/// How to draw.
#[derive(Clone, Copy)]
struct Style {
    ascii: bool,
    colour: bool,
}

/// What a piece of text is, for its colour.
#[derive(Clone, Copy)]
enum Ink {
    Plain,
    Faint,
    Strong,
    Box,
    Partner,
    Surplus,
    Unfixed,
}

impl Style {
    fn paint(self, ink: Ink, text: &str) -> String {
        let code = match ink {
            Ink::Plain => "",
            Ink::Faint => "2",
            Ink::Strong => "1",
            Ink::Box => "36",
            Ink::Partner => "1;32",
            Ink::Surplus => "1;31",
            Ink::Unfixed => "1;33",
        };
        if self.colour && !code.is_empty() { format!("\x1b[{code}m{text}\x1b[0m") } else { text.to_string() }
    }

    /// The place of an unknown that does not occur. It is drawn: blank is kept for nothing at all.
    fn absent(self) -> char {
        if self.ascii { '.' } else { '·' }
    }

    /// An order below the leading one.
    fn below(self, order: u8) -> String {
        if self.ascii {
            format!("({order})")
        } else {
            format!(" {} ", ['₀', '₁', '₂', '₃'][usize::from(order)])
        }
    }
}

/// The width of a place in the picture; between two places stands one more column, for the boxes.
const CELL: usize = 3;
const STEP: usize = CELL + 1;

/// The width of what stands left of the picture.
const MARGIN: usize = 30;

/// Which ways the lines leave a point of the picture.
#[derive(Clone, Copy, Default)]
struct Lines {
    up: bool,
    down: bool,
    left: bool,
    right: bool,
}

impl Lines {
    fn glyph(self, ascii: bool) -> char {
        let Lines { up, down, left, right } = self;
        match (up || down, left || right) {
            (false, false) => ' ',
            (true, false) => {
                if ascii {
                    '|'
                } else {
                    '│'
                }
            }
            (false, true) => {
                if ascii {
                    '-'
                } else {
                    '─'
                }
            }
            (true, true) if ascii => '+',
            (true, true) => match (up, down, left, right) {
                (false, true, false, true) => '┌',
                (false, true, true, false) => '┐',
                (true, false, false, true) => '└',
                (true, false, true, false) => '┘',
                _ => '┼',
            },
        }
    }
}

/// A solvable model, to be drawn in solving order.
struct Solved<'a> {
    model: &'a Model,
    counts: &'a [u8],
    tops: &'a [u8],
    partners: &'a [Unknown],
    blocks: &'a [Vec<Equation>],
    index: u8,
    freedom: u8,
    style: Style,
}

impl<'a> Solved<'a> {
    fn new(model: &'a Model, verdict: &'a Verdict, style: Style) -> Solved<'a> {
        let Verdict::Solvable { counts, tops, partners, blocks, index, freedom, .. } = verdict else {
            unreachable!("only a solvable model is drawn in solving order");
        };
        Solved { model, counts, tops, partners, blocks, index: *index, freedom: *freedom, style }
    }

    fn screen(&self) -> String {
        let mut screen = String::new();
        let size = self.model.equations().len();
        let _ = writeln!(
            screen,
            "\n  {}   {}   {}, {}, {}   index {}   freedom {}\n",
            self.style.paint(Ink::Strong, self.model.rig()),
            self.style.paint(Ink::Partner, "SOLVABLE"),
            several(size, "equation"),
            several(size, "unknown"),
            several(self.blocks.len(), "block"),
            self.index,
            self.freedom
        );
        self.heading(&mut screen);
        self.picture(&mut screen);
        self.legend(&mut screen);
        self.plan(&mut screen);
        screen
    }

    fn partner(&self, e: Equation) -> Unknown {
        self.partners[usize::from(e.0 - 1)]
    }

    fn count(&self, e: Equation) -> u8 {
        self.counts[usize::from(e.0 - 1)]
    }

    fn top(&self, u: Unknown) -> u8 {
        self.tops[usize::from(u.0 - 1)]
    }

    /// The equations in solving order; their partners are the columns.
    fn order(&self) -> Vec<Equation> {
        self.blocks.concat()
    }

    fn heading(&self, screen: &mut String) {
        let columns: Vec<Unknown> = self.order().into_iter().map(|e| self.partner(e)).collect();
        let numbers: Vec<String> = columns.iter().map(|u| format!(" {u:^CELL$}")).collect();
        let tops: Vec<String> = columns.iter().map(|&u| format!(" {:^CELL$}", self.top(u))).collect();
        let _ = writeln!(screen, "{:>MARGIN$}{}", "unknown ", numbers.concat());
        let _ = writeln!(screen, "{:>MARGIN$}{}", "top ", self.style.paint(Ink::Faint, &tops.concat()));
    }

    fn picture(&self, screen: &mut String) {
        let mut before = 0;
        for (number, block) in self.blocks.iter().enumerate() {
            self.rule(screen, number, before);
            for &e in block {
                self.row(screen, number, before, e);
            }
            before += block.len();
        }
        self.rule(screen, self.blocks.len(), before);
    }

    /// The line below one box and above the next. `before` equations stand before block `next`.
    fn rule(&self, screen: &mut String, next: usize, before: usize) {
        let last = if next > 0 { self.blocks[next - 1].len() } else { 0 };
        let coming = self.blocks.get(next).map_or(0, Vec::len);
        let (start, corner, end) = (STEP * (before - last), STEP * before, STEP * (before + coming));
        let lines = |x: usize| Lines {
            up: last > 0 && (x == start || x == corner),
            down: coming > 0 && (x == corner || x == end),
            left: (last > 0 && start < x && x <= corner) || (coming > 0 && corner < x && x <= end),
            right: (last > 0 && start <= x && x < corner) || (coming > 0 && corner <= x && x < end),
        };
        let text: String = (0..=end).map(|x| lines(x).glyph(self.style.ascii)).collect();
        let _ = writeln!(screen, "{:MARGIN$}{}", "", self.style.paint(Ink::Box, &text));
    }

    fn row(&self, screen: &mut String, block: usize, before: usize, e: Equation) {
        let head = if e == self.blocks[block][0] { format!("block {:>2}", block + 1) } else { String::new() };
        let label = format!("{head:<8}   eq {e:>2}   count {:>2} ", self.count(e));
        let _ = write!(screen, "{label:>MARGIN$}");
        let side = Lines { up: true, down: true, ..Lines::default() }.glyph(self.style.ascii).to_string();
        let after = before + self.blocks[block].len();
        let order = self.order();
        for (column, &holder) in order.iter().enumerate() {
            let boxed = column == before || column == after;
            screen.push_str(&if boxed { self.style.paint(Ink::Box, &side) } else { " ".to_string() });
            screen.push_str(&self.place(e, holder));
        }
        if after == order.len() {
            screen.push_str(&self.style.paint(Ink::Box, &side));
        }
        screen.push('\n');
    }

    /// One place of the picture: the column is the partner of `holder`.
    fn place(&self, e: Equation, holder: Equation) -> String {
        let u = self.partner(holder);
        match self.model.order(e, u) {
            None => self.style.paint(Ink::Faint, &format!(" {} ", self.style.absent())),
            Some(order) if e == holder => self.style.paint(Ink::Partner, &format!("[{order}]")),
            Some(order) if order + self.count(e) == self.top(u) => format!(" {order} "),
            Some(order) => self.style.paint(Ink::Faint, &self.style.below(order)),
        }
    }

    fn legend(&self, screen: &mut String) {
        let _ = writeln!(
            screen,
            "\n  {} partner, with its order    1 leading order    {} below the leading order    {} does not occur\n",
            self.style.paint(Ink::Partner, "[1]"),
            self.style.below(1).trim(),
            self.style.absent()
        );
    }

    fn plan(&self, screen: &mut String) {
        let _ = writeln!(screen, "  {}", self.style.paint(Ink::Strong, "Solve in this order"));
        for (number, block) in self.blocks.iter().enumerate() {
            for (place, &e) in block.iter().enumerate() {
                let head = if place == 0 { format!("block {:>2}", number + 1) } else { String::new() };
                let together = if block.len() > 1 && place == 0 {
                    format!("  ({} together)", several(block.len(), "equation"))
                } else {
                    String::new()
                };
                let u = self.partner(e);
                let _ = writeln!(
                    screen,
                    "  {head:<8}   equation {e:>2}, {:<24} for unknown {u:>2}{}{together}",
                    differentiated(self.count(e)),
                    derivative(self.top(u)),
                );
            }
        }
        screen.push('\n');
    }
}

fn differentiated(count: u8) -> String {
    match count {
        0 => "as it stands,".to_string(),
        1 => "differentiated once,".to_string(),
        2 => "differentiated twice,".to_string(),
        _ => format!("differentiated {count} times,"),
    }
}

fn derivative(top: u8) -> String {
    match top {
        0 => String::new(),
        _ => format!(" in its derivative {top}"),
    }
}

fn several(number: usize, what: &str) -> String {
    format!("{number} {what}{}", if number == 1 { "" } else { "s" })
}

/// A singular model, drawn as it stands on the card.
struct Unsolved<'a> {
    model: &'a Model,
    rank: u8,
    surplus: &'a [Equation],
    unfixed: &'a [Unknown],
    style: Style,
}

impl Unsolved<'_> {
    fn screen(&self) -> String {
        let mut screen = String::new();
        let _ = writeln!(
            screen,
            "\n  {}   {}   {}, {}, rank {}\n",
            self.style.paint(Ink::Strong, self.model.rig()),
            self.style.paint(Ink::Surplus, "SINGULAR"),
            several(self.model.equations().len(), "equation"),
            several(self.model.unknowns().len(), "unknown"),
            self.rank
        );
        self.heading(&mut screen);
        for e in self.model.equations() {
            self.row(&mut screen, e);
        }
        self.legend(&mut screen);
        self.words(&mut screen);
        screen
    }

    fn is_surplus(&self, e: Equation) -> bool {
        self.surplus.contains(&e)
    }

    fn is_unfixed(&self, u: Unknown) -> bool {
        self.unfixed.contains(&u)
    }

    fn ink(&self, u: Unknown) -> Ink {
        if self.is_unfixed(u) { Ink::Unfixed } else { Ink::Plain }
    }

    fn heading(&self, screen: &mut String) {
        let _ = write!(screen, "{:>MARGIN$}", "unknown ");
        for u in self.model.unknowns() {
            screen.push_str(&self.style.paint(self.ink(u), &format!(" {u:^CELL$}")));
        }
        let _ = write!(screen, "\n{:>MARGIN$}", "unfixed ");
        for u in self.model.unknowns() {
            let mark = if self.is_unfixed(u) { "???" } else { " - " };
            screen.push_str(&self.style.paint(self.ink(u), &format!(" {mark}")));
        }
        screen.push('\n');
    }

    fn row(&self, screen: &mut String, e: Equation) {
        let label = if self.is_surplus(e) { format!("SURPLUS   eq {e:>2} ") } else { format!("eq {e:>2} ") };
        let ink = if self.is_surplus(e) { Ink::Surplus } else { Ink::Plain };
        screen.push_str(&self.style.paint(ink, &format!("{label:>MARGIN$}")));
        for u in self.model.unknowns() {
            screen.push(' ');
            screen.push_str(&self.place(e, u));
        }
        screen.push('\n');
    }

    /// One place: the order or the sign for none, a ! before it in a surplus row, a ? behind it in an unfixed
    /// column. So every place of an unfixed unknown asks.
    fn place(&self, e: Equation, u: Unknown) -> String {
        let surplus = if self.is_surplus(e) { "!" } else { " " };
        let unfixed = if self.is_unfixed(u) { "?" } else { " " };
        let (text, ink) = match self.model.order(e, u) {
            Some(order) => (order.to_string(), Ink::Plain),
            None => (self.style.absent().to_string(), Ink::Faint),
        };
        [
            self.style.paint(Ink::Surplus, surplus),
            self.style.paint(ink, &text),
            self.style.paint(Ink::Unfixed, unfixed),
        ]
        .concat()
    }

    fn legend(&self, screen: &mut String) {
        let _ = writeln!(
            screen,
            "\n  1 order of the highest derivative    {} does not occur    {} surplus equation    {} unfixed unknown\n",
            self.style.absent(),
            self.style.paint(Ink::Surplus, "!"),
            self.style.paint(Ink::Unfixed, "?")
        );
    }

    fn words(&self, screen: &mut String) {
        let unfixed = self.style.paint(Ink::Unfixed, &format!("Unfixed unknowns: {}", list(self.unfixed)));
        let surplus = self.style.paint(Ink::Surplus, &format!("Surplus equations: {}", list(self.surplus)));
        let _ = writeln!(screen, "  {unfixed}");
        if !self.unfixed.is_empty() {
            let _ = writeln!(
                screen,
                "    These equations do not fix them. Show no value for them, not even nil: any number would be invented."
            );
        }
        let _ = writeln!(screen, "  {surplus}");
        if !self.surplus.is_empty() {
            let contained = self.model.unknowns().filter(|&u| self.in_surplus(u)).count();
            let why = match contained {
                0 => "they contain no unknown at all",
                _ => "they repeat or contradict one another",
            };
            let _ = writeln!(
                screen,
                "    {} on {}, {} too many: {why}.",
                several(self.surplus.len(), "equation"),
                several(contained, "unknown"),
                self.surplus.len() - contained
            );
        }
        let _ = writeln!(screen, "  No order of solving is given for a singular model.\n");
    }

    fn in_surplus(&self, u: Unknown) -> bool {
        self.surplus.iter().any(|&e| self.model.order(e, u).is_some())
    }
}

fn list<T: ToString>(numbers: &[T]) -> String {
    if numbers.is_empty() {
        return "none".to_string();
    }
    numbers.iter().map(T::to_string).collect::<Vec<_>>().join(", ")
}

/// A refused card: the number, what it means, and the line that it stands on.
fn refused(card: &[u8], refusal: Refusal, style: Style) -> String {
    let mut screen = String::new();
    let head = format!("REFUSED {}", refusal.number);
    let _ = writeln!(screen, "\n  {}   {}", style.paint(Ink::Surplus, &head), refusal.reason());
    if (11..=16).contains(&refusal.number) {
        let line = 1 + card[..refusal.place].iter().filter(|&&byte| byte == b'\n').count();
        let rest = &card[refusal.place..];
        let text = rest.split(|&byte| byte == b'\n').next().unwrap_or(rest);
        let shown = match text {
            [] if rest.is_empty() => "(the card ends here)".to_string(),
            [] => "(an empty line)".to_string(),
            _ => text.iter().take(60).copied().collect::<Vec<u8>>().escape_ascii().to_string(),
        };
        let _ =
            writeln!(screen, "  line {line}, byte {}: {}", refusal.place, style.paint(Ink::Strong, &shown));
    }
    screen.push_str("  There is no model, so nothing is known of any unknown.\n\n");
    screen
}

#[cfg(test)]
mod tests {
    use super::{STEP, Style, show};
    use mudorder::Model;

    const PLAIN: Style = Style { ascii: false, colour: false };

    fn screen_of(unknowns: usize, table: &[u8]) -> String {
        let model = Model::new("kestrel-4", table.len() / unknowns, unknowns, table).expect("a good model");
        show(&model.card(), PLAIN)
    }

    const A: [u8; 9] = [2, 0, 1, 0, 1, 1, 1, 0, 0];

    #[test]
    fn solvable() {
        let expected = "
  kestrel-4   SOLVABLE   3 equations, 3 unknowns, 3 blocks   index 1   freedom 0

                      unknown   1   3   2 
                          top   1   0   0 
                              ┌───┐
  block  1   eq  3   count  1 │[0]│ ·   · 
                              └───┼───┐
  block  2   eq  1   count  0   1 │[0]│ · 
                                  └───┼───┐
  block  3   eq  2   count  0   ·   0 │[0]│
                                      └───┘
";
        let screen = screen_of(3, &A);
        assert!(screen.starts_with(expected), "{screen}");
    }

    #[test]
    fn every_place_of_an_unfixed_unknown_asks() {
        let screen = screen_of(3, &A[..6]);
        let rows: Vec<&str> = screen.lines().filter(|line| line.trim_start().starts_with("eq ")).collect();
        assert_eq!(rows.len(), 2, "{screen}");
        assert!(rows.iter().all(|row| row.matches('?').count() == 3), "{screen}");
        assert!(screen.contains("Unfixed unknowns: 1, 2, 3\n"), "{screen}");
        assert!(screen.contains("Surplus equations: none\n"), "{screen}");
    }

    #[test]
    fn surplus_rows_are_named() {
        let screen = screen_of(3, &[2, 0, 1, 1, 0, 0, 1, 0, 0]);
        assert_eq!(screen.matches("SURPLUS   eq").count(), 2, "{screen}");
        assert!(
            screen.contains("2 equations on 1 unknown, 1 too many: they repeat or contradict"),
            "{screen}"
        );
        assert!(screen.contains("Unfixed unknowns: 2\n"), "{screen}");
    }

    #[test]
    fn no_place_is_blank() {
        let mut table = [0; 32 * 32];
        for e in 0..32 {
            table[32 * e + e] = 1;
            table[32 * e + e / 2] = 2;
        }
        for screen in [screen_of(32, &table), screen_of(32, &table[32..])] {
            let rows: Vec<&str> = screen.lines().filter(|line| line.contains("eq ")).collect();
            for row in &rows {
                let places: Vec<char> = row.chars().skip(super::MARGIN + 1).collect();
                for place in places.chunks(STEP).take(32) {
                    assert!(place[..3].iter().any(|glyph| !glyph.is_whitespace()), "{screen}");
                }
            }
            assert!(rows.len() >= 31);
        }
    }

    #[test]
    fn refused_cards_show_their_line() {
        let screen = show(b"rig=kestrel-4\nequations=3\nunknowns=x\r\n", PLAIN);
        assert!(screen.contains("REFUSED 11"), "{screen}");
        assert!(screen.contains("line 3, byte 26: unknowns=x\\r\n"), "{screen}");
        assert!(show(b"", PLAIN).contains("line 1, byte 0: (the card ends here)"));
        assert!(show(&[b'x'; 20_000], PLAIN).contains("REFUSED 19"));
    }
}
