//! Cases typed by hand from the documents: the nine lettered models of 01, the examples of source document 002,
//! and cards that are refused. What is expected was worked out on paper, not by a program.

use crate::card::{LONGEST_NAME, card_of};
use crate::table::Table;

/// A model and what is printed for it below the line `rig=`.
#[derive(Clone, Copy, Debug)]
pub struct ModelCase {
    /// Which model of the document this is.
    pub title: &'static str,
    /// U.
    pub unknowns: usize,
    /// For each equation its occurrences as (unknown, order), both as the document writes them.
    pub rows: &'static [&'static [(usize, u8)]],
    /// The printed lines after the first.
    pub printed: &'static str,
}

impl ModelCase {
    /// The model's table.
    pub fn table(&self) -> Table {
        let mut codes = vec![0; self.rows.len() * self.unknowns];
        for (e, row) in self.rows.iter().enumerate() {
            for &(unknown, order) in *row {
                codes[e * self.unknowns + unknown - 1] = order + 1;
            }
        }
        Table::judge(self.rows.len(), self.unknowns, &codes).expect("the case is within the limits")
    }

    /// The model's card, under this name.
    pub fn card(&self, name: &str) -> Vec<u8> {
        let table = self.table();
        card_of(name.as_bytes(), table.equations(), table.unknowns(), table.codes())
            .expect("the name is good")
    }
}

/// Document 01's own card, model A.
pub const CARD_A: &str = "rig=kestrel-4\nequations=3\nunknowns=3\noccurs=1,1,1\noccurs=1,3,0\noccurs=2,2,0\noccurs=2,3,0\noccurs=3,1,0\nend=5\n";

/// What document 01 says is printed for [`CARD_A`].
pub const PRINTED_A: &str = "rig=kestrel-4\nverdict=solvable\nindex=1\nfreedom=0\ncounts=0,0,1\ntops=1,0,0\npairs=3,2,1\nblocks=3;1;2\n";

/// The nine models of 01, "Checked models".
pub const LETTERED: [ModelCase; 9] = [
    ModelCase {
        title: "A",
        unknowns: 3,
        rows: &[&[(1, 1), (3, 0)], &[(2, 0), (3, 0)], &[(1, 0)]],
        printed: "verdict=solvable\nindex=1\nfreedom=0\ncounts=0,0,1\ntops=1,0,0\npairs=3,2,1\nblocks=3;1;2\n",
    },
    ModelCase {
        title: "B",
        unknowns: 3,
        rows: &[&[(1, 1), (3, 0)], &[(2, 0), (3, 0)]],
        printed: "verdict=singular\nrank=2\nsurplus=none\nunfixed=1,2,3\n",
    },
    ModelCase {
        title: "C",
        unknowns: 3,
        rows: &[&[(1, 1), (3, 0)], &[(1, 0)], &[(1, 0)]],
        printed: "verdict=singular\nrank=2\nsurplus=2,3\nunfixed=2\n",
    },
    ModelCase {
        title: "D",
        unknowns: 1,
        rows: &[&[(1, 3)]],
        printed: "verdict=solvable\nindex=0\nfreedom=3\ncounts=0\ntops=3\npairs=1\nblocks=1\n",
    },
    ModelCase {
        title: "F",
        unknowns: 1,
        rows: &[&[]],
        printed: "verdict=singular\nrank=0\nsurplus=1\nunfixed=1\n",
    },
    ModelCase {
        title: "G",
        unknowns: 2,
        rows: &[&[(1, 0), (2, 0)], &[(1, 0), (2, 0)]],
        printed: "verdict=solvable\nindex=0\nfreedom=0\ncounts=0,0\ntops=0,0\npairs=1,2\nblocks=1,2\n",
    },
    ModelCase {
        title: "H",
        unknowns: 2,
        rows: &[&[(1, 0), (2, 0)], &[(1, 0)]],
        printed: "verdict=solvable\nindex=0\nfreedom=0\ncounts=0,0\ntops=0,0\npairs=2,1\nblocks=2;1\n",
    },
    ModelCase {
        title: "J",
        unknowns: 2,
        rows: &[&[(1, 0)], &[(1, 3), (2, 0)]],
        printed: "verdict=solvable\nindex=3\nfreedom=0\ncounts=3,0\ntops=3,0\npairs=1,2\nblocks=1;2\n",
    },
    ModelCase {
        title: "K",
        unknowns: 3,
        rows: &[&[(1, 2), (3, 0)], &[(2, 2), (3, 0)], &[(1, 0), (2, 0)]],
        printed: "verdict=solvable\nindex=2\nfreedom=2\ncounts=0,0,2\ntops=2,2,0\npairs=1,3,2\nblocks=1,2,3\n",
    },
];

/// The examples of source document 002, by the number of the slide. Where a slide has a plain incidence matrix
/// every order is 0. The blocks are placed as 01 says, which is not the order of 002's stack.
pub const EXAMPLES_002: [ModelCase; 13] = [
    ModelCase {
        title: "slide 4, x' = -x",
        unknowns: 1,
        rows: &[&[(1, 1)]],
        printed: "verdict=solvable\nindex=0\nfreedom=1\ncounts=0\ntops=1\npairs=1\nblocks=1\n",
    },
    ModelCase {
        title: "slide 5, example 1 with x, y",
        unknowns: 2,
        rows: &[&[(1, 1), (2, 0)], &[(1, 0), (2, 0)]],
        printed: "verdict=solvable\nindex=0\nfreedom=1\ncounts=0,0\ntops=1,0\npairs=1,2\nblocks=2;1\n",
    },
    ModelCase {
        title: "slide 7, example 2 with x, y, z",
        unknowns: 3,
        rows: &[&[(1, 1), (2, 0), (3, 0)], &[(1, 0), (2, 0), (3, 0)], &[(1, 0), (2, 0), (3, 0)]],
        printed: "verdict=solvable\nindex=0\nfreedom=1\ncounts=0,0,0\ntops=1,0,0\npairs=1,2,3\nblocks=2,3;1\n",
    },
    ModelCase {
        title: "slide 9, drive shaft with two angles, two speeds, four torques",
        unknowns: 8,
        rows: &[
            &[(1, 1), (3, 0)],
            &[(2, 1), (4, 0)],
            &[(3, 1), (5, 0), (6, 0)],
            &[(4, 1), (7, 0), (8, 0)],
            &[(5, 0)],
            &[(1, 0), (2, 0), (6, 0)],
            &[(1, 0), (2, 0), (7, 0)],
            &[(8, 0)],
        ],
        printed: "verdict=solvable\nindex=0\nfreedom=4\ncounts=0,0,0,0,0,0,0,0\ntops=1,1,1,1,0,0,0,0\npairs=1,2,3,4,5,6,7,8\nblocks=1;2;5;6;3;7;8;4\n",
    },
    ModelCase {
        title: "slide 11, matching with x1', x2', y",
        unknowns: 3,
        rows: &[&[(3, 0)], &[(1, 1), (2, 1), (3, 0)], &[(2, 1)]],
        printed: "verdict=solvable\nindex=0\nfreedom=2\ncounts=0,0,0\ntops=1,1,0\npairs=3,1,2\nblocks=1;3;2\n",
    },
    ModelCase {
        title: "slide 15, seven equations, triangular",
        unknowns: 7,
        rows: &[
            &[(3, 0), (6, 0)],
            &[(1, 0), (2, 0), (5, 0), (6, 0)],
            &[(4, 0), (5, 0), (6, 0)],
            &[(2, 0)],
            &[(3, 0), (5, 0)],
            &[(2, 0), (6, 0)],
            &[(2, 0), (3, 0), (7, 0)],
        ],
        printed: "verdict=solvable\nindex=0\nfreedom=0\ncounts=0,0,0,0,0,0,0\ntops=0,0,0,0,0,0,0\npairs=3,1,4,2,5,6,7\nblocks=4;6;1;5;2;3;7\n",
    },
    ModelCase {
        title: "slide 16, seven equations with a loop of four",
        unknowns: 7,
        rows: &[
            &[(3, 0), (4, 0), (6, 0)],
            &[(1, 0), (2, 0), (5, 0), (6, 0)],
            &[(4, 0), (5, 0)],
            &[(2, 0)],
            &[(1, 0), (3, 0), (5, 0)],
            &[(2, 0), (6, 0)],
            &[(3, 0), (7, 0)],
        ],
        printed: "verdict=solvable\nindex=0\nfreedom=0\ncounts=0,0,0,0,0,0,0\ntops=0,0,0,0,0,0,0\npairs=3,1,4,2,5,6,7\nblocks=4;6;1,2,3,5;7\n",
    },
    ModelCase {
        title: "slide 17, pendulum's highest derivatives only",
        unknowns: 5,
        rows: &[&[(1, 0)], &[(2, 0)], &[(3, 0), (5, 0)], &[(4, 0), (5, 0)], &[]],
        printed: "verdict=singular\nrank=4\nsurplus=5\nunfixed=3,4,5\n",
    },
    ModelCase {
        title: "slide 22, six equations in three blocks",
        unknowns: 6,
        rows: &[
            &[(3, 0), (4, 0), (6, 0)],
            &[(1, 0), (2, 0), (5, 0), (6, 0)],
            &[(2, 0), (3, 0)],
            &[(1, 0), (3, 0), (5, 0)],
            &[(2, 0), (6, 0)],
            &[(3, 0), (6, 0)],
        ],
        printed: "verdict=solvable\nindex=0\nfreedom=0\ncounts=0,0,0,0,0,0\ntops=0,0,0,0,0,0\npairs=4,1,2,5,6,3\nblocks=3,5,6;1;2,4\n",
    },
    ModelCase {
        title: "slide 31, pendulum with x, y, u, v, lambda",
        unknowns: 5,
        rows: &[
            &[(1, 1), (3, 0)],
            &[(2, 1), (4, 0)],
            &[(1, 0), (3, 1), (5, 0)],
            &[(2, 0), (4, 1), (5, 0)],
            &[(1, 0), (2, 0)],
        ],
        printed: "verdict=solvable\nindex=2\nfreedom=2\ncounts=1,1,0,0,2\ntops=2,2,1,1,0\npairs=1,4,3,5,2\nblocks=1,2,3,4,5\n",
    },
    ModelCase {
        title: "slide 57, pendulum solved for the highest derivatives",
        unknowns: 3,
        rows: &[&[(1, 0), (3, 0)], &[(1, 0), (2, 0)], &[(2, 0), (3, 0)]],
        printed: "verdict=solvable\nindex=0\nfreedom=0\ncounts=0,0,0\ntops=0,0,0\npairs=1,2,3\nblocks=1,2,3\n",
    },
    ModelCase {
        title: "slide 57, the same with equations of order one",
        unknowns: 5,
        rows: &[
            &[(1, 0)],
            &[(2, 0)],
            &[(1, 0), (2, 0), (3, 0), (5, 0)],
            &[(3, 0), (4, 0)],
            &[(4, 0), (5, 0)],
        ],
        printed: "verdict=solvable\nindex=0\nfreedom=0\ncounts=0,0,0,0,0\ntops=0,0,0,0,0\npairs=1,2,3,4,5\nblocks=1;2;3,4,5\n",
    },
    ModelCase {
        title: "slide 58, the pendulum's matrix to check",
        unknowns: 5,
        rows: &[
            &[(1, 0), (3, 0)],
            &[(2, 0), (4, 0)],
            &[(1, 0), (3, 0), (5, 0)],
            &[(2, 0), (4, 0), (5, 0)],
            &[(1, 0), (2, 0)],
        ],
        printed: "verdict=solvable\nindex=0\nfreedom=0\ncounts=0,0,0,0,0\ntops=0,0,0,0,0\npairs=1,4,3,5,2\nblocks=1,2,3,4,5\n",
    },
];

/// A card that is refused.
#[derive(Clone, Debug)]
pub struct CardCase {
    /// What is wrong with it.
    pub why: &'static str,
    /// The card.
    pub card: Vec<u8>,
    /// The refusal's number.
    pub number: u8,
    /// The refusal's place.
    pub place: usize,
}

/// Refused cards, each [`CARD_A`] with one line replaced, or lines added or lost. The lines of that card start at
/// 0, 14, 26, 37, 50, 63, 76, 89 and 102, and it has 108 bytes.
pub fn refused_cards() -> Vec<CardCase> {
    let mut cases = Vec::new();
    let mut add = |why, card: Vec<u8>, number, place| cases.push(CardCase { why, card, number, place });

    add("empty input", Vec::new(), 11, 0);
    add("one LF", b"\n".to_vec(), 11, 0);
    add("another key", with_line(0, "rigs=kestrel-4\n"), 11, 0);
    add("key in capitals", with_line(0, "RIG=kestrel-4\n"), 11, 0);
    add("space before the key", with_line(0, " rig=kestrel-4\n"), 11, 0);
    add("space before =", with_line(0, "rig =kestrel-4\n"), 11, 0);
    add("byte order mark", with_line(0, "\u{feff}rig=kestrel-4\n"), 11, 0);
    add("the name line alone, without LF", b"rig=kestrel-4".to_vec(), 11, 0);
    add("rig= alone, without LF", b"rig=".to_vec(), 11, 0);
    add("rig without =", b"rig\n".to_vec(), 11, 0);
    add("a bad name without LF", b"rig=KESTREL".to_vec(), 11, 0);

    add("empty name", with_line(0, "rig=\n"), 12, 0);
    add("empty name and nothing more", b"rig=\n".to_vec(), 12, 0);
    add("space after =", with_line(0, "rig= kestrel-4\n"), 12, 0);
    add("capital in the name", with_line(0, "rig=Kestrel-4\n"), 12, 0);
    add("underscore in the name", with_line(0, "rig=kestrel_4\n"), 12, 0);
    add("CR at the name's end", with_line(0, "rig=kestrel-4\r\n"), 12, 0);
    add("another = in the name", with_line(0, "rig==kestrel\n"), 12, 0);
    add("name of 25 bytes", with_name(&[b'a'; LONGEST_NAME + 1]), 12, 0);
    add("NUL in the name", with_name(b"kestrel\0"), 12, 0);
    add("0xFF in the name", with_name(b"kestrel\xff"), 12, 0);
    add("byte before a", with_name(b"`"), 12, 0);
    add("byte after z", with_name(b"{"), 12, 0);
    add("byte before 0", with_name(b"/"), 12, 0);
    add("byte after 9", with_name(b":"), 12, 0);

    add("nothing after the name line", b"rig=kestrel-4\n".to_vec(), 11, 14);
    add("equations= with nothing after it", with_line(1, "equations=\n"), 11, 14);
    add("equations line without LF at the end", b"rig=kestrel-4\nequations=3".to_vec(), 11, 14);
    add("equations with a leading zero", with_line(1, "equations=03\n"), 11, 14);
    add("equations of five digits", with_line(1, "equations=10000\n"), 11, 14);
    add("equations 0032", with_line(1, "equations=0032\n"), 11, 14);
    add("equations 00", with_line(1, "equations=00\n"), 11, 14);
    add("equations with a plus", with_line(1, "equations=+3\n"), 11, 14);
    add("equations with a minus", with_line(1, "equations=-3\n"), 11, 14);
    add("equations with a space", with_line(1, "equations= 3\n"), 11, 14);
    add("equations with CR", with_line(1, "equations=3\r\n"), 11, 14);
    add("equations with a letter", with_line(1, "equations=3x\n"), 11, 14);
    add("an empty line", with_line(1, "\n"), 11, 14);
    add("the end line in the place of equations", with_line(1, "end=0\n"), 11, 14);
    add("the unknowns line first", with_line(1, "unknowns=3\n"), 11, 14);
    add("equations 0", with_line(1, "equations=0\n"), 13, 14);
    add("equations 33", with_line(1, "equations=33\n"), 13, 14);
    add("equations 9999", with_line(1, "equations=9999\n"), 13, 14);
    add("equations 33 and nothing more", b"rig=kestrel-4\nequations=33\n".to_vec(), 13, 14);
    add("equations 257", with_line(1, "equations=257\n"), 13, 14);

    add("nothing after the equations line", b"rig=kestrel-4\nequations=3\n".to_vec(), 11, 26);
    add("unknowns= with nothing after it", with_line(2, "unknowns=\n"), 11, 26);
    add("unknowns with a leading zero", with_line(2, "unknowns=03\n"), 11, 26);
    add("the end line in the place of unknowns", with_line(2, "end=0\n"), 11, 26);
    add("the equations line twice", with_line(2, "equations=3\n"), 11, 26);
    add("unknowns 0", with_line(2, "unknowns=0\n"), 13, 26);
    add("unknowns 33", with_line(2, "unknowns=33\n"), 13, 26);

    add("nothing after the unknowns line", CARD_A[..37].into(), 11, 37);
    add("occurs with two numbers", with_line(3, "occurs=1,1\n"), 11, 37);
    add("occurs with four numbers", with_line(3, "occurs=1,1,1,1\n"), 11, 37);
    add("occurs with an empty number", with_line(3, "occurs=1,,1\n"), 11, 37);
    add("occurs with nothing", with_line(3, "occurs=\n"), 11, 37);
    add("occurs with a trailing comma", with_line(3, "occurs=1,1,1,\n"), 11, 37);
    add("occurs with a space", with_line(3, "occurs=1, 1,1\n"), 11, 37);
    add("occurs with CR", with_line(3, "occurs=1,1,1\r\n"), 11, 37);
    add("occurs with a leading zero in k", with_line(3, "occurs=1,1,01\n"), 11, 37);
    add("occurs with five digits in e", with_line(3, "occurs=10000,1,1\n"), 11, 37);
    add("occurs with another key", with_line(3, "occur=1,1,1\n"), 11, 37);
    add("a bad e but a bad shape too", with_line(3, "occurs=9,1,x\n"), 11, 37);
    add("occurs cut within", CARD_A[..49].into(), 11, 37);
    add("END in capitals", with_line(3, "END=0\n"), 11, 37);
    add("end without =", with_line(3, "end\n"), 11, 37);
    add("e is 0", with_line(3, "occurs=0,1,1\n"), 14, 37);
    add("u is 0", with_line(3, "occurs=1,0,1\n"), 14, 37);
    add("e above E", with_line(3, "occurs=4,1,1\n"), 14, 37);
    add("u above U", with_line(3, "occurs=1,4,1\n"), 14, 37);
    add("k is 4", with_line(3, "occurs=1,1,4\n"), 14, 37);
    add("k is 10", with_line(3, "occurs=1,1,10\n"), 14, 37);
    add("e is 257, which is 1 in one byte", with_line(3, "occurs=257,1,1\n"), 14, 37);
    add("u is 9999", with_line(3, "occurs=1,9999,1\n"), 14, 37);
    add("k is 256", with_line(3, "occurs=1,1,256\n"), 14, 37);

    add("the same pair twice", with_line(4, "occurs=1,1,1\n"), 15, 50);
    add("the same pair with another order", with_line(4, "occurs=1,1,0\n"), 15, 50);
    add("u goes back within e", with_line(4, "occurs=1,3,0\noccurs=1,2,0\n"), 15, 63);
    add("e goes back", with_line(6, "occurs=1,3,0\n"), 15, 76);
    add("an earlier pair that is out of range too", with_line(6, "occurs=1,4,0\n"), 14, 76);

    add("no end line", CARD_A[..102].into(), 11, 102);
    add("end line without LF", CARD_A[..107].into(), 11, 102);
    add("end= with nothing after it", with_line(8, "end=\n"), 11, 102);
    add("end number with a leading zero", with_line(8, "end=05\n"), 11, 102);
    add("end number of five digits", with_line(8, "end=00005\n"), 11, 102);
    add("end number with CR", with_line(8, "end=5\r\n"), 11, 102);
    add("end number too low", with_line(8, "end=4\n"), 16, 102);
    add("end number too high", with_line(8, "end=6\n"), 16, 102);
    add("end number 0", with_line(8, "end=0\n"), 16, 102);
    add("end number 261, which is 5 in one byte", with_line(8, "end=261\n"), 16, 102);
    add("end number 9999", with_line(8, "end=9999\n"), 16, 102);
    add("wrong end number, and bytes after it", with_line(8, "end=4\nmore\n"), 16, 102);
    add("end line too early, and right for its place", with_line(3, "end=0\n"), 11, 43);
    add("end line too early, and wrong for its place", with_line(3, "end=5\n"), 16, 37);

    add("an LF after the end line", with_line(8, "end=5\n\n"), 11, 108);
    add("a NUL after the end line", with_line(8, "end=5\n\0"), 11, 108);
    add("a line after the end line", with_line(8, "end=5\noccurs=3,2,0\n"), 11, 108);
    add("the end line twice", with_line(8, "end=5\nend=5\n"), 11, 108);
    add("two cards", [CARD_A, CARD_A].concat().into(), 11, 108);
    cases
}

/// [`CARD_A`] with one line, its LF included, replaced.
fn with_line(line: usize, replacement: &str) -> Vec<u8> {
    let mut lines: Vec<&str> = CARD_A.split_inclusive('\n').collect();
    lines[line] = replacement;
    lines.concat().into()
}

fn with_name(name: &[u8]) -> Vec<u8> {
    [b"rig=", name, &CARD_A.as_bytes()[13..]].concat()
}
