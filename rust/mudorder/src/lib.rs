//! The structural analysis of a drilling-loss model, for the tracker's screen.
//!
//! A rig's model is told as a table: which unknown occurs in which equation, and at which derivative. The
//! analysis says whether the equations fix the unknowns; if they do, how often each equation is differentiated,
//! which unknown it is solved for, and in which order; if not, which equations are surplus and which unknowns
//! nothing fixes. Document 01 has the exact rules. The work is done by a proved library that this crate links;
//! no table, card or buffer, however wrong, makes it trap or run on.
//!
//! # In five minutes
//!
//! ```
//! use mudorder::{Equation, Model, Unknown, Verdict};
//!
//! // Pit volume, loss, return flow; equation 3 is the pit gauge.
//! let card = b"rig=kestrel-4\n\
//!     equations=3\n\
//!     unknowns=3\n\
//!     occurs=1,1,1\n\
//!     occurs=1,3,0\n\
//!     occurs=2,2,0\n\
//!     occurs=2,3,0\n\
//!     occurs=3,1,0\n\
//!     end=5\n";
//!
//! let model = Model::read(card)?;
//! assert_eq!(model.order(Equation(1), Unknown(1)), Some(1));
//! assert_eq!(model.order(Equation(1), Unknown(2)), None); // it does not occur: that is no order 0
//!
//! match model.verdict() {
//!     Verdict::Solvable { partners, blocks, .. } => {
//!         assert_eq!(partners, [Unknown(3), Unknown(2), Unknown(1)]);
//!         assert_eq!(blocks[0], [Equation(3)]); // the gauge is solved first
//!     }
//!     Verdict::Singular { unfixed, .. } => panic!("nothing fixes {unfixed:?}"),
//!     Verdict::Refused { number, place } => panic!("refused {number} at {place}"),
//! }
//!
//! // The gauge is out: the loss is no longer fixed. It must not be shown as nil.
//! let without_gauge = Model::new("kestrel-4", 2, 3, &model.table()[..6])?;
//! assert_eq!(
//!     without_gauge.verdict().to_string(),
//!     "rig=kestrel-4\nverdict=singular\nrank=2\nsurplus=none\nunfixed=1,2,3\n"
//! );
//! # Ok::<(), mudorder::Refusal>(())
//! ```
//!
//! [`Model`] and [`Verdict`] are what a screen wants. Beneath them stand the library's entries as they are, on
//! slices that the caller lends: [`analyse`], [`read`], [`write()`], [`name`] and [`report`]. They allocate nothing.
//!
//! The example `screen` draws a model in the terminal: `cargo run --example screen < card`.
#![deny(unsafe_code)]

mod entries;
mod model;
#[allow(unsafe_code)]
mod raw;

pub use entries::{Numbers, Reading, Writing, analyse, name, read, report, write};
pub use model::{Equation, Model, Refusal, Unknown, Verdict};

/// The most equations, and the most unknowns, that a model has.
pub const LIMIT: usize = 32;

/// The bytes of one strip of the answer.
pub const STRIP: usize = LIMIT;

/// The bytes of the answer that the analysis writes; a shorter buffer is refused.
pub const ANSWER: usize = 5 * STRIP;

/// The byte in an unused place of a strip.
pub const UNUSED: u8 = 255;

/// The bytes of the longest card.
pub const LONGEST_CARD: usize = 14_847;

/// The most bytes of input that the program takes.
pub const INPUT_LIMIT: usize = 16_384;

/// A buffer of so many bytes has room for every printed result.
pub const LONGEST_REPORT: usize = 1_024;
