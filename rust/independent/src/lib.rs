//! Document 01's rules as a plain Rust program.
//!
//! It was written from the document and not from the proved code, so that the two can be compared: tests hold
//! the library's answers to this program's, and benchmarks its time. It is meant to be read: one module for each
//! part of the document, and no cleverness beyond what an engineer would write at first.
//!
//! Inside, equations and unknowns count from 0, because they are places in vectors; what a person sees counts
//! from 1. A name with `equation` or `e` is always an equation, one with `unknown` or `u` always an unknown.
//!
//! [`brute`] works from the definitions alone, by enumeration. It serves tiny models and shows that this program
//! is right; [`pryce`] finds the counts another way; [`cases`] has what was worked out by hand from the documents; [`generate`] makes the models that
//! tests and benchmarks run on.
#![forbid(unsafe_code)]

pub mod analysis;
pub mod blocks;
pub mod brute;
pub mod card;
pub mod cases;
pub mod counts;
pub mod generate;
pub mod pairing;
pub mod partners;
pub mod printed;
pub mod pryce;
pub mod table;

/// A number of document 01 that is no verdict, and its place.
#[derive(Clone, Copy, Debug, PartialEq, Eq)]
pub struct Refusal {
    /// The number from the document's tables.
    pub number: u8,
    /// An offset from 0, or 0 where the document gives none.
    pub place: usize,
}

impl Refusal {
    /// A refusal with a place.
    pub fn at(number: u8, place: usize) -> Refusal {
        Refusal { number, place }
    }

    /// A refusal for which the document gives no place.
    pub fn without_place(number: u8) -> Refusal {
        Refusal { number, place: 0 }
    }
}
