//! Every lent buffer set flush against a page that may not be touched: one byte read or written outside ends the
//! test with a signal. Guard bytes see stray writes; this sees stray reads too.
#![cfg(target_os = "linux")]

mod common;

use common::damage::damage;
use common::{card_of, name, say, six_of_independent, six_of_library};
use independent::generate::{Kind, Random, model};
use independent::{analysis, card, printed};
use mudorder::{ANSWER, LIMIT, LONGEST_CARD, LONGEST_REPORT};
use std::ffi::{c_int, c_void};

unsafe extern "C" {
    fn mmap(
        at: *mut c_void,
        length: usize,
        access: c_int,
        flags: c_int,
        file: c_int,
        offset: i64,
    ) -> *mut c_void;
    fn mprotect(at: *mut c_void, length: usize, access: c_int) -> c_int;
}

const NO_ACCESS: c_int = 0;
const READ_AND_WRITE: c_int = 3;
const PRIVATE_AND_ANONYMOUS: c_int = 0x22;
const PAGE: usize = 4096;
const ROOM: usize = 5 * PAGE;

/// Some pages between two that may not be touched. They are kept until the test ends.
struct Fenced {
    first: *mut u8,
}

/// Where a buffer is set between the two fences.
#[derive(Clone, Copy)]
enum Side {
    Front,
    Back,
}

impl Fenced {
    fn new() -> Fenced {
        let length = ROOM + 2 * PAGE;
        // SAFETY: fresh pages, owned by nobody else; access is given to those between the first and the last.
        unsafe {
            let start = mmap(std::ptr::null_mut(), length, NO_ACCESS, PRIVATE_AND_ANONYMOUS, -1, 0);
            assert!(start as isize != -1, "no memory");
            let first = start.cast::<u8>().add(PAGE);
            assert_eq!(mprotect(first.cast(), ROOM, READ_AND_WRITE), 0);
            Fenced { first }
        }
    }

    /// A buffer of this content, flush against one of the fences.
    fn lend(&mut self, content: &[u8], side: Side) -> &mut [u8] {
        assert!(content.len() <= ROOM);
        let offset = match side {
            Side::Front => 0,
            Side::Back => ROOM - content.len(),
        };
        // SAFETY: within the accessible pages, and the borrow of self keeps every other buffer away.
        let buffer = unsafe { std::slice::from_raw_parts_mut(self.first.add(offset), content.len()) };
        buffer.copy_from_slice(content);
        buffer
    }
}

#[test]
fn nothing_outside_a_lent_buffer_is_touched() {
    let mut random = Random::new(4096);
    let (mut input, mut table, mut output) = (Fenced::new(), Fenced::new(), Fenced::new());
    let total = 3_000;
    for turn in 0..total {
        let side = random.pick(&[Side::Front, Side::Back]);
        let size = random.between(1, LIMIT);
        let model = model(Kind::ALL[turn % Kind::ALL.len()], size, LIMIT, &mut random);
        let (equations, unknowns) = (model.equations(), model.unknowns());

        // The analysis, with tables and answers of right and wrong lengths.
        let cut = random.pick(&[0, 0, 0, 1, model.codes().len()]);
        let codes = &model.codes()[cut..];
        let room = random.pick(&[0, 1, ANSWER - 1, ANSWER, ANSWER, ANSWER, ANSWER + 1]);
        let answer = output.lend(&vec![7; room], side);
        let mut expected = vec![7; room];
        let numbers = mudorder::analyse(equations, unknowns, table.lend(codes, side), answer);
        let expected_numbers = analysis::analyse(equations, unknowns, codes, &mut expected);
        assert_eq!(six_of_library(numbers), six_of_independent(expected_numbers));
        assert_eq!(answer, expected);

        // The reader and the name question, with good and damaged cards.
        let rig = name(&mut random);
        let mut bytes = card_of(&rig, &model);
        if random.percent(70) {
            damage(&mut bytes, &mut random);
        }
        let room = random.pick(&[0, equations * unknowns - 1, equations * unknowns, LIMIT * LIMIT]);
        let filled = table.lend(&vec![7; room], side);
        let mut expected = vec![7; room];
        let lent = input.lend(&bytes, side);
        let reading = mudorder::read(lent, filled);
        let expected_reading = card::read(&bytes, &mut expected);
        assert_eq!((reading.number, reading.place), (expected_reading.number, expected_reading.place));
        assert_eq!(filled, expected);
        assert_eq!(mudorder::name(lent), card::name(&bytes));

        // The printed result.
        let text = printed::printed(&bytes);
        let room = random.pick(&[0, text.len() - 1, text.len(), LONGEST_REPORT]);
        let out = output.lend(&vec![7; room], side);
        assert_eq!(mudorder::report(lent, out), text.len());
        let expected_out = if room < text.len() { vec![7; room] } else { text.into_bytes() };
        assert_eq!(out[..expected_out.len()], expected_out);

        // The writer.
        let whole = card_of(&rig, &model).len();
        let room = random.pick(&[0, whole - 1, whole, LONGEST_CARD]);
        let out = output.lend(&vec![7; room], side);
        let mut expected = vec![7; room];
        let lent_name = input.lend(rig.as_bytes(), side);
        let writing = mudorder::write(lent_name, equations, unknowns, table.lend(model.codes(), side), out);
        let expected_writing = card::write(rig.as_bytes(), equations, unknowns, model.codes(), &mut expected);
        assert_eq!((writing.number, writing.length), (expected_writing.number, expected_writing.length));
        assert_eq!(out, expected);
    }
    say(&format!(
        "buffers flush against pages that may not be touched: {total} rounds through all five entries, none touched"
    ));
}
