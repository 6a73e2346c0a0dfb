//! The C boundary: the only declarations of the library's functions and the only unsafe code of this crate.
//!
//! Every function is total: no input is forbidden, and each is proved to stay within the slices that it is lent.
//! A slice crosses as a pointer and a length. The pointer is never null, because a Rust slice's is not, even that
//! of an empty one. Several numbers come back packed in one; the lowest byte is the first.

unsafe extern "C" {
    fn mudorder_analyse(
        equations: usize,
        unknowns: usize,
        table: *const u8,
        table_length: usize,
        answer: *mut u8,
        answer_length: usize,
    ) -> u64;
    fn mudorder_read(card: *const u8, card_length: usize, table: *mut u8, table_length: usize) -> u64;
    fn mudorder_write(
        name: *const u8,
        name_length: usize,
        equations: usize,
        unknowns: usize,
        table: *const u8,
        table_length: usize,
        card: *mut u8,
        card_length: usize,
    ) -> u64;
    fn mudorder_name(card: *const u8, card_length: usize) -> u64;
    fn mudorder_report(card: *const u8, card_length: usize, out: *mut u8, out_length: usize) -> u64;
}

pub(crate) fn analyse(equations: usize, unknowns: usize, table: &[u8], answer: &mut [u8]) -> Packed {
    // SAFETY: the function is total; it reads `table` and writes `answer` within the lengths given.
    Packed(unsafe {
        mudorder_analyse(equations, unknowns, table.as_ptr(), table.len(), answer.as_mut_ptr(), answer.len())
    })
}

pub(crate) fn read(card: &[u8], table: &mut [u8]) -> Packed {
    // SAFETY: the function is total; it reads `card` and writes `table` within the lengths given.
    Packed(unsafe { mudorder_read(card.as_ptr(), card.len(), table.as_mut_ptr(), table.len()) })
}

pub(crate) fn write(name: &[u8], equations: usize, unknowns: usize, table: &[u8], card: &mut [u8]) -> Packed {
    // SAFETY: the function is total; it reads `name` and `table` and writes `card` within the lengths given.
    Packed(unsafe {
        mudorder_write(
            name.as_ptr(),
            name.len(),
            equations,
            unknowns,
            table.as_ptr(),
            table.len(),
            card.as_mut_ptr(),
            card.len(),
        )
    })
}

pub(crate) fn name(card: &[u8]) -> Packed {
    // SAFETY: the function is total and reads `card` within the length given.
    Packed(unsafe { mudorder_name(card.as_ptr(), card.len()) })
}

pub(crate) fn report(card: &[u8], out: &mut [u8]) -> u64 {
    // SAFETY: the function is total; it reads `card` and writes `out` within the lengths given.
    unsafe { mudorder_report(card.as_ptr(), card.len(), out.as_mut_ptr(), out.len()) }
}

/// Several small numbers in one, from the lowest byte up.
#[derive(Clone, Copy)]
pub(crate) struct Packed(u64);

impl Packed {
    /// Takes one byte off the low end.
    pub(crate) fn byte(&mut self) -> u8 {
        let byte = self.0 as u8;
        self.0 >>= 8;
        byte
    }

    /// Takes two bytes off the low end, the low one first.
    pub(crate) fn two_bytes(&mut self) -> usize {
        let low = self.byte();
        let high = self.byte();
        usize::from(u16::from_le_bytes([low, high]))
    }

    /// What is left must be 0: anything else would be a number that this side does not know of.
    pub(crate) fn nothing_left(self) {
        debug_assert_eq!(self.0, 0, "the library packed more than was agreed");
    }
}

#[cfg(test)]
mod tests {
    use super::Packed;

    #[test]
    fn numbers_come_off_from_the_lowest_byte() {
        let mut packed = Packed(0x00_07_06_05_04_03_02_01);
        assert_eq!(packed.byte(), 1);
        assert_eq!(packed.two_bytes(), 0x0302);
        assert_eq!(packed.byte(), 4);
        assert_eq!(packed.byte(), 5);
        assert_eq!(packed.byte(), 6);
        assert_eq!(packed.byte(), 7);
        packed.nothing_left();
    }

    #[test]
    fn two_bytes_hold_the_longest_card() {
        let mut packed = Packed(14_847);
        assert_eq!(packed.two_bytes(), 14_847);
        packed.nothing_left();
    }

    /// Only where debug assertions are on, as in tests: the screen itself is never stopped for this.
    #[cfg(debug_assertions)]
    #[test]
    #[should_panic(expected = "more than was agreed")]
    fn a_byte_too_many_is_noticed() {
        let mut packed = Packed(0x1_00);
        packed.byte();
        packed.nothing_left();
    }
}
