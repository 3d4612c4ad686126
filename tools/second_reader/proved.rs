//! The proved program, reached through the C interface of its static library.

use crate::replay::{Kind, Refusal};

/// Status 0 is done, 1 a refusal, 2 an argument that names no kind or no number, 3 want of memory.
#[repr(C)]
#[derive(Clone, Copy, PartialEq, Eq, Debug)]
pub struct Answer {
    pub status: u8,
    pub number: u8,
    pub layer: u8,
    pub place: usize,
    pub size: usize,
}

impl Answer {
    pub const fn done(size: usize) -> Answer {
        Answer {
            status: 0,
            number: 0,
            layer: 0,
            place: 0,
            size,
        }
    }

    /// A refusal; `size` is what a buffer that was too short would have needed, and else 0.
    pub const fn refused(refusal: Refusal, size: usize) -> Answer {
        Answer {
            status: 1,
            number: refusal.number,
            layer: refusal.layer as u8,
            place: refusal.place,
            size,
        }
    }

    /// A kind or a number that is none.
    pub const NO_SUCH: Answer = Answer {
        status: 2,
        ..Answer::done(0)
    };
}

pub const fn code(kind: Kind) -> u8 {
    match kind {
        Kind::S3 => 3,
        Kind::S4 => 4,
        Kind::C3 => 0xC3,
    }
}

extern "C" {
    fn mizkaule_raw_judge_block(
        block: *const u8,
        block_len: usize,
        address: u16,
        rank: u8,
        out_len: usize,
        in_len: usize,
        kind: u8,
    ) -> Answer;
    fn mizkaule_raw_sign(
        kind: u8,
        crc: u16,
        number: u32,
        octets: *const u8,
        octets_len: usize,
        out: *mut u8,
        out_len: usize,
    ) -> Answer;
    fn mizkaule_raw_fits(kind: u8, crc: u16, number: u32, frame: *const u8, frame_len: usize)
        -> Answer;
    fn mizkaule_raw_replay(
        book: *const u8,
        book_len: usize,
        text: *mut u8,
        text_len: usize,
    ) -> Answer;
}

pub fn judge_block(
    block: &[u8],
    address: u16,
    rank: u8,
    out_len: usize,
    in_len: usize,
    kind: u8,
) -> Answer {
    let (octets, count) = (block.as_ptr(), block.len());
    // SAFETY: the pointer and the length are those of a slice, which the call only reads.
    unsafe { mizkaule_raw_judge_block(octets, count, address, rank, out_len, in_len, kind) }
}

pub fn sign(kind: u8, crc: u16, number: u32, octets: &[u8], out: &mut [u8]) -> Answer {
    let (from, count) = (octets.as_ptr(), octets.len());
    // SAFETY: both pointers and lengths are those of slices, and only `out` is written.
    unsafe { mizkaule_raw_sign(kind, crc, number, from, count, out.as_mut_ptr(), out.len()) }
}

pub fn fits(kind: u8, crc: u16, number: u32, frame: &[u8]) -> Answer {
    // SAFETY: the pointer and the length are those of a slice, which the call only reads.
    unsafe { mizkaule_raw_fits(kind, crc, number, frame.as_ptr(), frame.len()) }
}

pub fn replay(book: &[u8], text: &mut [u8]) -> Answer {
    // SAFETY: both pointers and lengths are those of slices, and only `text` is written.
    unsafe { mizkaule_raw_replay(book.as_ptr(), book.len(), text.as_mut_ptr(), text.len()) }
}
