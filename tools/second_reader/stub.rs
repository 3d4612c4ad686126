//! A stand-in for the static library, made of this replay, to try the comparison itself without the library.

use crate::proved::Answer;
use crate::replay::{self, Kind, Refusal};
use std::slice::{from_raw_parts, from_raw_parts_mut};

fn kind_of(code: u8) -> Option<Kind> {
    match code {
        3 => Some(Kind::S3),
        4 => Some(Kind::S4),
        0xC3 => Some(Kind::C3),
        _ => None,
    }
}

/// With cfg(stub_wrong), now and then true: what was asked about `octets` is then answered wrongly.
fn errs(octets: &[u8]) -> bool {
    let sum: usize = octets.iter().map(|&octet| usize::from(octet)).sum();
    cfg!(stub_wrong) && sum % 5_000 == 777
}

#[no_mangle]
unsafe extern "C" fn mizkaule_raw_judge_block(
    block: *const u8,
    block_len: usize,
    address: u16,
    rank: u8,
    out_len: usize,
    in_len: usize,
    kind: u8,
) -> Answer {
    let block = from_raw_parts(block, block_len);
    let Some(kind) = kind_of(kind) else {
        return Answer::NO_SUCH;
    };
    let rank = rank.wrapping_add(u8::from(errs(block)));
    match replay::judge(block, address, rank, out_len, in_len, kind) {
        Ok(_) => Answer::done(0),
        Err(refusal) => Answer::refused(refusal, 0),
    }
}

#[no_mangle]
unsafe extern "C" fn mizkaule_raw_sign(
    kind: u8,
    crc: u16,
    number: u32,
    octets: *const u8,
    octets_len: usize,
    out: *mut u8,
    out_len: usize,
) -> Answer {
    let octets = from_raw_parts(octets, octets_len);
    let out = from_raw_parts_mut(out, out_len);
    let (Some(kind), 0..=0xFF_FFFF) = (kind_of(kind), number) else {
        return Answer::NO_SUCH;
    };
    match replay::sign(kind, crc, number ^ u32::from(errs(octets)), octets, out) {
        Ok(size) => Answer::done(size),
        Err(refusal) => Answer::refused(refusal, kind.width()),
    }
}

#[no_mangle]
unsafe extern "C" fn mizkaule_raw_fits(
    kind: u8,
    crc: u16,
    number: u32,
    frame: *const u8,
    frame_len: usize,
) -> Answer {
    let frame = from_raw_parts(frame, frame_len);
    let (Some(kind), 0..=0xFF_FFFF) = (kind_of(kind), number) else {
        return Answer::NO_SUCH;
    };
    Answer::done(usize::from(
        replay::fits(kind, crc, number, frame) != errs(frame),
    ))
}

#[no_mangle]
unsafe extern "C" fn mizkaule_raw_replay(
    book: *const u8,
    book_len: usize,
    text: *mut u8,
    text_len: usize,
) -> Answer {
    let book = from_raw_parts(book, book_len);
    let room = from_raw_parts_mut(text, text_len);
    let mut made = Vec::with_capacity(book_len * 12 + 64);
    replay::replay(book, &mut made);
    if errs(book) {
        let at = made.len() / 2;
        made[at] ^= 1;
    }
    match room.get_mut(..made.len()) {
        Some(front) => {
            front.copy_from_slice(&made);
            Answer::done(made.len())
        }
        None => Answer::refused(Refusal::new(13, 0), made.len()),
    }
}
