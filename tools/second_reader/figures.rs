//! The worked figures of the docs, as tests.

use crate::replay::{fits, judge, par_crc, replay, sign, Kind, Refusal};

const BLOCK: [u8; 10] = [0x08, 0x40, 0, 1, 0, 2, 0, 0x64, 0xC3, 0x57];

fn signature(kind: Kind, crc: u16, number: u32, octets: &[u8]) -> Vec<u8> {
    let mut out = [0; 4];
    let width = sign(kind, crc, number, octets, &mut out).unwrap();
    out[..width].to_vec()
}

fn text(book: &[u8]) -> String {
    let mut text = Vec::new();
    replay(book, &mut text);
    String::from_utf8(text).unwrap()
}

#[test]
fn signatures_are_those_of_the_docs() {
    assert_eq!(signature(Kind::S3, 0xC357, 0, &[0x14]), [0xBE, 0xA3, 0x1F]);
    assert_eq!(signature(Kind::S3, 0xC357, 0, &[0x50]), [0xA1, 0x0C, 0x1E]);
    assert_eq!(
        signature(Kind::S4, 0xC357, 0, &[0x14]),
        [0xF4, 0xA2, 0x98, 0x1B]
    );
    assert_eq!(signature(Kind::S3, 0, 1, &[0]), [0xDD, 0xD7, 0x98]);
    assert_eq!(signature(Kind::C3, 0, 1, &[0]), [0x00, 0x01, 0x00]);
    assert_eq!(signature(Kind::S3, 0, 0, &[0x04]), [0x28, 0xDA, 0xE7]);
    assert_eq!(Kind::S3.feed(0xFE_DCBA, b"123456789"), 0x79_79BD);
    assert_eq!(Kind::S3.feed(0xAB_CDEF, b"123456789"), 0x1F_23B8);
    assert_eq!(Kind::S4.feed(0, &[2]), 0x1DF5_0D35);
    assert!(fits(Kind::S3, 0xC357, 0, &[0x14, 0xBE, 0xA3, 0x1F]));
    assert!(!fits(Kind::S3, 0xC357, 1, &[0x14, 0xBE, 0xA3, 0x1F]));
    assert!(!fits(Kind::S3, 0xC357, 0, &[0xBE, 0xA3]));
}

#[test]
fn blocks_are_judged_as_in_the_docs() {
    assert_eq!(par_crc(&[4]), 0x7407);
    assert_eq!(par_crc(&BLOCK[..8]), 0xC357);
    assert!(judge(&BLOCK, 2, 3, 12, 12, Kind::S3).is_ok());
    let with_crc_0 = [0x08, 0x40, 0, 1, 0, 2, 0xDE, 0x03, 0, 0];
    assert!(judge(&with_crc_0, 2, 3, 0, 0, Kind::C3).is_ok());
    let refusal = |number, place| Some(Refusal::new(number, place));
    assert_eq!(
        judge(&BLOCK[..9], 2, 3, 0, 0, Kind::S3).err(),
        refusal(1, 0)
    );
    assert_eq!(judge(&BLOCK, 3, 3, 0, 0, Kind::S3).err(), refusal(6, 4));
    assert_eq!(judge(&BLOCK, 2, 2, 0, 0, Kind::S3).err(), refusal(8, 0));
    assert_eq!(judge(&BLOCK, 2, 3, 13, 0, Kind::S3).err(), refusal(9, 0));
    assert_eq!(judge(&BLOCK, 2, 3, 0, 0, Kind::S4).err(), refusal(9, 0));
}

#[test]
fn books_break_as_in_the_docs() {
    assert_eq!(text(&[]), "refused 15 0\n");
    assert_eq!(text(&[2]), "refused 15 0\n");
    assert_eq!(text(&[1]), "end 1 0\n");
    assert_eq!(text(&[1, 0]), "refused 16 1\n");
    assert_eq!(text(&[1, 0, 0]), "refused 16 1\n");
    assert_eq!(text(&[1, 0, 2, 8]), "refused 16 1\n");
    assert_eq!(
        text(&[1, 0, 2, 8, 1, 0, 1, 8]),
        "1 button refused 18 1\nrefused 17 5\n"
    );
    assert_eq!(text(&[1, 0, 1, 9]), "refused 17 1\n");
}

#[test]
fn the_worked_book_reads_as_in_the_docs() {
    let book = [
        &[1, 0, 0x0D, 1, 0, 0][..],
        &BLOCK,
        &[0, 2, 2, 0, 0, 5, 3, 0x14, 0xBE, 0xA3, 0x1F, 0, 2, 4, 0],
        &[0, 5, 5, 0x50, 0xA1, 0x0C, 0x1E],
    ];
    let lines =
        "1 block taken R0 W0 FF\n16 host-offer fresh R0 W0 FF\n20 to-device restart R0 N0 FF\n\
        27 device-offer fresh R0 N0 FF\n31 to-host fresh N1 N0 FF\nend 38 5\n";
    assert_eq!(text(&book.concat()), lines);
}
