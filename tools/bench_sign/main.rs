//! Signing by the proved code against a plain table loop, on the same frames.
//! All signatures are compared first; then both are timed in turn, and the best of the rounds counts.

use std::hint::black_box;
use std::process::exit;
use std::slice;
use std::time::Instant;

/// How much slower than the plain loop the proved code may be.
const MOST: f64 = 1.1;

/// What a call answers, as in `tools/c_interface/mizkaule.h`.
#[repr(C)]
#[derive(Clone, Copy, Debug, PartialEq)]
struct Answer {
    status: u8,
    number: u8,
    layer: u8,
    place: usize,
    size: usize,
}

/// Kind, check value, number, the octets to sign, and where the signature goes.
/// Both sides have this interface, so that the time of a call is the same for both.
type Sign = unsafe extern "C" fn(u8, u16, u32, *const u8, usize, *mut u8, usize) -> Answer;

unsafe extern "C" {
    fn mizkaule_raw_sign(
        kind: u8,
        crc: u16,
        number: u32,
        body: *const u8,
        octets: usize,
        out: *mut u8,
        room: usize,
    ) -> Answer;
}

/// The kind S3 or S4: its figure, and the octets in a signature.
#[derive(Clone, Copy)]
struct Kind {
    name: &'static str,
    figure: u8,
    width: usize,
}

const S3: Kind = Kind { name: "S3", figure: 3, width: 3 };
const S4: Kind = Kind { name: "S4", figure: 4, width: 4 };

fn done(size: usize) -> Answer {
    Answer { status: 0, number: 0, layer: 0, place: 0, size }
}

fn too_short(size: usize) -> Answer {
    Answer { status: 1, number: 13, layer: 2, place: 0, size }
}

fn no_such() -> Answer {
    Answer { status: 2, number: 0, layer: 0, place: 0, size: 0 }
}

fn signed(sign: Sign, kind: Kind, crc: u16, number: u32, body: &[u8], out: &mut [u8]) -> Answer {
    unsafe { sign(kind.figure, crc, number, body.as_ptr(), body.len(), out.as_mut_ptr(), out.len()) }
}

/// A slice from C, in which a null pointer stands for no octets.
unsafe fn lent<'a>(start: *const u8, octets: usize) -> &'a [u8] {
    if start.is_null() { &[] } else { unsafe { slice::from_raw_parts(start, octets) } }
}

unsafe fn lent_mut<'a>(start: *mut u8, octets: usize) -> &'a mut [u8] {
    if start.is_null() { &mut [] } else { unsafe { slice::from_raw_parts_mut(start, octets) } }
}

/// A table by the bit rule: entry i is what the octet i makes of the register 0.
const fn table(bits: u32, polynomial: u32) -> [u32; 256] {
    let mut entries = [0; 256];
    let mut i = 0;
    while i < 256 {
        let mut register = (i as u32) << (bits - 8);
        let mut bit = 0;
        while bit < 8 {
            let top = register >> (bits - 1) & 1;
            register = (register << 1) & (u32::MAX >> (32 - bits));
            if top == 1 {
                register ^= polynomial;
            }
            bit += 1;
        }
        entries[i] = register;
        i += 1;
    }
    entries
}

static S3_TABLE: [u32; 256] = table(24, 0x5D6DCB);
static S4_TABLE: [u32; 256] = table(32, 0xF4ACFB13);

fn step_s3(register: u32, octet: u8) -> u32 {
    ((register << 8) & 0xff_ffff) ^ S3_TABLE[((register >> 16) as u8 ^ octet) as usize]
}

fn step_s4(register: u32, octet: u8) -> u32 {
    (register << 8) ^ S4_TABLE[((register >> 24) as u8 ^ octet) as usize]
}

/// A number of 24 bits and room for the signature, or the answer that says what is missing.
fn admitted(width: usize, number: u32, room: usize) -> Result<(), Answer> {
    match (number >> 24, room < width) {
        (0, false) => Ok(()),
        (0, true) => Err(too_short(width)),
        _ => Err(no_such()),
    }
}

fn plain_s3(crc: u16, number: u32, body: &[u8], out: &mut [u8]) -> Answer {
    if let Err(answer) = admitted(3, number, out.len()) {
        return answer;
    }
    let [_, high, middle, low] = number.to_be_bytes();
    let mut register = step_s3(step_s3(step_s3(u32::from(crc), high), middle), low);
    for octet in body {
        register = step_s3(register, *octet);
    }
    out[..3].copy_from_slice(&register.to_be_bytes()[1..]);
    done(3)
}

fn plain_s4(crc: u16, number: u32, body: &[u8], out: &mut [u8]) -> Answer {
    if let Err(answer) = admitted(4, number, out.len()) {
        return answer;
    }
    let [_, high, middle, low] = number.to_be_bytes();
    let mut register = step_s4(step_s4(step_s4(u32::from(crc), high), middle), low);
    for octet in body {
        register = step_s4(register, *octet);
    }
    out[..4].copy_from_slice(&register.to_be_bytes());
    done(4)
}

unsafe extern "C" fn plain_sign(
    kind: u8,
    crc: u16,
    number: u32,
    body: *const u8,
    octets: usize,
    out: *mut u8,
    room: usize,
) -> Answer {
    let (body, out) = unsafe { (lent(body, octets), lent_mut(out, room)) };
    match kind {
        3 => plain_s3(crc, number, body, out),
        4 => plain_s4(crc, number, body, out),
        _ => no_such(),
    }
}

/// A fixed series of octets (SplitMix64).
fn octets(count: usize) -> Vec<u8> {
    let mut state = 61784u64;
    let mut all = Vec::with_capacity(count);
    while all.len() < count {
        state = state.wrapping_add(0x9E37_79B9_7F4A_7C15);
        let mut z = state;
        z = (z ^ (z >> 30)).wrapping_mul(0xBF58_476D_1CE4_E5B9);
        z = (z ^ (z >> 27)).wrapping_mul(0x94D0_49BB_1331_11EB);
        all.push((z ^ (z >> 31)) as u8);
    }
    all
}

/// Nanoseconds for one octet, over all frames of a length.
fn timed(sign: Sign, kind: Kind, frames: &[&[u8]]) -> f64 {
    let count: usize = frames.iter().map(|frame| frame.len()).sum();
    let mut out = [0; 4];
    let start = Instant::now();
    for (number, frame) in (0..).zip(frames) {
        black_box(signed(black_box(sign), kind, 0xC357, number, frame, black_box(&mut out[..kind.width])));
    }
    start.elapsed().as_nanos() as f64 / count as f64
}

/// Both sides give the same answers and signatures, and leave alone what they do not write.
/// Every eighth number may have more than 24 bits.
fn agree(kind: Kind, all: &[u8]) {
    for length in (0..=130).chain([all.len()]) {
        for (i, chunk) in all.chunks(length.max(1)).take(200).enumerate() {
            let frame = &chunk[..length.min(chunk.len())];
            let (crc, any) = ((i * 40_503 + length) as u16, (i * 83_890_441 + length) as u32);
            let number = if i % 8 == 7 { any } else { any & 0xff_ffff };
            for room in 0..6 {
                let (mut ours, mut theirs) = ([0xA5; 6], [0xA5; 6]);
                let answers = (
                    signed(mizkaule_raw_sign, kind, crc, number, frame, &mut ours[..room]),
                    signed(plain_sign, kind, crc, number, frame, &mut theirs[..room]),
                );
                let expected = admitted(kind.width, number, room).err().unwrap_or(done(kind.width));
                assert_eq!(answers, (expected, expected), "{}, room for {room} octets", kind.name);
                assert_eq!(ours, theirs, "{}, {length} octets", kind.name);
            }
        }
    }
}

/// Prints the times, and gives the largest ratio.
fn compare(kind: Kind, all: &[u8]) -> f64 {
    agree(kind, all);
    let name = kind.name;
    let mut largest = 0.0f64;
    for length in [12, 123, all.len()] {
        let frames: Vec<&[u8]> = all.chunks_exact(length).collect();
        let (mut ours, mut theirs) = (f64::MAX, f64::MAX);
        for _ in 0..100 {
            ours = ours.min(timed(mizkaule_raw_sign, kind, &frames));
            theirs = theirs.min(timed(plain_sign, kind, &frames));
        }
        let ratio = ours / theirs;
        println!("{name} {length:>8} octets: proved {ours:.3}, plain {theirs:.3} ns per octet, ratio {ratio:.3}");
        largest = largest.max(ratio);
    }
    largest
}

fn main() {
    let all = octets(1 << 20);
    let largest = compare(S3, &all).max(compare(S4, &all));
    println!("largest ratio {largest:.3}, at most {MOST} is wanted");
    if largest > MOST {
        exit(1);
    }
}
