//! Holds this replay against the proved one, in process or by starting a program.

use crate::findings::Findings;
use crate::generate::{self, BlockCase, FrameCase, Rng};
use crate::proved::{self, Answer};
use crate::replay::{self, Refusal};
use std::io::Write as _;
use std::process::{Command, Stdio};
use std::thread;

/// No text is longer: it has at most 13 octets for each octet of its book.
pub const TEXT_ROOM: usize = 1 << 20;
/// What stands in a buffer before a call, to see what the call leaves alone.
const MARK: u8 = 0xA5;
/// Refusals that no book can bring about.
const NOT_FROM_BOOKS: [usize; 4] = [1, 6, 8, 13];

fn hex(octets: &[u8]) -> String {
    octets.iter().map(|octet| format!("{octet:02X}")).collect()
}

fn end_of_line(octet: &u8) -> bool {
    *octet == b'\n'
}

fn text_mismatch(index: u64, book: &[u8], plain: &[u8], theirs: &[u8], why: &str) -> String {
    let (ours, other) = (plain.split(end_of_line), theirs.split(end_of_line));
    let line = ours.zip(other).take_while(|(a, b)| a == b).count();
    format!(
        "MISMATCH in book {index}: {why}, first in line {}\nbook {}\nsecond reader:\n{}proved:\n{}",
        line + 1,
        hex(book),
        String::from_utf8_lossy(plain),
        String::from_utf8_lossy(theirs)
    )
}

// ---- In process ----

pub fn compare(count: u64, seed: u64) -> bool {
    let mut findings = Findings::default();
    let mut plain = Vec::with_capacity(TEXT_ROOM);
    let mut room = vec![MARK; TEXT_ROOM];
    for index in 0..count {
        let book = generate::book(Rng::new(seed, index));
        plain.clear();
        replay::replay(&book, &mut plain);
        findings.count_text(&plain);
        let spare = if index % 16 == 1 { 0 } else { 64 };
        if let Some(text) = compare_text(index, &book, &plain, spare, &mut room) {
            findings.mismatch(text);
        }
        let mut rng = Rng::new(!seed, index);
        if index % 16 == 0 {
            compare_short(index, &book, &plain, &mut room, &mut rng, &mut findings);
        }
        if index % 4 == 0 {
            compare_block(&generate::block_case(&mut rng), &mut findings);
            compare_frame(&generate::frame_case(&mut rng), &mut rng, &mut findings);
            compare_turned_down(&mut rng, &mut findings);
        }
        if !findings.go_on() {
            break;
        }
    }
    findings.report(&[])
}

/// Lends `spare` octets more than the text needs: the answer, the text and the octets behind it are held against ours.
fn compare_text(
    index: u64,
    book: &[u8],
    plain: &[u8],
    spare: usize,
    room: &mut [u8],
) -> Option<String> {
    let size = plain.len();
    room[size..size + spare].fill(MARK);
    let answer = proved::replay(book, &mut room[..size + spare]);
    let rest_alone = room[size..size + spare].iter().all(|&octet| octet == MARK);
    if answer == Answer::done(size) && room[..size] == *plain && rest_alone {
        return None;
    }
    let again = proved::replay(book, room);
    let theirs = &room[..again.size.min(TEXT_ROOM)];
    let why =
        format!("answer {answer:?} with {spare} octets spare, octets behind alone: {rest_alone}");
    Some(text_mismatch(index, book, plain, theirs, &why))
}

/// A buffer that is too short is refused by 13 and left alone.
fn compare_short(
    index: u64,
    book: &[u8],
    plain: &[u8],
    room: &mut [u8],
    rng: &mut Rng,
    findings: &mut Findings,
) {
    let below = rng.below(plain.len());
    let size = rng.pick(&[0, plain.len() - 1, below]);
    let short = &mut room[..size];
    short.fill(MARK);
    let answer = proved::replay(book, short);
    let expected = Answer::refused(Refusal::new(13, 0), plain.len());
    findings.apart[13] += u64::from(answer.number == 13);
    if answer != expected || short.iter().any(|&octet| octet != MARK) {
        let why = format!("a buffer of {size} octets is answered {answer:?}");
        findings.mismatch(text_mismatch(index, book, plain, &[], &why));
    }
}

fn compare_block(case: &BlockCase, findings: &mut Findings) {
    let BlockCase {
        address,
        rank,
        out_len,
        in_len,
        kind,
        ..
    } = *case;
    let code = proved::code(kind);
    let ours = replay::judge(&case.octets, address, rank, out_len, in_len, kind).err();
    let theirs = proved::judge_block(&case.octets, address, rank, out_len, in_len, code);
    findings.judged += 1;
    if let Some(refusal) = ours {
        findings.apart[usize::from(refusal.number)] += 1;
    }
    let expected = match ours {
        Some(refusal) => Answer::refused(refusal, 0),
        None => Answer::done(0),
    };
    if theirs != expected {
        let text = format!("MISMATCH of a block: {case:X?}\nours {ours:?}\nproved {theirs:?}");
        findings.mismatch(text);
    }
}

fn compare_frame(case: &FrameCase, rng: &mut Rng, findings: &mut Findings) {
    let FrameCase {
        kind, crc, number, ..
    } = *case;
    let code = proved::code(kind);
    let (mut ours, mut theirs) = ([MARK; 8], [MARK; 8]);
    let room = rng.below(9);
    let signed = replay::sign(kind, crc, number, &case.octets, &mut ours[..room]);
    let answer = proved::sign(code, crc, number, &case.octets, &mut theirs[..room]);
    let expected = match signed {
        Ok(size) => Answer::done(size),
        Err(refusal) => Answer::refused(refusal, kind.width()),
    };
    findings.signed += 1;
    if ours != theirs || answer != expected {
        findings.mismatch(format!(
            "MISMATCH of a signature: {case:X?} room {room}\nours {signed:?} {ours:02X?}\nproved {answer:?} {theirs:02X?}"
        ));
    }
    let fits = replay::fits(kind, crc, number, &case.frame);
    let answer = proved::fits(code, crc, number, &case.frame);
    if answer != Answer::done(usize::from(fits)) {
        let text = format!("MISMATCH of fitting: {case:X?}\nours {fits}\nproved {answer:?}");
        findings.mismatch(text);
    }
}

/// Kind codes and numbers that are none must be turned down by the interface.
fn compare_turned_down(rng: &mut Rng, findings: &mut Findings) {
    let no_kind = rng.pick(&[0, 1, 2, 5, 18, 20, 255]);
    let no_number = rng.pick(&[0x100_0000, 0x8000_0000, u32::MAX]);
    let kind = proved::code(generate::any_kind(rng));
    let mut out = [MARK; 8];
    let answers = [
        proved::judge_block(&[0; 10], 1, 3, 0, 0, no_kind),
        proved::sign(no_kind, 1, 1, &[1], &mut out),
        proved::sign(kind, 1, no_number, &[1], &mut out),
        proved::fits(no_kind, 1, 1, &[1, 2, 3, 4]),
        proved::fits(kind, 1, no_number, &[1, 2, 3, 4]),
    ];
    let turned_down = |answer: &Answer| *answer == Answer::NO_SUCH;
    if !answers.iter().all(turned_down) || out != [MARK; 8] {
        findings.mismatch(format!(
            "MISMATCH: kind {no_kind} or number {no_number:X}h is not turned down: {answers:?}"
        ));
    }
}

// ---- With a program ----

const THREADS: u64 = 2;

/// Starts the program once for each book.
pub fn run(program: &str, count: u64, seed: u64) -> bool {
    let mut findings = Findings::default();
    thread::scope(|scope| {
        let share = |first| move || run_share(program, first, count, seed);
        let workers: Vec<_> = (0..THREADS)
            .map(|first| scope.spawn(share(first)))
            .collect();
        for worker in workers {
            findings.join(worker.join().expect("a worker ended early"));
        }
    });
    findings.report(&NOT_FROM_BOOKS)
}

fn run_share(program: &str, first: u64, count: u64, seed: u64) -> Findings {
    let mut findings = Findings::default();
    let mut plain = Vec::new();
    for index in (first..count).step_by(THREADS as usize) {
        let book = generate::book(Rng::new(seed, index));
        plain.clear();
        replay::replay(&book, &mut plain);
        findings.count_text(&plain);
        match start(program, &book) {
            Ok(theirs) if theirs == plain => {}
            Ok(theirs) => {
                let text = text_mismatch(index, &book, &plain, &theirs, "the texts differ");
                findings.mismatch(text);
            }
            Err(why) => {
                let text = text_mismatch(index, &book, &plain, &[], &why);
                findings.mismatch(text);
            }
        }
        if !findings.go_on() {
            break;
        }
    }
    findings
}

/// What the program prints for the book. A program may stop reading after 65,536 octets.
fn start(program: &str, book: &[u8]) -> Result<Vec<u8>, String> {
    let mut child = Command::new(program)
        .stdin(Stdio::piped())
        .stdout(Stdio::piped())
        .spawn()
        .map_err(|error| format!("{program} does not start: {error}"))?;
    let mut input = child.stdin.take().expect("the input is piped");
    let output = thread::scope(|scope| {
        scope.spawn(move || input.write_all(book));
        child.wait_with_output()
    });
    let output = output.map_err(|error| format!("{program} cannot be read: {error}"))?;
    if !output.status.success() {
        return Err(format!("{program} ended with {}", output.status));
    }
    Ok(output.stdout)
}
