//! A seeded generator of shift books, valid and damaged, and of blocks and frames to judge.

use crate::replay::{par_crc, sign, Bench, Call, Frame, Kind, Pair, Setup, LONGEST_BOOK};

/// The generator splitmix64.
pub struct Rng(u64);

impl Rng {
    pub fn new(seed: u64, index: u64) -> Rng {
        let mut outer = Rng(seed);
        Rng(outer.next() ^ index.wrapping_mul(0xD1B5_4A32_D192_ED03))
    }

    pub fn next(&mut self) -> u64 {
        self.0 = self.0.wrapping_add(0x9E37_79B9_7F4A_7C15);
        let mut word = self.0;
        word = (word ^ word >> 30).wrapping_mul(0xBF58_476D_1CE4_E5B9);
        word = (word ^ word >> 27).wrapping_mul(0x94D0_49BB_1331_11EB);
        word ^ word >> 31
    }

    /// A number from 0 to `limit - 1`.
    pub fn below(&mut self, limit: usize) -> usize {
        (((self.next() >> 32) * limit as u64) >> 32) as usize
    }

    pub fn percent(&mut self, percent: usize) -> bool {
        self.below(100) < percent
    }

    pub fn pick<T: Copy>(&mut self, from: &[T]) -> T {
        from[self.below(from.len())]
    }

    pub fn octet(&mut self) -> u8 {
        self.next() as u8
    }

    pub fn octets(&mut self, count: usize) -> Vec<u8> {
        let mut octets = vec![0; count];
        for eight in octets.chunks_mut(8) {
            let word = self.next().to_le_bytes();
            eight.copy_from_slice(&word[..eight.len()]);
        }
        octets
    }
}

// ---- Blocks ----

fn address(rng: &mut Rng) -> u16 {
    match rng.below(4) {
        0 => rng.pick(&[1, 2, 0xFF, 0x100, 0xFF00, 0xFFFE]),
        _ => 1 + rng.below(0xFFFE) as u16,
    }
}

fn watch_time(rng: &mut Rng) -> u16 {
    match rng.below(10) {
        0..=4 => 1 + rng.below(20) as u16,
        5..=7 => 100,
        8 => rng.pick(&[0xFF, 0x100, 0x7FFF, 0x8000, 0xFFFF]),
        _ => 1 + rng.below(0xFFFF) as u16,
    }
}

/// A block for a signature width, good but for the refusals whose bit is set in `faults`.
fn block(rng: &mut Rng, width: usize, faults: u16) -> [u8; 10] {
    let has = |number: u16| faults & 1 << number != 0;
    let mut block = [0; 10];
    block[0] = rng.octet() & 0x0D | if width == 4 { 0x20 } else { 0 };
    block[1] = 0x40;
    let (source, destination, watch) = (address(rng), address(rng), watch_time(rng));
    block[2..4].copy_from_slice(&source.to_be_bytes());
    block[4..6].copy_from_slice(&destination.to_be_bytes());
    block[6..8].copy_from_slice(&watch.to_be_bytes());
    if has(3) {
        let wrong = rng.below(3);
        block[0] |= if wrong != 1 {
            rng.pick(&[0x02, 0x40, 0x80, 0xC2])
        } else {
            0
        };
        block[1] ^= if wrong != 0 { 1 << rng.below(8) } else { 0 };
    }
    if has(4) {
        block[2..4].fill(rng.pick(&[0, 0xFF]));
    }
    if has(5) {
        block[4..6].fill(rng.pick(&[0, 0xFF]));
    }
    if has(7) {
        block[6..8].fill(0);
    }
    if has(9) {
        block[0] = block[0] & 0xCF | rng.pick(&[0x10, 0x30]);
    }
    let crc = par_crc(&block[..8]);
    block[8..].copy_from_slice(&crc.to_be_bytes());
    if has(2) {
        block[rng.below(10)] ^= 1 << rng.below(8);
    }
    block
}

fn some_faults(rng: &mut Rng, percent: usize) -> u16 {
    (2..10).fold(0, |faults, number| {
        faults | u16::from(rng.percent(percent)) << number
    })
}

/// What a judge of blocks is asked.
#[derive(Debug)]
pub struct BlockCase {
    pub octets: Vec<u8>,
    pub address: u16,
    pub rank: u8,
    pub out_len: usize,
    pub in_len: usize,
    pub kind: Kind,
}

pub fn block_case(rng: &mut Rng) -> BlockCase {
    let kind = any_kind(rng);
    let width = if rng.percent(85) {
        kind.width()
    } else {
        7 - kind.width()
    };
    let faults = some_faults(rng, 6);
    let mut octets = block(rng, width, faults).to_vec();
    let own = u16::from_be_bytes([octets[4], octets[5]]);
    match rng.below(40) {
        0 => octets.truncate(rng.below(10)),
        1 => octets.push(rng.octet()),
        2 => octets.resize(rng.pick(&[12, 20, 266]), 0),
        3 => octets = rng.octets(10),
        _ => {}
    }
    let address = match rng.below(8) {
        0 => address(rng),
        1 => own ^ 1 << rng.below(16),
        _ => own,
    };
    let rank = rng.pick(&[0, 1, 2, 3, 3, 3, 3, 3, 4, 255]);
    let (out_len, in_len) = (judged_len(rng, kind), judged_len(rng, kind));
    BlockCase {
        octets,
        address,
        rank,
        out_len,
        in_len,
        kind,
    }
}

fn judged_len(rng: &mut Rng, kind: Kind) -> usize {
    match rng.below(12) {
        0 => rng.pick(&[
            13,
            123,
            124,
            255,
            256,
            259,
            1 << 16,
            usize::MAX - 9,
            usize::MAX,
        ]),
        1 => kind.limit() + 1,
        2 => kind.limit(),
        _ => rng.below(kind.limit() + 1),
    }
}

// ---- Frames ----

/// What signing and fitting are asked. `frame` fits the number unless it was damaged.
#[derive(Debug)]
pub struct FrameCase {
    pub kind: Kind,
    pub crc: u16,
    pub number: u32,
    pub octets: Vec<u8>,
    pub frame: Vec<u8>,
}

pub fn any_kind(rng: &mut Rng) -> Kind {
    rng.pick(&[Kind::S3, Kind::S4, Kind::C3])
}

pub fn frame_case(rng: &mut Rng) -> FrameCase {
    let kind = any_kind(rng);
    let any_crc = rng.next() as u16;
    let crc = rng.pick(&[0, 1, 0xC357, 0xFFFF, any_crc, any_crc]);
    let number = any_number(rng);
    let any_count = rng.below(32);
    let count = rng.pick(&[0, 1, 13, 124, 300, any_count, any_count]);
    let octets = rng.octets(count);
    let signed_under = if rng.percent(80) {
        number
    } else {
        any_number(rng)
    };
    let mut frame = signed(kind, crc, signed_under, &octets);
    match rng.below(6) {
        0 => flip(rng, &mut frame),
        1 => burst(rng, &mut frame, kind.width() * 8),
        2 => frame.truncate(rng.below(6)),
        _ => {}
    }
    FrameCase {
        kind,
        crc,
        number,
        octets,
        frame,
    }
}

fn any_number(rng: &mut Rng) -> u32 {
    match rng.below(3) {
        0 => rng.pick(&[0, 1, 2, 0xFF, 0x100, 0xFFFF, 0x1_0000, 0xFF_FFFE, 0xFF_FFFF]),
        _ => rng.next() as u32 & 0xFF_FFFF,
    }
}

fn signed(kind: Kind, crc: u16, number: u32, octets: &[u8]) -> Vec<u8> {
    let mut signature = [0; 4];
    sign(kind, crc, number, octets, &mut signature).expect("four octets are room enough");
    [octets, &signature[..kind.width()]].concat()
}

fn flip(rng: &mut Rng, octets: &mut [u8]) {
    if !octets.is_empty() {
        octets[rng.below(octets.len())] ^= 1 << rng.below(8);
    }
}

/// Changes some bits of at most `span` in a row.
fn burst(rng: &mut Rng, octets: &mut [u8], span: usize) {
    let first = rng.below(octets.len() * 8);
    let last = (first + span).min(octets.len() * 8);
    for at in first..last {
        if at == first || rng.percent(50) {
            octets[at / 8] ^= 0x80 >> (at % 8);
        }
    }
}

// ---- Books ----

/// How a shift goes: each figure is a chance in percent.
struct Temper {
    loss: usize,
    oddity: usize,
    ticks: usize,
    operator: usize,
    wish: usize,
}

impl Temper {
    const CALM: Temper = Temper {
        loss: 0,
        oddity: 0,
        ticks: 5,
        operator: 90,
        wish: 5,
    };

    fn any(rng: &mut Rng) -> Temper {
        Temper {
            loss: rng.pick(&[0, 0, 3, 10, 30]),
            oddity: rng.pick(&[0, 3, 8, 20, 60]),
            ticks: rng.pick(&[0, 5, 20]),
            operator: rng.pick(&[20, 60, 90]),
            wish: rng.pick(&[0, 10, 30]),
        }
    }
}

const TO_DEVICE: usize = 0;
const TO_HOST: usize = 1;

/// Writes a book while it drives a model of the bench, so that it knows the frames of both lines.
struct Maker {
    rng: Rng,
    temper: Temper,
    book: Vec<u8>,
    records: usize,
    bench: Bench,
    lines: [Vec<Frame>; 2],
}

/// A book of any sort.
pub fn book(mut rng: Rng) -> Vec<u8> {
    let large = rng.below(20_000) == 0;
    let sort = rng.below(100);
    let temper = Temper::any(&mut rng);
    let mut maker = Maker::new(rng, temper);
    match (large, sort) {
        (true, _) => maker.large(),
        (_, 0) => maker.head(),
        (_, 1..=2) => maker.noise(),
        (_, 3..=5) => maker.loose_records(),
        (_, 6..=79) => maker.shift(),
        _ => {
            maker.shift();
            maker.damage();
        }
    }
    maker.book
}

/// A book that reads to its end, of a shift that goes fairly well.
pub fn valid_book(rng: Rng) -> Vec<u8> {
    let mut maker = Maker::new(rng, Temper::CALM);
    maker.temper.oddity = maker.rng.pick(&[0, 3, 10]);
    maker.temper.loss = maker.rng.pick(&[0, 3, 10]);
    maker.shift();
    maker.book
}

/// A book that begins with a good block and goes on with as many of the same record as there is room for.
pub fn monotonous_book(width: usize, data_len: u8, kind: u8, body: &[u8]) -> Vec<u8> {
    let mut maker = Maker::new(Rng(1), Temper::CALM);
    let block = block(&mut maker.rng, width, 0);
    maker.put(1, &[&[data_len, data_len], &block[..]].concat());
    while maker.book.len() + 3 + body.len() <= LONGEST_BOOK {
        maker.put(kind, body);
    }
    maker.book
}

impl Maker {
    fn new(rng: Rng, temper: Temper) -> Maker {
        Maker {
            rng,
            temper,
            book: vec![1],
            records: 0,
            bench: Bench::default(),
            lines: [Vec::new(), Vec::new()],
        }
    }

    /// Writes a record, and has the model make its call if it is one.
    fn put(&mut self, kind: u8, body: &[u8]) {
        let place = self.book.len();
        let length = (body.len() + 1) as u16;
        self.book.extend_from_slice(&length.to_be_bytes());
        self.book.push(kind);
        self.book.extend_from_slice(body);
        self.records += 1;
        let Some(call) = Call::read(kind, body) else {
            return;
        };
        let answer = self.bench.call(place, &call);
        let line = match call {
            Call::HostOffer(..) => TO_DEVICE,
            Call::DeviceOffer(..) => TO_HOST,
            _ => return,
        };
        if let (Ok(_), Some(pair)) = (answer, &self.bench.pair) {
            self.lines[line].push(pair.sent);
        }
    }

    fn pair(&self) -> Option<&Pair> {
        self.bench.pair.as_ref()
    }

    /// The setup of the pair; before the block, one that makes plausible records.
    fn setup(&self) -> Setup {
        let none = Setup {
            kind: Kind::S3,
            crc: 0xC357,
            watch: 100,
            out_len: 2,
            in_len: 3,
        };
        self.pair().map_or(none, |pair| pair.host.setup)
    }

    fn data_len(&self, line: usize) -> usize {
        [self.setup().out_len, self.setup().in_len][line]
    }

    // ---- Sorts of books ----

    fn head(&mut self) {
        match self.rng.below(4) {
            0 => self.book.clear(),
            1 => self.book = vec![1],
            2 => self.book = vec![self.rng.octet()],
            _ => {
                self.shift();
                self.book[0] = self.rng.octet();
            }
        }
    }

    fn noise(&mut self) {
        let count = self.rng.below(120);
        self.book = self.rng.octets(count);
        if count > 4 && self.rng.percent(80) {
            self.book[..4].copy_from_slice(&[1, 0, 2, 8]);
        }
    }

    fn loose_records(&mut self) {
        if self.rng.percent(70) {
            self.good_block();
        }
        for _ in 0..self.rng.below(40) {
            self.loose_record();
        }
    }

    fn shift(&mut self) {
        self.before_block();
        self.good_block();
        let goal = match self.rng.below(100) {
            0..=1 => 100 + self.rng.below(300),
            2..=9 => self.rng.below(60),
            _ => 8 + self.rng.below(20) + self.rng.below(26),
        };
        self.rounds(goal, usize::MAX);
    }

    /// A book near the largest size or above it.
    fn large(&mut self) {
        let size = match self.rng.below(3) {
            0 => LONGEST_BOOK + self.rng.below(4) - 2,
            1 => LONGEST_BOOK + 5 - self.rng.below(200),
            _ => 60_000 + self.rng.below(8_000),
        };
        self.good_block();
        self.temper = Temper::CALM;
        self.temper.oddity = self.rng.pick(&[0, 0, 5]);
        match self.rng.below(3) {
            0 => self.rounds(usize::MAX, size - 400),
            1 => {
                while self.book.len() + 3 <= size {
                    self.put(3, &[]);
                }
            }
            _ => {}
        }
        let left = size.saturating_sub(self.book.len());
        match left {
            0..=2 => self.book.resize(size, 0),
            _ => self.put(5, &vec![0x50; left - 3]),
        }
    }

    // ---- A shift ----

    fn before_block(&mut self) {
        if self.rng.percent(12) {
            for _ in 0..1 + self.rng.below(3) {
                self.loose_record();
            }
        }
        if self.rng.percent(20) {
            for _ in 0..1 + self.rng.below(4) {
                self.refused_block();
            }
        }
    }

    fn good_block(&mut self) {
        let width = self.rng.pick(&[3, 4]);
        let out_len = self.good_len(width);
        let in_len = if self.rng.percent(30) {
            out_len
        } else {
            self.good_len(width)
        };
        let block = block(&mut self.rng, width, 0);
        self.put(1, &[&[out_len, in_len], &block[..]].concat());
    }

    fn good_len(&mut self, width: usize) -> u8 {
        let long = if width == 3 { 12 } else { 123 };
        match self.rng.below(10) {
            0..=6 => self.rng.below(9) as u8,
            7 => long,
            8 => self.rng.below(13) as u8,
            _ => self.rng.below(usize::from(long) + 1) as u8,
        }
    }

    fn refused_block(&mut self) {
        let width = self.rng.pick(&[3, 4]);
        let long = if width == 3 { 12 } else { 123 };
        let more = if self.rng.percent(30) { 25 } else { 0 };
        let faults = 1 << self.rng.pick(&[2, 3, 4, 5, 7, 9]) | some_faults(&mut self.rng, more);
        let mut block_faults = faults;
        let mut lens = [self.good_len(width), self.good_len(width)];
        if faults & 1 << 9 != 0 && self.rng.percent(50) {
            block_faults ^= 1 << 9;
            let above = [long + 1, 255, long + 1 + self.rng.below(132) as u8];
            lens[self.rng.below(2)] = self.rng.pick(&above);
        }
        let block = block(&mut self.rng, width, block_faults);
        self.put(1, &[&lens, &block[..]].concat());
    }

    /// Rounds of exchange, until there are so many records or octets.
    fn rounds(&mut self, records: usize, octets: usize) {
        let mut turn = 0;
        while self.records < records && self.book.len() < octets {
            if !self.rng.percent(self.temper.loss) {
                match turn {
                    0 => self.offer(TO_DEVICE),
                    1 => self.hand_over(TO_DEVICE),
                    2 => self.offer(TO_HOST),
                    _ => self.hand_over(TO_HOST),
                }
            }
            turn = (turn + 1) % 4;
            if self.rng.percent(self.temper.oddity) {
                self.oddity();
            }
            if self.rng.percent(self.temper.ticks) {
                self.few_ticks();
            }
            let awaited = self.pair().is_some_and(|pair| pair.host.awaits_press());
            if awaited && self.rng.percent(self.temper.operator) {
                self.put(8, &[0]);
                self.put(8, &[1]);
            }
        }
    }

    fn offer(&mut self, line: usize) {
        let odd = self.rng.percent(self.temper.wish);
        let highest = [1, 3][line];
        let first = if odd {
            self.rng.below(highest + 1) as u8
        } else {
            0
        };
        let values = self.rng.octets(self.data_len(line));
        self.put([2, 4][line], &[&[first], &values[..]].concat());
    }

    fn hand_over(&mut self, line: usize) {
        if let Some(frame) = self.lines[line].last().copied() {
            self.put([3, 5][line], frame.octets());
        }
    }

    fn few_ticks(&mut self) {
        let quarter = usize::from(self.setup().watch) / 4;
        let ticks = self.rng.below(quarter + 1) as u16;
        let kind = self.rng.pick(&[6, 7]);
        self.put(kind, &ticks.to_be_bytes());
    }

    // ---- Oddities ----

    fn oddity(&mut self) {
        let line = self.rng.below(2);
        match self.rng.below(15) {
            0 => self.offer(line),
            1 => self.hand_over(line),
            2..=3 => self.hand_over_earlier(line),
            4..=5 => self.hand_over_damaged(line),
            6 => self.hand_over_wrong_length(line),
            7..=8 => self.hand_over_made_up(line),
            9..=10 => self.many_ticks(),
            11 => self.wrong_offer(line),
            12 => {
                for _ in 0..1 + self.rng.below(4) {
                    let reading = self.rng.pick(&[0, 0, 0, 0, 1, 1, 1, 1, 2, 255]);
                    self.put(8, &[reading]);
                }
            }
            13 => self.loose_record(),
            _ => match self.rng.below(4) {
                0 => self.good_block(),
                1 => self.refused_block(),
                _ => self.hand_over_astray(line),
            },
        }
    }

    /// Frames that were held back, the newest of them first, or one of long ago.
    fn hand_over_earlier(&mut self, line: usize) {
        let count = self.lines[line].len();
        if count == 0 {
            return;
        }
        let (first, how_many) = match self.rng.below(3) {
            0 => (self.rng.below(count.min(3)), 1),
            1 => (count - 1 - self.rng.below(count.min(4)), 1),
            _ => (count - 1, 1 + self.rng.below(count.min(3))),
        };
        for back in 0..how_many.min(first + 1) {
            let frame = self.lines[line][first - back];
            self.put([3, 5][line], frame.octets());
        }
    }

    fn hand_over_damaged(&mut self, line: usize) {
        let Some(frame) = self.lines[line].last().copied() else {
            return;
        };
        let mut octets = frame.octets().to_vec();
        let span = self.setup().kind.width() * 8;
        match self.rng.below(4) {
            0 => flip(&mut self.rng, &mut octets),
            1 => burst(&mut self.rng, &mut octets, span),
            2 => (0..3).for_each(|_| flip(&mut self.rng, &mut octets)),
            _ => octets = self.rng.octets(octets.len()),
        }
        self.put([3, 5][line], &octets);
    }

    fn hand_over_wrong_length(&mut self, line: usize) {
        let newest = self.lines[line].last().copied().unwrap_or(Frame::NONE);
        let mut octets = newest.octets().to_vec();
        match self.rng.below(5) {
            0 => octets.truncate(self.rng.below(octets.len() + 1)),
            1 => drop(octets.pop()),
            2 => octets.push(self.rng.octet()),
            3 => octets.insert(0, 0),
            _ => {
                let count = self.rng.below(160);
                octets = self.rng.octets(count);
            }
        }
        self.put([3, 5][line], &octets);
    }

    /// A frame with any control or status octet, signed under a number that an end may look for.
    fn hand_over_made_up(&mut self, line: usize) {
        let setup = self.setup();
        let Some(pair) = self.pair() else {
            return;
        };
        let (host, device) = (pair.host.number, pair.device.number);
        let near = [
            0,
            host,
            host,
            host.saturating_sub(1),
            device,
            device + 1,
            device + 1,
        ];
        let number = match self.rng.below(16) {
            0 => any_number(&mut self.rng),
            _ => self.rng.pick(&near),
        };
        let named = [
            0x00, 0x02, 0x04, 0x10, 0x14, 0x20, 0x24, 0x30, 0x34, 0x40, 0x50, 0x60, 0x48,
        ];
        let octet = match self.rng.below(3) {
            0 => self.rng.pick(&named),
            1 => self.rng.pick(&named) ^ 1 << self.rng.below(8),
            _ => self.rng.octet() & self.rng.octet(),
        };
        let mut octets = self.rng.octets(self.data_len(line));
        octets.push(octet);
        let frame = signed(setup.kind, setup.crc, number, &octets);
        self.put([3, 5][line], &frame);
    }

    /// A frame of the other line.
    fn hand_over_astray(&mut self, line: usize) {
        if let Some(frame) = self.lines[1 - line].last().copied() {
            self.put([3, 5][line], frame.octets());
        }
    }

    /// Ticks that reach the watch time just not, just, or by far.
    fn many_ticks(&mut self) {
        let watch = u32::from(self.setup().watch);
        let kind = self.rng.pick(&[6, 7]);
        let counted = match self.pair() {
            Some(pair) if kind == 6 => pair.host.ticks,
            Some(pair) => pair.device.ticks,
            None => 0,
        };
        let left = watch.saturating_sub(counted);
        let near = [
            0,
            1,
            left,
            left + 1,
            left.saturating_sub(1),
            left.saturating_sub(1),
        ];
        let ticks = match self.rng.below(12) {
            0 => self.rng.next() as u16,
            1 => 0xFFFF,
            _ => self.rng.pick(&near).min(0xFFFF) as u16,
        };
        self.put(kind, &ticks.to_be_bytes());
    }

    fn wrong_offer(&mut self, line: usize) {
        let good = self.data_len(line);
        let mut first = self.rng.pick(&[0, 1]);
        let mut count = good;
        let wrong = self.rng.below(3);
        if wrong != 0 {
            first = self.rng.pick(&[2, 3, 4, 5, 7, 0x80, 0xFF]);
        }
        if wrong != 1 {
            let others = [
                0,
                good + 1,
                good.saturating_sub(1),
                good + 256,
                self.rng.below(130),
            ];
            count = self.rng.pick(&others);
        }
        let values = self.rng.octets(count);
        self.put([2, 4][line], &[&[first], &values[..]].concat());
    }

    /// A record of any of the eight kinds, with a body that the kind takes.
    fn loose_record(&mut self) {
        match self.rng.below(12) {
            0 => self.refused_block(),
            1..=2 => self.offer(TO_DEVICE),
            3..=4 => self.offer(TO_HOST),
            5 => self.hand_over_wrong_length(TO_DEVICE),
            6 => self.hand_over_wrong_length(TO_HOST),
            7 => self.hand_over(TO_DEVICE),
            8 => self.hand_over(TO_HOST),
            9 => self.few_ticks(),
            10 => self.many_ticks(),
            _ => {
                let reading = self.rng.below(3) as u8;
                self.put(8, &[reading]);
            }
        }
    }

    // ---- Damage to the book ----

    fn damage(&mut self) {
        let size = self.book.len();
        let at = self.rng.below(size);
        match self.rng.below(10) {
            0..=2 => {
                for _ in 0..1 + self.rng.below(4) {
                    let at = self.rng.below(size);
                    self.book[at] = self.rng.octet();
                }
            }
            3 => flip(&mut self.rng, &mut self.book),
            4..=5 => self.book.truncate(at),
            6 => drop(self.book.remove(at)),
            7 => self.book.insert(at, self.rng.octet()),
            _ => self.wrong_record(),
        }
    }

    /// A last record that is none.
    fn wrong_record(&mut self) {
        match self.rng.below(7) {
            0 => self.book.push(0),
            1 => self.book.extend_from_slice(&[0, 0]),
            2 => self.book.extend_from_slice(&[0, 3, 8, 1]),
            3 => self.book.extend_from_slice(&[0xFF, 0xFF, 3]),
            4 => {
                let kind = self.rng.pick(&[0, 9, 10, 0x80, 0xFF]);
                self.put(kind, &[0, 1]);
            }
            5 => {
                let kind = self.rng.pick(&[1, 2, 4, 6, 7, 8]);
                let count = match kind {
                    2 | 4 => 0,
                    _ => self.rng.pick(&[0, 3, 10, 11, 13, 14, 268]),
                };
                let body = self.rng.octets(count);
                self.put(kind, &body);
            }
            _ => self.book.extend_from_slice(&[0]),
        }
        if self.rng.percent(50) {
            self.put(8, &[1]);
        }
    }
}
