// host.rs: a host in Rust. host SESSION.. (each SESSION.in beside SESSION.out) replays the sessions frame by frame and by
// feeding, compares, tries every start, three bytes of every kind, lines with every kind of fault, bursts beside single steps,
// records with every kind of fault and sessions at their edges, and says what it did.
use std::process::exit;

/// The library's records and functions. fio.h says of each what it gives back.
mod fio {
    #[repr(C)]
    #[derive(Clone, Copy, PartialEq, Debug)]
    pub struct Side {
        pub control0: u8,
        pub control1: u8,
        pub ip: u8,
        pub ie: u8,
        pub ius: u8,
        pub vector: u8,
        pub compare: u8,
        pub pattern: u8,
        pub mask: u8,
        pub pointer: u8,
        pub state1: u8,
        pub run: u8,
        pub frozen: u8,
        pub message: u8,
        pub waiting: u8,
    }

    #[repr(C)]
    #[derive(Clone, Copy, PartialEq, Debug)]
    pub struct Control {
        pub pins: u8,
        pub one: Side,
        pub two: Side,
        pub control2: u8,
        pub control3: u8,
        pub start: u8,
        pub count: u8,
    }

    #[repr(C)]
    #[derive(Clone, Copy, PartialEq, Debug)]
    pub struct Answer {
        pub number: u8,
        pub value: u8,
    }

    impl Answer {
        /// The refusal that it tells, or a printed line by its first two fields: 1, 2, 3, 5 or 41 to 45; 0 if it is none. Not for a burst's number.
        pub fn refusal(self) -> u8 {
            match self.number {
                super::REFUSED_FRAME => 40 + self.value / 16,
                super::REFUSED_RECORD..=0xFF => self.number % 16,
                _ => 0,
            }
        }

        /// Its column, 1 to 7, or 0 if it is not one of 41 to 45.
        pub fn column(self) -> u8 {
            match self.number {
                super::REFUSED_FRAME => self.value % 16,
                _ => 0,
            }
        }
    }

    #[repr(C)]
    #[derive(Clone, Copy, PartialEq, Debug)]
    pub struct Fault {
        pub refusal: u8,
        pub column: u8,
    }

    #[repr(C)]
    #[derive(Clone, Copy, PartialEq, Debug)]
    pub struct Stepped {
        pub control: Control,
        pub answer: Answer,
    }

    #[repr(C)]
    #[derive(Clone, Copy, PartialEq, Debug)]
    pub struct Burst {
        pub control: Control,
        pub number: u8,
        pub moved: u16,
    }

    #[repr(C)]
    #[derive(Clone, Copy, PartialEq, Debug)]
    pub struct Session {
        pub value: u32,
        pub digits: u8,
        pub fault: u8,
        pub present: u8,
        pub control: Control,
    }

    #[repr(C)]
    #[derive(Clone, Copy, PartialEq, Debug)]
    pub struct Fed {
        pub session: Session,
        pub used: usize,
        pub written: usize,
        pub answer: Answer,
    }

    // The layout of fio.h: records of bytes have no padding, a session has it at its end, and two words stand behind it.
    const _: () = assert!(std::mem::size_of::<Side>() == 15 && std::mem::size_of::<Control>() == 35);
    const _: () = assert!(std::mem::size_of::<Answer>() == 2 && std::mem::size_of::<Stepped>() == 37);
    const _: () = assert!(std::mem::size_of::<Fault>() == 2);
    const _: () = assert!(std::mem::size_of::<Burst>() == 38 && std::mem::align_of::<Burst>() == 2);
    const _: () = assert!(std::mem::size_of::<Session>() == 44 && std::mem::size_of::<Fed>() == 72);
    const _: () = {
        // each byte is its own offset, so that a field tells where it stands
        let mut bytes = [0; 72];
        let mut at = 0;
        while at < 72 {
            bytes[at] = at as u8;
            at += 1;
        }
        let fed: Fed = unsafe { std::mem::transmute(bytes) };
        assert!(fed.session.control.pins == 7 && fed.session.control.count == 41);
        assert!(fed.used as u8 == 48 && fed.written as u8 == 56 && fed.answer.number == 64);
    };

    mod linked {
        use super::*;

        extern "C" {
            pub fn fio_start(pins: u8, buffer: *mut u8) -> Stepped;
            pub fn fio_step(control: Control, buffer: *mut u8, kind: u8, address: u8, data: u8) -> Stepped;
            pub fn fio_line_fault(line: *const u8, length: usize) -> Fault;
            pub fn fio_lines(control: Control) -> Answer;
            pub fn fio_count(control: Control) -> Answer;
            pub fn fio_burst_in(control: Control, buffer: *mut u8, side: u8, memory: *const u8, length: usize) -> Burst;
            pub fn fio_burst_out(control: Control, buffer: *mut u8, side: u8, memory: *mut u8, length: usize) -> Burst;
            pub fn fio_session_start() -> Session;
            pub fn fio_session_feed(
                session: Session,
                buffer: *mut u8,
                input: *const u8,
                length: usize,
                output: *mut u8,
                room: usize,
            ) -> Fed;
            pub fn fio_session_finish(session: Session, buffer: *mut u8, output: *mut u8, room: usize) -> Fed;
        }
    }

    // A reference is not null, has its length, and shares nothing with another: all that fio.h asks of a caller.
    pub fn start(pins: u8, buffer: &mut [u8; 128]) -> Stepped {
        unsafe { linked::fio_start(pins, buffer.as_mut_ptr()) }
    }

    pub fn step(control: Control, buffer: &mut [u8; 128], frame: [u8; 3]) -> Stepped {
        unsafe { linked::fio_step(control, buffer.as_mut_ptr(), frame[0], frame[1], frame[2]) }
    }

    pub fn line_fault(line: &[u8]) -> Fault {
        unsafe { linked::fio_line_fault(line.as_ptr(), line.len()) }
    }

    pub fn lines(control: Control) -> Answer {
        unsafe { linked::fio_lines(control) }
    }

    pub fn count(control: Control) -> Answer {
        unsafe { linked::fio_count(control) }
    }

    pub fn burst_in(control: Control, buffer: &mut [u8; 128], side: u8, memory: &[u8]) -> Burst {
        unsafe { linked::fio_burst_in(control, buffer.as_mut_ptr(), side, memory.as_ptr(), memory.len()) }
    }

    pub fn burst_out(control: Control, buffer: &mut [u8; 128], side: u8, memory: &mut [u8]) -> Burst {
        unsafe { linked::fio_burst_out(control, buffer.as_mut_ptr(), side, memory.as_mut_ptr(), memory.len()) }
    }

    pub fn session_start() -> Session {
        unsafe { linked::fio_session_start() }
    }

    pub fn session_feed(session: Session, buffer: &mut [u8; 128], input: &[u8], output: &mut [u8]) -> Fed {
        let (from, length, to, room) = (input.as_ptr(), input.len(), output.as_mut_ptr(), output.len());
        unsafe { linked::fio_session_feed(session, buffer.as_mut_ptr(), from, length, to, room) }
    }

    pub fn session_finish(session: Session, buffer: &mut [u8; 128], output: &mut [u8]) -> Fed {
        unsafe { linked::fio_session_finish(session, buffer.as_mut_ptr(), output.as_mut_ptr(), output.len()) }
    }
}

const DONE: u8 = 0x00;
const BYTE: u8 = 0x01;
const FLOATING: u8 = 0x02;
const REFUSED_RECORD: u8 = 0xE1;
const REFUSED_PINS: u8 = 0xE3;
const REFUSED_FRAME: u8 = 0xE4;
const REFUSED_NO_CHIP: u8 = 0xE5;
const REFUSED_LENGTH: u8 = 0xE6;
const REFUSED_ROLE: u8 = 0xE7;
const NOT_HEX: u8 = 41;
const TOO_SHORT: u8 = 42;
const TOO_LONG: u8 = 43;
const UNKNOWN_KIND: u8 = 44;
const UNUSED_BYTE: u8 = 45;
const NO_FAULT: fio::Fault = fio::Fault { refusal: 0, column: 0 };
const BURST_LIMIT: usize = 4096;

#[derive(Default)]
struct Verdict {
    failures: usize,
}

impl Verdict {
    fn expect(&mut self, holds: bool, what: &str, which: usize) {
        if !holds {
            self.failures += 1;
            println!("wrong: {}, {}", what, which);
        }
    }
}

// ---- a session, frame by frame

/// A chip where it is held. Before a start the record is one that a refused start hands back.
#[derive(Clone, Copy)]
struct Chip {
    control: fio::Control,
    buffer: [u8; 128],
    present: bool,
}

impl Chip {
    fn none() -> Chip {
        let mut buffer = [0x5A; 128];
        Chip { control: fio::start(0xFF, &mut buffer).control, buffer, present: false }
    }

    fn step(&mut self, frame: [u8; 3]) -> fio::Answer {
        let mut r = fio::step(self.control, &mut self.buffer, frame);
        self.control = r.control;
        if frame[0] == 0x00 && r.answer.number == DONE {
            self.present = true;
        }
        if !self.present && r.answer.number == REFUSED_RECORD {
            r.answer.number = REFUSED_NO_CHIP;
        }
        r.answer
    }
}

/// The three bytes of a line that is six hex digits.
fn bytes_of(line: &[u8]) -> Option<[u8; 3]> {
    let mut frame = [0; 3];
    if line.len() != 6 {
        return None;
    }
    for (i, &c) in line.iter().enumerate() {
        frame[i / 2] = frame[i / 2] * 16 + (c as char).to_digit(16)? as u8;
    }
    Some(frame)
}

/// Three bytes that are no frame have the fault of their line; a line without a fault is a frame.
fn agree(f: fio::Fault, a: fio::Answer) -> bool {
    if a.number == REFUSED_FRAME {
        f.refusal != 0 && f == fio::Fault { refusal: a.refusal(), column: a.column() }
    } else {
        f == NO_FAULT
    }
}

/// An answer E4 with what is wrong.
fn no_frame(f: fio::Fault) -> fio::Answer {
    fio::Answer { number: REFUSED_FRAME, value: f.refusal % 10 * 16 + f.column }
}

/// What is not six hex digits has no three bytes to step: the line's fault is printed, and the chip stays.
fn by_frames(v: &mut Verdict, input: &[u8]) -> Vec<u8> {
    let mut k = Chip::none();
    let mut output = Vec::new();
    let ended = input.last() == Some(&b'\n');
    let whole = if ended { &input[..input.len() - 1] } else { input };
    for (i, line) in whole.split(|&c| c == b'\n').enumerate() {
        let f = fio::line_fault(line);
        let a = match bytes_of(line) {
            Some(frame) => {
                let a = k.step(frame);
                v.expect(agree(f, a), "a line and its three bytes", i);
                a
            }
            None => no_frame(f),
        };
        let (lines, count) = (fio::lines(k.control).value, fio::count(k.control).value);
        let report = format!("{:02X}{:02X}{:02X}{:02X}\n", a.number, a.value, lines, count);
        output.extend_from_slice(report.as_bytes());
    }
    output
}

// ---- a session, by feeding

/// Behind what a call wrote, the output is as it was, and so is what is behind the room.
const UNTOUCHED: u8 = 0xA5;
const BEHIND: usize = 16;

/// A feed, or without an input a finish, and what it wrote.
fn fed(v: &mut Verdict, s: fio::Session, buffer: &mut [u8; 128], input: Option<&[u8]>, room: usize) -> (fio::Fed, Vec<u8>) {
    let mut lent = vec![UNTOUCHED; room + BEHIND];
    let r = match input {
        Some(bytes) => fio::session_feed(s, buffer, bytes, &mut lent[..room]),
        None => fio::session_finish(s, buffer, &mut lent[..room]),
    };
    let written = r.written.min(room);
    let behind = lent[written..].iter().all(|&b| b == UNTOUCHED);
    let within = r.written <= room && r.used <= input.map_or(0, |bytes| bytes.len());
    v.expect(behind && within, "the output behind", room);
    lent.truncate(written);
    (r, lent)
}

const IS_DONE: fio::Answer = fio::Answer { number: DONE, value: 0 };

fn by_feeding(v: &mut Verdict, input: &[u8], piece: usize, room: usize) -> Vec<u8> {
    let mut buffer = [0x5A; 128];
    let mut output = Vec::new();
    let mut s = fio::session_start();
    let mut at = 0;
    while at < input.len() {
        let end = input.len().min(at + piece);
        let (r, printed) = fed(v, s, &mut buffer, Some(&input[at..end]), room);
        v.expect(r.answer == IS_DONE && r.used > 0, "a feed gets on", at);
        if r.used == 0 {
            break;
        }
        output.extend_from_slice(&printed);
        s = r.session;
        at += r.used;
    }
    let (r, printed) = fed(v, s, &mut buffer, None, room);
    v.expect(r.answer == IS_DONE && r.used == 0, "a finish", at);
    output.extend_from_slice(&printed);
    output
}

fn read_file(path: &str) -> Vec<u8> {
    std::fs::read(path).unwrap_or_else(|e| {
        eprintln!("{}: {}", path, e);
        exit(2)
    })
}

fn replay(v: &mut Verdict, name: &str) -> usize {
    let input = read_file(&format!("{}.in", name));
    let known = read_file(&format!("{}.out", name));
    let output = by_frames(v, &input);
    v.expect(output == known, name, 0);
    for &piece in &[1, 2, 7, 61, 1 << 20] {
        for &room in &[9, 23, 4096] {
            let output = by_feeding(v, &input, piece, room);
            v.expect(output == known, name, piece);
        }
    }
    known.iter().filter(|&&c| c == b'\n').count()
}

// ---- starts

/// What a start leaves: all that a side owns zero but Control 0, which is 01; the pins; the rest zero.
fn in_reset(pins: u8) -> fio::Control {
    let side = fio::Side {
        control0: 0x01,
        control1: 0,
        ip: 0,
        ie: 0,
        ius: 0,
        vector: 0,
        compare: 0,
        pattern: 0,
        mask: 0,
        pointer: 0,
        state1: 0,
        run: 0,
        frozen: 0,
        message: 0,
        waiting: 0,
    };
    fio::Control { pins, one: side, two: side, control2: 0, control3: 0, start: 0, count: 0 }
}

/// What a start leaves and the buffer beside it. With refusal 3 the record is `before` and the buffer is as it was.
fn started(pins: u8, before: fio::Control) -> (fio::Stepped, [u8; 128]) {
    if pins <= 2 {
        (fio::Stepped { control: in_reset(pins), answer: IS_DONE }, [0; 128])
    } else {
        (fio::Stepped { control: before, answer: fio::Answer { number: REFUSED_PINS, value: 0 } }, [0x5A; 128])
    }
}

/// fio_start of every pins, and fio_step of kind 00 on the record that it hands back and on another.
fn starts(v: &mut Verdict, k: &Chip) -> usize {
    for pins in 0..=255 {
        let mut lent = [[0x5A; 128]; 3];
        let r = fio::start(pins, &mut lent[0]);
        v.expect((r, lent[0]) == started(pins, in_reset(pins)), "a start", pins as usize);
        let same = fio::step(r.control, &mut lent[1], [0x00, pins, 0]);
        v.expect((same, lent[1]) == (r, lent[0]), "a start by a frame", pins as usize);
        let other = fio::step(k.control, &mut lent[2], [0x00, pins, 0]);
        v.expect((other, lent[2]) == started(pins, k.control), "a start of a chip at work", pins as usize);
        if pins > 2 {
            refuses(v, r.control, &lent[0], false, pins as usize);
        }
    }
    256
}

// ---- faults

/// Both sides live, CLEAR 1, and three bytes in the FIFO, which side 1 writes if the direction is 0, else side 2.
fn working(v: &mut Verdict, direction: u8) -> Chip {
    let mut k = Chip::none();
    let (control3, offer) = if direction == 0 { (0x40, 0x13) } else { (0x50, 0x23) };
    let frames = [
        [0x00, 0, 0],
        [0x11, 0, 0],
        [0x11, 0, 2],
        [0x11, 9, 1],
        [0x21, 0, 0],
        [0x11, 10, control3],
        [offer, 0, 1],
        [offer, 0, 2],
        [offer, 0, 3],
    ];
    for frame in frames {
        let a = k.step(frame);
        v.expect(a.number == DONE, "a working chip", frame[0] as usize);
    }
    v.expect(k.control.control3 == control3 && k.control.count == 3, "its direction and count", direction as usize);
    k
}

fn steps() -> impl Iterator<Item = u8> {
    (0x11..=0x16).chain(0x21..=0x26)
}

fn holding(control: fio::Control) -> fio::Session {
    fio::Session { present: 1, control, ..fio::session_start() }
}

/// A call on a session that is Done: what it leaves, what it used, and its output, so many times one line.
fn left(v: &mut Verdict, (r, printed): (fio::Fed, Vec<u8>), session: fio::Session, used: usize, lines: &[u8], which: usize) {
    let expected = fio::Fed { session, used, written: lines.len(), answer: IS_DONE };
    v.expect(r == expected, "a session's call", which);
    v.expect(printed == lines, "a session's lines", which);
}

/// In a session the refusal is the line's: E1 for each of the twelve steps, and the record stays.
fn refuses_lines(v: &mut Verdict, c: fio::Control, buffer: &[u8; 128], which: usize) {
    let mut lent = *buffer;
    let input: String = steps().map(|kind| format!("{:02X}0000\n", kind)).collect();
    let line = format!("E10000{:02X}\n", c.count);
    let s = holding(c);
    let r = fed(v, s, &mut lent, Some(input.as_bytes()), 12 * 9);
    left(v, r, s, 12 * 7, line.repeat(12).as_bytes(), which);
    let last = fio::Session { value: 0x110000, digits: 6, ..s };
    let r = fed(v, last, &mut lent, None, 9);
    left(v, r, s, 0, line.as_bytes(), which);
    v.expect(lent == *buffer, "a session's buffer", which);
}

/// From memory to the FIFO, or from the FIFO to memory.
#[derive(Clone, Copy, PartialEq)]
enum Way {
    In,
    Out,
}

const WAYS: [Way; 2] = [Way::In, Way::Out];

impl Chip {
    fn burst(&mut self, way: Way, side: u8, memory: &mut [u8]) -> (u8, usize) {
        let r = match way {
            Way::In => fio::burst_in(self.control, &mut self.buffer, side, memory),
            Way::Out => fio::burst_out(self.control, &mut self.buffer, side, memory),
        };
        self.control = r.control;
        (r.number, r.moved as usize)
    }
}

/// A burst that is answered before its first step leaves record, buffer and memory.
fn no_burst(v: &mut Verdict, k: &Chip, way: Way, side: u8, length: usize, number: u8, which: usize) {
    let (mut after, mut memory) = (*k, vec![UNTOUCHED; length + BEHIND]);
    let answer = after.burst(way, side, &mut memory[..length]);
    v.expect(answer == (number, 0), "no burst", which);
    v.expect(after.control == k.control && after.buffer == k.buffer, "all as it was", which);
    v.expect(memory.iter().all(|&b| b == UNTOUCHED), "the memory as it was", which);
}

/// Of a forbidden record each burst is refusal 1, too long a one too.
fn refuses_bursts(v: &mut Verdict, c: fio::Control, buffer: &[u8; 128], which: usize) {
    let k = Chip { control: c, buffer: *buffer, present: true };
    for way in WAYS {
        for (side, length) in [(1, 3), (2, 3), (1, BURST_LIMIT + 1), (2, BURST_LIMIT + 1)] {
            no_burst(v, &k, way, side, length, REFUSED_RECORD, which);
        }
    }
}

/// Each of the twelve steps is refused, and so are the looks if a flag is out of range; no frame is refusal 44 or 45 all the
/// same. No interrupt and no REQUEST is enabled, so a look at the lines is 00.
fn refuses(v: &mut Verdict, c: fio::Control, buffer: &[u8; 128], flag: bool, which: usize) {
    let mut lent = *buffer;
    let no_frames = [([0xFF, 0, 0], 0x41), ([0x16, 1, 0], 0x53), ([0x22, 0, 1], 0x55)];
    let refused = steps().map(|kind| ([kind, 0, 0], REFUSED_RECORD, 0));
    for (frame, number, value) in refused.chain(no_frames.map(|(frame, value)| (frame, REFUSED_FRAME, value))) {
        let r = fio::step(c, &mut lent, frame);
        v.expect(r.answer == fio::Answer { number, value }, "a refusal", which);
        v.expect(r.control == c && lent == *buffer, "all as it was", which);
    }
    let number = if flag { REFUSED_RECORD } else { BYTE };
    v.expect(fio::lines(c) == fio::Answer { number, value: 0 }, "a look at the lines", which);
    v.expect(fio::count(c) == fio::Answer { number, value: if flag { 0 } else { c.count } }, "a look at the count", which);
    if !flag {
        refuses_lines(v, c, buffer, which);
    }
    refuses_bursts(v, c, buffer, which);
    let r = fio::step(c, &mut lent, [0x00, 2, 0]);
    v.expect((r, lent) == started(2, c), "a start replaces it", which);
}

/// What an edit does to a record with each of these bytes, and whether it puts a flag out of range.
type Edit = (fn(&mut fio::Control, u8), &'static [u8], bool);

/// Refusal 1 of a chip at work: each byte of the record that has a rule, at values that break it.
const FAULTS: &[Edit] = &[
    (|c, x| c.start = x, &[128, 255], false),
    (|c, x| c.count = x, &[129, 255], false),
    (|c, x| c.pins = x, &[3, 255], false),
    (|c, x| c.control2 ^= x, &[0x80, 0x40, 0x20, 0x10, 0x08, 0x04], false),
    (|c, x| c.control3 ^= x, &[0x08, 0x04, 0x02, 0x01], false),
    (|c, x| c.control3 ^= x, &[0x40], false), // CLEAR 0 with count 3
    (|c, x| c.two.control0 ^= x, &[0x08, 0x04], false),
    (|c, x| c.two.control0 = x, &[0x81, 0x41, 0x21, 0x11, 0x03], false), // Reset beside another bit
    (|c, x| (c.one.control0, c.control2) = (1, x), &[0x00], false), // side 1 in reset, side 2 not, Control 2 00
    (|c, x| (c.one.control0, c.two.control0) = (x, x), &[0x01], false), // both, and Control 2 not 00
    (|c, x| (sides(c).0.run, c.count) = (1, x), &[128], false), // the writer on a full FIFO
    (|c, x| (sides(c).1.run, c.count) = (1, x), &[0], false), // the reader on an empty one
];

/// The writer and the reader.
fn sides(c: &mut fio::Control) -> (&mut fio::Side, &mut fio::Side) {
    if c.control3 & 0x10 == 0 {
        (&mut c.one, &mut c.two)
    } else {
        (&mut c.two, &mut c.one)
    }
}

/// Of a chip in reset, where each is wrong for one reason alone.
const FAULTS_IN_RESET: &[Edit] = &[
    (|c, x| c.one.control0 ^= x, &[0x80, 0x40, 0x20, 0x10, 0x08, 0x04, 0x02], false), // Reset beside another bit
    (|c, x| c.two.control0 ^= x, &[0x01], false), // side 1 in reset, side 2 not
    (|c, x| c.control2 ^= x, &[0x02, 0x01], false), // side 1 in reset, Control 2 not 00
];

/// Of a chip at work, for either side.
const FAULTS_OF_A_SIDE: &[(fn(&mut fio::Side, u8), &[u8], bool)] = &[
    (|s, x| s.frozen = x, &[129, 255], false),
    (|s, x| s.pointer = x, &[16, 255], false),
    (|s, x| s.control1 ^= x, &[0x80, 0x20, 0x10], false),
    (|s, x| s.ip ^= x, &[1], false),
    (|s, x| s.ie ^= x, &[1], false),
    (|s, x| s.ius ^= x, &[1], false),
    (|s, x| s.state1 = x, &[2, 3, 0x80, 0xFF], true),
    (|s, x| s.run = x, &[2, 3, 0x80, 0xFF], true),
    (|s, x| s.waiting = x, &[2, 3, 0x80, 0xFF], true),
];

fn faulty_bytes(v: &mut Verdict, k: &Chip, table: &[Edit]) -> usize {
    let mut tried = 0;
    for (edit, values, flag) in table {
        for &x in *values {
            let mut c = k.control;
            edit(&mut c, x);
            tried += 1;
            refuses(v, c, &k.buffer, *flag, tried);
        }
    }
    tried
}

fn faulty_sides(v: &mut Verdict, k: &Chip) -> usize {
    let mut tried = 0;
    for side in 0..2 {
        for (edit, values, flag) in FAULTS_OF_A_SIDE {
            for &x in *values {
                let mut c = k.control;
                edit(if side == 0 { &mut c.one } else { &mut c.two }, x);
                tried += 1;
                refuses(v, c, &k.buffer, *flag, tried);
            }
        }
    }
    tried
}

fn faulty_in_reset(v: &mut Verdict) -> usize {
    let mut k = Chip { control: in_reset(0), buffer: [0; 128], present: true };
    v.expect(k.step([0x16, 0, 0]).number == DONE, "a chip in reset", 0);
    faulty_bytes(v, &k, FAULTS_IN_RESET)
}

// ---- lines

/// The kinds, and whether they have a use for the address and for the data.
const KINDS: [(u32, bool, bool); 13] = [
    (0x00, true, false),
    (0x11, true, true),
    (0x12, true, false),
    (0x13, false, true),
    (0x14, false, false),
    (0x15, false, false),
    (0x16, false, false),
    (0x21, true, true),
    (0x22, true, false),
    (0x23, false, true),
    (0x24, false, false),
    (0x25, false, false),
    (0x26, false, false),
];

/// What is wrong with six hex digits, by their value, or with a value above FFFFFF, whose kind is above FF.
fn fault_of_value(value: u32) -> fio::Fault {
    let unused = |column| fio::Fault { refusal: UNUSED_BYTE, column };
    match KINDS.iter().find(|row| row.0 == value >> 16) {
        None => fio::Fault { refusal: UNKNOWN_KIND, column: 1 },
        Some((_, false, _)) if value & 0x00FF00 != 0 => unused(3),
        Some((_, _, false)) if value & 0x0000FF != 0 => unused(5),
        Some(_) => NO_FAULT,
    }
}

/// What is wrong with a line of which the first so many characters are digits, or else all of them.
fn fault_of_shape(length: usize, digits: usize) -> fio::Fault {
    match length {
        _ if digits < 6 && digits < length => fio::Fault { refusal: NOT_HEX, column: digits as u8 + 1 },
        0..=5 => fio::Fault { refusal: TOO_SHORT, column: length as u8 + 1 },
        6 => NO_FAULT,
        _ => fio::Fault { refusal: TOO_LONG, column: 7 },
    }
}

/// Nine digits with every character at every column. The line is their first none to nine.
fn with_a_character(v: &mut Verdict, nine: &[u8; 9]) -> usize {
    let mut tried = 0;
    for length in 0..=9 {
        for at in 0..9 {
            for c in 0..=255 {
                let mut line = *nine;
                line[at] = c;
                let digits = if b"0123456789ABCDEFabcdef".contains(&c) { 9 } else { at };
                let mut f = fault_of_shape(length, digits);
                if f == NO_FAULT {
                    let six = std::str::from_utf8(&line[..6]).expect("six characters");
                    f = fault_of_value(u32::from_str_radix(six, 16).expect("six hex digits"));
                }
                tried += 1;
                v.expect(fio::line_fault(&line[..length]) == f, "a line's fault", tried);
            }
        }
    }
    tried
}

/// Bad characters at every two columns, or at one if they are the same. The first is told.
fn with_bad_characters(v: &mut Verdict) -> usize {
    let bad = *b"\0\n\r /:@G`g\x7F\x80\xB0\xC1\xE6\xFF";
    let mut tried = 0;
    for length in 1..=9 {
        for first in 0..length {
            for second in first..length {
                for i in 0..256 {
                    let mut line = *b"110000000";
                    line[second] = bad[i % 16];
                    line[first] = bad[i / 16];
                    tried += 1;
                    v.expect(fio::line_fault(&line[..length]) == fault_of_shape(length, first), "bad characters", tried);
                }
            }
        }
    }
    tried
}

/// Lines that are much too long, of digits but for one column.
fn long_lines(v: &mut Verdict) -> usize {
    let mut tried = 0;
    for length in [10, 255, 256, 262, 65535, 65536, 65542] {
        for at in 0..10 {
            let mut line = vec![b'1'; length];
            line[at] = 0xFF;
            tried += 1;
            v.expect(fio::line_fault(&line) == fault_of_shape(length, at), "a long line", tried);
        }
    }
    tried
}

/// Every answer's refusal and column. Only with E4 does its byte matter.
fn refusals(v: &mut Verdict) -> usize {
    let mut tried = 0;
    for (number, refusal) in [(0x00, 0), (0x01, 0), (0x02, 0), (0x03, 0), (0xE1, 1), (0xE2, 2), (0xE3, 3), (0xE5, 5)] {
        for value in 0..=255 {
            let a = fio::Answer { number, value };
            tried += 1;
            v.expect((a.refusal(), a.column()) == (refusal, 0), "an answer's refusal", tried);
        }
    }
    for refusal in 41..=45 {
        for column in 1..=7 {
            let a = fio::Answer { number: 0xE4, value: 0x11 + (refusal - 41) * 0x10 + (column - 1) };
            tried += 1;
            v.expect((a.refusal(), a.column()) == (refusal, column), "a line's refusal", tried);
        }
    }
    tried
}

// ---- sessions

fn refuses_session(v: &mut Verdict, s: fio::Session, buffer: &[u8; 128], which: usize) {
    let answer = fio::Answer { number: REFUSED_RECORD, value: 0 };
    let refused = fio::Fed { session: s, used: 0, written: 0, answer };
    let mut lent = *buffer;
    let input: &[u8] = b"110000\n";
    let (r, _) = fed(v, s, &mut lent, Some(input), 32);
    v.expect(r == refused, "a session's flag, fed", which);
    let (r, _) = fed(v, s, &mut lent, None, 32);
    v.expect(r == refused, "a session's flag, finished", which);
    v.expect(lent == *buffer, "all as it was", which);
}

fn faulty_sessions(v: &mut Verdict, k: &Chip) -> usize {
    let flags: [fn(&mut fio::Session, u8); 8] = [
        |s, x| s.fault = x,
        |s, x| s.present = x,
        |s, x| s.control.one.state1 = x,
        |s, x| s.control.one.run = x,
        |s, x| s.control.one.waiting = x,
        |s, x| s.control.two.state1 = x,
        |s, x| s.control.two.run = x,
        |s, x| s.control.two.waiting = x,
    ];
    let mut tried = 0;
    for flag in flags {
        for x in 2..=255 {
            let mut s = fio::Session { digits: 6, ..holding(k.control) }; // a finish has a line to answer
            flag(&mut s, x);
            tried += 1;
            refuses_session(v, s, &k.buffer, tried);
        }
    }
    tried
}

/// Four reads of side 1's Control 0, which is 02, in every room up to more than their lines take. A line is written whole,
/// and the feed stops before an LF that has no room.
fn rooms(v: &mut Verdict, k: &Chip) -> usize {
    let (input, line): (&[u8], &[u8]) = (b"120000\n120000\n120000\n120000\n", b"01020003\n");
    for room in 0..=40 {
        let lines = 4.min(room / 9);
        let mut lent = k.buffer;
        let empty = holding(k.control);
        let begun = fio::Session { value: 0x120000, digits: 6, ..empty };
        let (s, used) = if lines < 4 { (begun, 7 * lines + 6) } else { (empty, 28) };
        let r = fed(v, empty, &mut lent, Some(input), room);
        left(v, r, s, used, &line.repeat(lines), room);
        let r = fed(v, s, &mut lent, Some(&[]), room);
        left(v, r, s, 0, &[], room);
        let r = fed(v, empty, &mut lent, None, room);
        left(v, r, empty, 0, &[], room);
        // the line that waits is answered where it has room, by its LF or by the end
        let (after, lines) = if room < 9 { (begun, 0) } else { (empty, 1) };
        let r = fed(v, begun, &mut lent, Some(b"\n"), room);
        left(v, r, after, lines, &line.repeat(lines), room);
        let r = fed(v, begun, &mut lent, None, room);
        left(v, r, after, 0, &line.repeat(lines), room);
        v.expect(lent == k.buffer, "a read's buffer", room);
    }
    41
}

/// The session that a further digit 0 leaves: of six digits or behind a fault it is a fault.
fn with_zero(s: fio::Session) -> fio::Session {
    if s.fault == 1 || s.digits >= 6 {
        fio::Session { fault: 1, ..s }
    } else {
        fio::Session { value: s.value % 0x100000 * 16, digits: s.digits + 1, ..s }
    }
}

/// What an LF prints: of the values tried, only 120000 is a frame, if it has six digits.
fn line_of(s: fio::Session) -> Vec<u8> {
    let digits = s.digits as usize;
    let mut f = fault_of_shape(digits + s.fault as usize, digits);
    if f == NO_FAULT {
        f = fault_of_value(s.value);
    }
    let a = if f == NO_FAULT { fio::Answer { number: BYTE, value: 0x02 } } else { no_frame(f) };
    format!("{:02X}{:02X}0003\n", a.number, a.value).into_bytes()
}

/// A line that no characters made: ended by LF, by the end, and with a digit more.
fn wild_line(v: &mut Verdict, k: &Chip, s: fio::Session, which: usize) {
    let (mut lent, empty) = (k.buffer, holding(k.control));
    let r = fed(v, s, &mut lent, Some(b"\n"), 32);
    left(v, r, empty, 1, &line_of(s), which);
    let begun = s.fault == 1 || s.digits > 0;
    let r = fed(v, s, &mut lent, None, 32);
    left(v, r, if begun { empty } else { s }, 0, &if begun { line_of(s) } else { Vec::new() }, which);
    let r = fed(v, s, &mut lent, Some(b"0"), 32);
    left(v, r, with_zero(s), 1, &[], which);
    let r = fed(v, s, &mut lent, Some(b"0\n"), 32);
    left(v, r, empty, 2, &line_of(with_zero(s)), which);
    v.expect(lent == k.buffer, "a read's buffer", which);
}

/// Any number of digits beside any value.
fn wild_lines(v: &mut Verdict, k: &Chip) -> usize {
    let mut tried = 0;
    for digits in 0..=255 {
        for fault in 0..2 {
            for value in [0x112, 0x120000, 0x160100, 0xFFFFFF, 0x1000001, 0x1120000, 0xFFF12000, 0xFFFFFFFF] {
                tried += 1;
                wild_line(v, k, fio::Session { value, digits, fault, ..holding(k.control) }, tried);
            }
        }
    }
    tried
}

// ---- bursts

/// What a burst of a valid record answers: Done, or what comes before its first step.
fn begins(c: fio::Control, way: Way, side: u8, length: usize) -> u8 {
    let is_connected = side == 1 || (c.control2 & 1 == 1 && c.one.control0 & 0x08 == 0);
    let writer = if c.control3 & 0x10 == 0 { 1 } else { 2 };
    let own = if side == 1 { c.one.control0 } else { c.two.control0 };
    match side {
        1 | 2 if !is_connected || own & 1 == 1 => FLOATING,
        1 | 2 if length > BURST_LIMIT => REFUSED_LENGTH,
        1 | 2 if (side == writer) != (way == Way::In) => REFUSED_ROLE,
        1 | 2 => DONE,
        _ => REFUSED_FRAME,
    }
}

/// A burst by single steps: the side's DMA frames while its REQUEST is active and memory remains.
fn by_steps(v: &mut Verdict, k: &mut Chip, way: Way, side: u8, memory: &mut [u8]) -> usize {
    let request = if side == 1 { 2 } else { 8 };
    for i in 0..memory.len() {
        if fio::lines(k.control).value & request == 0 {
            return i;
        }
        match way {
            Way::In => v.expect(k.step([16 * side + 3, 0, memory[i]]) == IS_DONE, "a single step in", i),
            Way::Out => {
                let a = k.step([16 * side + 4, 0, 0]);
                v.expect(a.number == BYTE, "a single step out", i);
                memory[i] = a.value;
            }
        }
    }
    memory.len()
}

/// Numbers that are the same in every run.
struct Drawn(u64);

impl Drawn {
    /// The next, below `many`.
    fn below(&mut self, many: usize) -> usize {
        self.0 = self.0.wrapping_mul(6364136223846793005).wrapping_add(1442695040888963407);
        (self.0 >> 33) as usize % many
    }

    /// The same, as a byte; `many` is at most 256.
    fn byte(&mut self, many: usize) -> u8 {
        self.below(many) as u8
    }

    fn rarely(&mut self) -> bool {
        self.below(12) == 0
    }
}

/// How often each answer came, and what was moved by each way and side.
struct Seen {
    answers: [usize; 256],
    moved: [[usize; 2]; 2],
}

/// A burst leaves what single steps leave, byte for byte, and says how many they were.
fn beside_steps(v: &mut Verdict, seen: &mut Seen, k: &Chip, way: Way, side: u8, memory: &[u8], which: usize) {
    let (mut whole, mut single) = (*k, *k);
    let (mut taken, mut stepped) = (memory.to_vec(), memory.to_vec());
    let length = memory.len() - BEHIND;
    let number = begins(k.control, way, side, length);
    let moved = if number == DONE { by_steps(v, &mut single, way, side, &mut stepped[..length]) } else { 0 };
    let answer = whole.burst(way, side, &mut taken[..length]);
    v.expect(answer == (number, moved), "a burst's answer", which);
    v.expect(whole.control == single.control && whole.buffer == single.buffer, "a burst's record", which);
    v.expect(taken == stepped, "a burst's memory", which);
    seen.answers[answer.0 as usize] += 1;
    seen.moved[way as usize][side as usize - 1] += moved;
}

/// A register's write, by its address on a Z-BUS side and by the pointer on a Non-Z-BUS side.
fn write_register(k: &mut Chip, side: u8, number: u8, data: u8) {
    let c = k.control;
    let own = if side == 1 { c.one.control0 } else { c.two.control0 };
    let is_non_z = if side == 1 { c.pins == 2 } else { c.one.control0 & 0x04 != 0 };
    let is_low = if side == 1 { c.pins == 0 } else { c.pins != 1 };
    let kind = 16 * side + 1;
    if is_non_z {
        k.step([kind, 1, number]);
        k.step([kind, 1, data]);
    } else {
        k.step([kind, if is_low && own & 0x02 == 0 { 2 * number } else { number }, data]);
    }
}

/// A side as it comes: mostly out of reset and with its REQUEST enabled.
fn some_side(d: &mut Drawn, k: &mut Chip, side: u8) {
    if !d.rarely() {
        write_register(k, side, 0, 0);
    }
    let b = if side == 2 { 0 } else if d.rarely() { d.byte(4) } else { d.byte(2) };
    write_register(k, side, 0, d.byte(2) * 0x02 + b * 0x04);
    if side == 1 {
        write_register(k, side, 9, if d.rarely() { 0 } else { 1 }); // Control 2
    }
    write_register(k, side, 8, d.byte(130)); // Count Compare
    write_register(k, side, 13, d.byte(256)); // Match
    write_register(k, side, 14, if d.below(3) > 0 { d.byte(256) } else { 0 }); // Mask
    let control1 = if d.rarely() { d.byte(256) } else { 0x03 + d.byte(4) * 0x04 };
    write_register(k, side, 1, control1);
}

/// A chip as it comes, by frames: a session's beginning, then bytes into the FIFO and out of it.
fn some_chip(d: &mut Drawn) -> Chip {
    let mut k = Chip::none();
    k.step([0x00, d.byte(3), 0]);
    some_side(d, &mut k, 1);
    some_side(d, &mut k, 2);
    let control3 = if d.rarely() { d.byte(256) } else { 0x40 + d.byte(2) * 0x10 };
    write_register(&mut k, 1, 10, control3);
    let (into, writer) = (d.below(5), if k.control.control3 & 0x10 == 0 { 1 } else { 2 });
    for _ in 0..d.below(200) {
        let frame = if d.below(4) < into { [16 * writer + 3, 0, d.byte(256)] } else { [16 * (3 - writer) + 4, 0, 0] };
        k.step(frame);
    }
    if d.below(3) == 0 {
        let (side, control1) = (1 + d.byte(2), 0x03 + d.byte(4) * 0x04);
        write_register(&mut k, side, 1, control1); // run afresh
    }
    k
}

/// Both ways on both sides of chips as they come. Each answer came, and each way moved bytes on each side.
fn some_bursts(v: &mut Verdict) -> (usize, usize) {
    let (mut d, mut tried) = (Drawn(1), 0);
    let mut seen = Seen { answers: [0; 256], moved: [[0; 2]; 2] };
    for _ in 0..2000 {
        let k = some_chip(&mut d);
        for (way, side) in [(Way::In, 1), (Way::In, 2), (Way::Out, 1), (Way::Out, 2)] {
            let lengths = [0, 1, d.below(140), d.below(140), d.below(BURST_LIMIT), BURST_LIMIT, BURST_LIMIT + 1];
            let memory: Vec<u8> = (0..lengths[d.below(7)] + BEHIND).map(|_| d.byte(256)).collect();
            tried += 1;
            beside_steps(v, &mut seen, &k, way, side, &memory, tried);
        }
    }
    for number in [DONE, FLOATING, REFUSED_LENGTH, REFUSED_ROLE] {
        v.expect(seen.answers[number as usize] > 0, "an answer that never came", number as usize);
    }
    let moved = seen.moved.concat();
    v.expect(moved.iter().all(|&n| n > 0), "each way moves bytes on each side", 0);
    (tried, moved.iter().sum())
}

/// The frames of document 01's session up to its first byte: both sides live, REQUEST enabled.
fn session_chip(direction: u8) -> Chip {
    let mut k = Chip::none();
    for line in ["000000", "110000", "110002", "110901", "210000", "210002", "110A40", "110103", "210103"] {
        k.step(bytes_of(line.as_bytes()).expect("six hex digits"));
    }
    if direction == 1 {
        k.step([0x11, 0x0A, 0x50]);
    }
    k
}

/// What goes in by the writer comes out by the reader, and memory behind it is as it was.
fn there_and_back(v: &mut Verdict, direction: u8) {
    let mut k = session_chip(direction);
    let (writer, reader) = (1 + direction, 2 - direction);
    let mut bytes: Vec<u8> = (0..200).map(|i| (7 * i + 3) as u8).collect();
    let mut memory = vec![UNTOUCHED; BURST_LIMIT + BEHIND];
    v.expect(k.burst(Way::Out, reader, &mut memory[..200]) == (DONE, 0), "nothing to give", 0);
    for (length, moved, count) in [(5, 5, 5), (0, 0, 5), (200, 123, 128), (200, 0, 128)] {
        let answer = k.burst(Way::In, writer, &mut bytes[..length]);
        v.expect(answer == (DONE, moved) && k.control.count == count, "bytes in", length);
    }
    let given = [&bytes[..5], &bytes[..123]].concat();
    v.expect(k.burst(Way::Out, reader, &mut memory[..3]) == (DONE, 3), "three bytes", 3);
    v.expect(memory[..3] == given[..3], "the first bytes", 3);
    v.expect(memory[3..].iter().all(|&b| b == UNTOUCHED), "the memory behind three", 3);
    v.expect(k.burst(Way::Out, reader, &mut memory[..BURST_LIMIT]) == (DONE, 125), "the rest", 125);
    v.expect(memory[..125] == given[3..] && k.control.count == 0, "the further bytes", 125);
    v.expect(memory[125..].iter().all(|&b| b == UNTOUCHED), "the memory behind", 125);
}

/// Every side's number, with and without a flag above 1, on a chip at work and on one in reset: 4, 1, Floating, 6, 7.
fn orders(v: &mut Verdict, side: u8, direction: u8, flag: u8, is_in_reset: bool) -> usize {
    let mut tried = 0;
    for way in WAYS {
        for length in [0, 3, BURST_LIMIT, BURST_LIMIT + 1] {
            let mut k = session_chip(direction);
            if is_in_reset {
                k.control = in_reset(0);
            }
            let number = match begins(k.control, way, side, length) {
                REFUSED_FRAME => REFUSED_FRAME,
                _ if flag > 1 => REFUSED_RECORD,
                number => number,
            };
            k.control.two.waiting = flag;
            if number != DONE {
                tried += 1;
                no_burst(v, &k, way, side, length, number, side as usize);
            }
        }
    }
    tried
}

fn bursts(v: &mut Verdict) {
    let mut others = 0;
    for direction in 0..2 {
        there_and_back(v, direction);
        for side in 0..=255 {
            for (flag, is_in_reset) in [(0, false), (0, true), (2, false), (2, true)] {
                others += orders(v, side, direction, flag, is_in_reset);
            }
        }
    }
    let (tried, moved) = some_bursts(v);
    println!("{} bursts beside single steps, {} bytes, and {} that don't begin", tried, moved, others);
}

// ---- three bytes

/// Three bytes and the line of their digits, in capitals or not: the same fault, or none.
fn of_bytes(v: &mut Verdict, k: &Chip, frame: [u8; 3], which: usize) {
    let mut lent = k.buffer;
    let [kind, address, data] = frame;
    let f = fault_of_value(u32::from_be_bytes([0, kind, address, data]));
    let framed = f == NO_FAULT;
    let r = fio::step(k.control, &mut lent, frame);
    v.expect((r.answer.number == REFUSED_FRAME) == !framed, "a frame or none", which);
    v.expect((r.answer.number == REFUSED_PINS) == (framed && kind == 0 && address > 2), "a start", which);
    if r.answer.number >= 0xE0 {
        v.expect(r.control == k.control && lent == k.buffer, "all as it was", which);
        v.expect(if framed { r.answer.value == 0 } else { r.answer == no_frame(f) }, "what is wrong", which);
        v.expect(framed || (r.answer.refusal(), r.answer.column()) == (f.refusal, f.column), "its refusal and column", which);
    }
    let capitals = format!("{:02X}{:02X}{:02X}", kind, address, data);
    for line in [capitals.to_lowercase(), capitals] {
        v.expect(fio::line_fault(line.as_bytes()) == f, "a line of six digits", which);
    }
}

fn three_bytes(v: &mut Verdict, k: &Chip) -> usize {
    let mut tried = 0;
    for kind in 0..=255 {
        for address in [0x00, 0x01, 0x10, 0x80, 0xFF] {
            for data in [0x00, 0x01, 0x10, 0x80, 0xFF] {
                tried += 1;
                of_bytes(v, k, [kind, address, data], tried);
            }
        }
    }
    tried
}

fn main() {
    let mut v = Verdict::default();
    let names: Vec<String> = std::env::args().skip(1).collect();
    let lines: usize = names.iter().map(|name| replay(&mut v, name)).sum();
    println!("{} sessions, {} lines: by frames, and by feeding in 15 ways", names.len(), lines);
    let mut records = faulty_in_reset(&mut v);
    let mut sessions = 0;
    for direction in 0..2 {
        let k = working(&mut v, direction);
        records += faulty_bytes(&mut v, &k, FAULTS) + faulty_sides(&mut v, &k);
        sessions += faulty_sessions(&mut v, &k);
    }
    let k = working(&mut v, 0);
    println!("{} starts, each by a frame too", starts(&mut v, &k));
    println!("{} records with a fault, 12 steps of each, by frames and by feeding, bursts, no frame, a look and a start", records);
    println!("{} sessions with a flag above 1, fed and finished", sessions);
    println!("{} sizes of room, and {} lines with any digits and value", rooms(&mut v, &k), wild_lines(&mut v, &k));
    println!("{} triples of bytes, each as a line too", three_bytes(&mut v, &k));
    let characters = with_a_character(&mut v, b"11aF5cD90") + with_a_character(&mut v, b"160000000");
    let (bad, long) = (with_bad_characters(&mut v), long_lines(&mut v));
    println!("{} lines with any character, {} with bad ones, and {} much too long", characters, bad, long);
    println!("{} answers, their refusals and columns", refusals(&mut v));
    bursts(&mut v);
    println!("{} wrong", v.failures);
    exit((v.failures != 0) as i32);
}
