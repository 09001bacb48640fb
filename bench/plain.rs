// The same job as fiobench in plain Rust, as fast as it could be made: one chip altered in place, digits by
// tables, frames from standard input, a line of answer for each on standard output. It is what the proved
// program's speed is measured against, and shares nothing with it but documents 01 and 02.
use std::io::{Read, Write};

const MESSAGE: u8 = 7;
const DIRECTION: u8 = 6;
const PATTERN: u8 = 5;
const STATUS: u8 = 4;
const ERROR: u8 = 3;
const FULL: u8 = 2;
const EMPTY: u8 = 1;

#[derive(Clone, Copy, PartialEq)]
enum Bus {
    Low,
    High,
    NonZ,
    Handshake,
}

#[derive(Clone, Copy)]
enum Answer {
    Done,
    Byte(u8),
    Floating,
    Waiting,
    Refused(u8),
    NoFrame(u8),
}

#[derive(Clone, Copy, Default)]
struct Side {
    control0: u8,
    control1: u8,
    ip: u8,
    ie: u8,
    ius: u8,
    vector: u8,
    compare: u8,
    pattern: u8,
    mask: u8,
    pointer: u8,
    state1: bool,
    run: bool,
    frozen: u8,
    message: u8,
    waiting: bool,
}

impl Side {
    fn new() -> Side {
        Side {
            control0: 1,
            ..Side::default()
        }
    }

    // The source that an acknowledge takes, or 0: the highest with IP and IE, where no IUS stands at its place or above.
    fn due(&self) -> u8 {
        let free = self.ip & self.ie & !self.ius;
        if free > self.ius {
            free.ilog2() as u8
        } else {
            0
        }
    }

    fn half(&self, k: u8) -> u8 {
        (self.ius >> k & 1) << 2 | (self.ie >> k & 1) << 1 | (self.ip >> k & 1)
    }

    fn command(&mut self, k: u8, n: u8) {
        if k == 0 {
            return;
        }
        let m = 1u8 << k;
        match n {
            1 => {
                self.ip &= !m;
                self.ius &= !m;
            }
            2 => self.ius |= m,
            3 => self.ius &= !m,
            4 => self.ip |= m,
            5 => self.ip &= !m,
            6 => self.ie |= m,
            7 => self.ie &= !m,
            _ => {}
        }
    }
}

const HIGH: [u8; 4] = [7, 6, 4, 2];
const LOW: [u8; 4] = [0, 5, 3, 1];

struct Chip {
    pins: u8,
    sides: [Side; 2],
    control2: u8,
    control3: u8,
    start: u8,
    count: u8,
    buffer: [u8; 128],
}

fn numbered(vector: u8, n: u8) -> u8 {
    vector & 0xF1 | n << 1
}

impl Chip {
    fn new(pins: u8) -> Chip {
        Chip {
            pins,
            sides: [Side::new(); 2],
            control2: 0,
            control3: 0,
            start: 0,
            count: 0,
            buffer: [0; 128],
        }
    }

    fn bus(&self, w: usize) -> Bus {
        let b = self.sides[0].control0 >> 2 & 3;
        if w == 1 && b > 0 {
            return if b == 1 { Bus::NonZ } else { Bus::Handshake };
        }
        match self.pins {
            1 => Bus::High,
            2 if w == 0 => Bus::NonZ,
            _ => Bus::Low,
        }
    }

    fn connected(&self, w: usize) -> bool {
        w == 0 || self.control2 & 1 == 1 && self.sides[0].control0 & 8 == 0
    }

    fn live(&self, w: usize) -> bool {
        self.connected(w) && self.sides[w].control0 & 1 == 0
    }

    fn clear(&self) -> bool {
        self.control3 & 0x40 != 0
    }

    fn writer(&self, w: usize) -> bool {
        (self.control3 >> 4 & 1) as usize == w
    }

    fn raise(&mut self, w: usize, k: u8) {
        if self.live(w) {
            self.sides[w].ip |= 1 << k;
        }
    }

    fn fresh(&mut self, w: usize) {
        let run = if self.writer(w) {
            self.count < 128
        } else {
            self.count > 0 && self.count == self.sides[w].compare
        };
        self.sides[w].run = run;
    }

    fn interrupt(&self, w: usize) -> bool {
        self.sides[w].control0 & 0x80 != 0
            && self.live(w)
            && self.bus(w) != Bus::High
            && self.sides[w].due() != 0
    }

    fn request(&self, w: usize) -> bool {
        let s = &self.sides[w];
        s.control1 & 3 == 3
            && self.live(w)
            && self.clear()
            && !(s.control1 & 8 != 0 && s.ip & 1 << PATTERN != 0)
            && if s.control1 & 4 != 0 {
                s.run
            } else if self.writer(w) {
                self.count < 128
            } else {
                self.count > 0
            }
    }

    fn lines(&self) -> u8 {
        self.interrupt(0) as u8
            | (self.request(0) as u8) << 1
            | (self.interrupt(1) as u8) << 2
            | (self.request(1) as u8) << 3
    }

    fn reset(&mut self, w: usize) {
        self.sides[w] = Side::new();
        if w == 0 {
            self.sides[1] = Side::new();
            self.control2 = 0;
            self.control3 = 0;
            self.start = 0;
            self.count = 0;
            self.buffer = [0; 128];
        }
    }

    fn moved(&mut self, w: usize, byte: u8) {
        if (byte ^ self.sides[w].pattern) & !self.sides[w].mask == 0 {
            self.raise(w, PATTERN);
        }
        let n = self.count;
        for v in 0..2 {
            if n == self.sides[v].compare {
                self.raise(v, STATUS);
            }
            if n == 128 {
                self.raise(v, FULL);
            }
            if n == 0 {
                self.raise(v, EMPTY);
            }
            let stop = if self.writer(v) { 128 } else { 0 };
            let s = &mut self.sides[v];
            if n == stop {
                s.run = false;
            } else if n == s.compare {
                s.run = true;
            }
        }
    }

    fn waits(&self, w: usize, write: bool) -> bool {
        self.live(w)
            && self.sides[w].control1 & 3 == 1
            && self.clear()
            && self.writer(w) == write
            && self.count == if write { 128 } else { 0 }
    }

    fn offer(&mut self, w: usize, byte: u8, dma: bool) -> Answer {
        if !self.live(w) {
            return Answer::Done;
        }
        if !dma && self.waits(w, true) {
            return Answer::Waiting;
        }
        if self.writer(w) && self.clear() && self.count < 128 {
            let at = (self.start as usize + self.count as usize) % 128;
            self.buffer[at] = byte;
            self.count += 1;
            self.moved(w, byte);
        } else {
            self.raise(w, ERROR);
        }
        Answer::Done
    }

    fn take(&mut self, w: usize, dma: bool) -> Answer {
        if !self.live(w) {
            return Answer::Byte(0);
        }
        if !dma && self.waits(w, false) {
            return Answer::Waiting;
        }
        if !self.writer(w) && self.clear() && self.count > 0 {
            let byte = self.buffer[self.start as usize];
            self.start = (self.start + 1) % 128;
            self.count -= 1;
            self.moved(w, byte);
            Answer::Byte(byte)
        } else {
            self.raise(w, ERROR);
            Answer::Byte(0)
        }
    }

    fn write_control3(&mut self, w: usize, data: u8) {
        let d = if w == 1 { data ^ 0x10 } else { data };
        let old = self.control3;
        let mut may = if w == 0 { 0xA0 } else { 0 };
        if (old >> 7) as usize == w {
            may |= 0x40;
        }
        if (old >> 5 & 1) as usize == w {
            may |= 0x10;
        }
        self.control3 = old & !may | d & may;
        let turned = (self.control3 ^ old) & 0x10 != 0;
        if !self.clear() {
            self.start = 0;
            self.count = 0;
        }
        if turned {
            self.raise(0, DIRECTION);
            self.raise(1, DIRECTION);
        }
        if turned || !self.clear() {
            self.fresh(0);
            self.fresh(1);
        }
    }

    fn store(&mut self, w: usize, r: u8, data: u8) {
        if self.sides[w].control0 & 1 == 1 {
            if r == 0 && data & 1 == 0 {
                self.sides[w].control0 &= 0xFE;
            }
            return;
        }
        match r {
            0 => {
                if data & 1 == 1 {
                    self.reset(w);
                } else {
                    self.sides[w].control0 = if w == 0 { data } else { data & 0xF3 };
                }
            }
            1 => {
                if data & 0x40 != 0 && self.sides[w].control1 & 0x40 == 0 {
                    self.sides[w].frozen = self.count;
                }
                self.sides[w].control1 = data & 0x4F;
                self.fresh(w);
            }
            2..=5 => {
                let i = r as usize - 2;
                self.sides[w].command(HIGH[i], data >> 5);
                self.sides[w].command(LOW[i], data >> 1 & 7);
            }
            6 => self.sides[w].vector = data,
            8 => self.sides[w].compare = data,
            9 => {
                if w == 0 {
                    self.control2 = data & 3;
                }
            }
            10 => self.write_control3(w, data),
            11 => {
                self.sides[w].message = data;
                self.sides[w].waiting = true;
                self.raise(1 - w, MESSAGE);
            }
            13 => self.sides[w].pattern = data,
            14 => self.sides[w].mask = data,
            _ => {}
        }
    }

    fn load(&mut self, w: usize, r: u8) -> u8 {
        let s = self.sides[w];
        if s.control0 & 1 == 1 {
            return if r == 0 { 1 } else { 0 };
        }
        match r {
            0 => s.control0,
            1 => s.control1 | (s.waiting as u8) << 5,
            2..=5 => {
                let i = r as usize - 2;
                s.half(HIGH[i]) << 5 | s.half(LOW[i]) << 1
            }
            6 => {
                if s.control0 & 0x80 == 0 {
                    return s.vector;
                }
                let mut k = 7;
                while k > 0 && s.ip & s.ie & 1 << k == 0 {
                    k -= 1;
                }
                numbered(s.vector, k)
            }
            7 => {
                if s.control1 & 0x40 != 0 {
                    s.frozen
                } else {
                    self.count
                }
            }
            8 => s.compare,
            9 => {
                if w == 0 {
                    self.control2
                } else {
                    0
                }
            }
            10 => {
                if w == 0 {
                    self.control3
                } else {
                    self.control3 ^ 0x10
                }
            }
            11 => s.message,
            12 => {
                self.sides[w].ip &= !(1 << MESSAGE);
                self.sides[1 - w].waiting = false;
                self.sides[1 - w].message
            }
            13 => s.pattern,
            14 => s.mask,
            _ => 0,
        }
    }

    // The register that an address names, or 16 for none.
    fn named(&self, w: usize, address: u8) -> u8 {
        match self.bus(w) {
            Bus::Low => {
                if self.sides[w].control0 & 2 == 0 {
                    address >> 1 & 15
                } else {
                    address & 15
                }
            }
            Bus::High => address.min(16),
            _ => match address {
                0 => 15,
                1 => self.sides[w].pointer,
                _ => 16,
            },
        }
    }

    fn write(&mut self, w: usize, address: u8, data: u8) -> Answer {
        if !self.connected(w) {
            return Answer::Floating;
        }
        let indirect = self.bus(w) == Bus::NonZ && address == 1;
        if indirect && !self.sides[w].state1 {
            self.sides[w].pointer = data & 15;
            self.sides[w].state1 = true;
            return Answer::Done;
        }
        let answer = match self.named(w, address) {
            16 => return Answer::Refused(2),
            15 => self.offer(w, data, false),
            r => {
                self.store(w, r, data);
                Answer::Done
            }
        };
        if let Answer::Waiting = answer {
            return answer;
        }
        if indirect {
            self.sides[w].state1 = false;
        }
        answer
    }

    fn read(&mut self, w: usize, address: u8) -> Answer {
        if !self.connected(w) {
            return Answer::Floating;
        }
        match self.named(w, address) {
            16 => Answer::Refused(2),
            15 => self.take(w, false),
            r => Answer::Byte(self.load(w, r)),
        }
    }

    fn dma(&mut self, w: usize, byte: u8, write: bool) -> Answer {
        if !self.live(w) {
            return Answer::Floating;
        }
        let in_way = match self.bus(w) {
            Bus::Low | Bus::High => self.writer(w),
            _ => write,
        };
        if in_way {
            self.offer(w, byte, true)
        } else {
            self.take(w, true)
        }
    }

    fn acknowledge(&mut self, w: usize) -> Answer {
        if !self.interrupt(w) {
            return Answer::Floating;
        }
        let k = self.sides[w].due();
        let s = &mut self.sides[w];
        s.ius |= 1 << k;
        if s.control0 & 0x20 != 0 {
            Answer::Floating
        } else if s.control0 & 0x10 != 0 {
            Answer::Byte(numbered(s.vector, k))
        } else {
            Answer::Byte(s.vector)
        }
    }

    fn step(&mut self, kind: u8, address: u8, data: u8) -> Answer {
        let w = (kind >> 4) as usize - 1;
        match kind & 15 {
            1 => self.write(w, address, data),
            2 => self.read(w, address),
            3 => self.dma(w, data, true),
            4 => self.dma(w, 0, false),
            5 => self.acknowledge(w),
            _ => {
                if !self.connected(w) {
                    return Answer::Floating;
                }
                self.reset(w);
                Answer::Done
            }
        }
    }
}

// The value of a hex digit, and 16 for any other character.
static VALUES: [u8; 256] = {
    let mut values = [16; 256];
    let mut n = 0;
    while n < 16 {
        values[b"0123456789ABCDEF"[n] as usize] = n as u8;
        values[b"0123456789abcdef"[n] as usize] = n as u8;
        n += 1;
    }
    values
};

// The two capital digits of a byte.
static DIGITS: [[u8; 2]; 256] = {
    let mut digits = [[0; 2]; 256];
    let mut n = 0;
    while n < 256 {
        digits[n] = [b"0123456789ABCDEF"[n / 16], b"0123456789ABCDEF"[n % 16]];
        n += 1;
    }
    digits
};

// The three bytes of six hex digits.
#[inline]
fn bytes(six: &[u8]) -> Option<(u8, u8, u8)> {
    let mut seen = 0;
    let mut value = 0u32;
    for &c in six {
        let n = VALUES[c as usize];
        seen |= n;
        value = value << 4 | n as u32;
    }
    if seen < 16 {
        Some(((value >> 16) as u8, (value >> 8) as u8, value as u8))
    } else {
        None
    }
}

// A line that isn't six hex digits: the second digit of its first fault's refusal, and the column.
#[cold]
fn misshapen(line: &[u8]) -> u8 {
    let digits = line
        .iter()
        .take(6)
        .take_while(|&&c| VALUES[c as usize] < 16)
        .count();
    let refusal = if digits == 6 {
        0x30
    } else if digits < line.len() {
        0x10
    } else {
        0x20
    };
    refusal + digits as u8 + 1
}

// A line's three bytes, or what is printed behind E4.
fn frame(line: &[u8]) -> Result<(u8, u8, u8), u8> {
    if line.len() == 6 {
        if let Some(three) = bytes(line) {
            return Ok(three);
        }
    }
    Err(misshapen(line))
}

// What is printed behind E4 for three bytes that are no frame.
#[inline]
fn fault(kind: u8, address: u8, data: u8) -> Option<u8> {
    let (uses_address, uses_data) = match kind {
        0x00 | 0x12 | 0x22 => (true, false),
        0x11 | 0x21 => (true, true),
        0x13 | 0x23 => (false, true),
        0x14..=0x16 | 0x24..=0x26 => (false, false),
        _ => return Some(0x41),
    };
    if !uses_address && address != 0 {
        Some(0x53)
    } else if !uses_data && data != 0 {
        Some(0x55)
    } else {
        None
    }
}

#[inline]
fn answer(chip: &mut Option<Chip>, kind: u8, address: u8, data: u8) -> Answer {
    if let Some(told) = fault(kind, address, data) {
        return Answer::NoFrame(told);
    }
    if kind == 0 {
        if address > 2 {
            return Answer::Refused(3);
        }
        *chip = Some(Chip::new(address));
        return Answer::Done;
    }
    match chip {
        None => Answer::Refused(5),
        Some(c) => c.step(kind, address, data),
    }
}

#[inline(always)]
fn report(chip: &mut Option<Chip>, line: Result<(u8, u8, u8), u8>, out: &mut Vec<u8>) {
    let told = match line {
        Ok((kind, address, data)) => answer(chip, kind, address, data),
        Err(fault) => Answer::NoFrame(fault),
    };
    let (number, byte) = match told {
        Answer::Done => (0, 0),
        Answer::Byte(b) => (1, b),
        Answer::Floating => (2, 0),
        Answer::Waiting => (3, 0),
        Answer::Refused(n) => (0xE0 + n, 0),
        Answer::NoFrame(fault) => (0xE4, fault),
    };
    let (lines, count) = match chip {
        None => (0, 0),
        Some(c) => (c.lines(), c.count),
    };
    let [a, b] = DIGITS[number as usize];
    let [c, d] = DIGITS[byte as usize];
    let [e, f] = DIGITS[lines as usize];
    let [g, h] = DIGITS[count as usize];
    out.extend_from_slice(&[a, b, c, d, e, f, g, h, b'\n']);
}

// The next line that ends in the rest of a piece, and the bytes that it takes there. `held`: what an earlier piece had of it.
#[inline(always)]
fn next_line(held: &mut Vec<u8>, rest: &[u8]) -> Option<(Result<(u8, u8, u8), u8>, usize)> {
    // A frame's LF stands behind its six digits, and is looked for there first.
    if held.is_empty() && rest.len() > 6 && rest[6] == b'\n' {
        if let Some(three) = bytes(&rest[..6]) {
            return Some((Ok(three), 7));
        }
    }
    let at = rest.iter().position(|&c| c == b'\n')?;
    held.extend_from_slice(&rest[..at]);
    let line = frame(held);
    held.clear();
    Some((line, at + 1))
}

fn main() {
    let mut input = std::io::stdin().lock();
    let mut output = std::io::stdout().lock();
    let mut piece = vec![0u8; 65536];
    let mut held: Vec<u8> = Vec::new();
    let mut out: Vec<u8> = Vec::with_capacity(9 * 65536);
    let mut chip: Option<Chip> = None;
    loop {
        let n = input.read(&mut piece).expect("read");
        if n == 0 {
            break;
        }
        let mut rest = &piece[..n];
        while let Some((line, length)) = next_line(&mut held, rest) {
            report(&mut chip, line, &mut out);
            rest = &rest[length..];
        }
        held.extend_from_slice(rest);
        output.write_all(&out).expect("write");
        out.clear();
    }
    if !held.is_empty() {
        report(&mut chip, frame(&held), &mut out);
        output.write_all(&out).expect("write");
    }
}
