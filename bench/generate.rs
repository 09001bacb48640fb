// Writes generated frames to standard output: `generate KIND LINES`. KIND is `mix`, steps on both sides of a Z-BUS Low
// chip with a faulty line now and then, or `burst`, blocks moved by DMA in turn. A new chip is started every 5,000 lines.
use std::io::Write;

struct Random(u64);

impl Random {
    fn next(&mut self, below: u64) -> u64 {
        self.0 ^= self.0 << 13;
        self.0 ^= self.0 >> 7;
        self.0 ^= self.0 << 17;
        (self.0 >> 11) % below
    }
}

fn frame(out: &mut Vec<u8>, kind: u64, address: u64, data: u64) {
    out.extend_from_slice(format!("{kind:02X}{address:02X}{data:02X}\n").as_bytes());
}

// A chip with both sides awake, CLEAR 1 and REQUEST on; how many lines that took.
fn set_up(out: &mut Vec<u8>, r: &mut Random) -> u64 {
    frame(out, 0x00, 0, 0);
    frame(out, 0x11, 0, 0);
    frame(out, 0x11, 0, 0x02);
    frame(out, 0x11, 9, 1);
    frame(out, 0x21, 0, 0);
    frame(out, 0x21, 0, 0x82);
    frame(out, 0x11, 10, 0x40);
    frame(out, 0x11, 1, 3);
    frame(out, 0x21, 1, 3);
    frame(out, 0x21, 4, 0xCC);
    frame(out, 0x11, 13, r.next(256));
    frame(out, 0x11, 14, 0xF0);
    12
}

fn mixed(out: &mut Vec<u8>, r: &mut Random) {
    let side = 0x10 + 0x10 * r.next(2);
    match r.next(100) {
        0..=24 => frame(out, 0x13, 0, r.next(256)),
        25..=49 => frame(out, 0x24, 0, 0),
        50..=59 => frame(out, side + 1, 15, r.next(256)),
        60..=69 => frame(out, side + 2, 15, 0),
        70..=82 => frame(out, side + 2, r.next(16), 0),
        83..=92 => {
            let register = [1, 2, 3, 4, 5, 6, 8, 11, 13, 14][r.next(10) as usize];
            let data = if register == 1 { 3 + 4 * r.next(4) } else { r.next(256) };
            frame(out, side + 1, register, data)
        }
        93..=97 => frame(out, side + 5, 0, 0),
        98 => out.extend_from_slice(b"1G0000\n"),
        _ => frame(out, 0x21, 8, r.next(129)),
    }
}

fn main() {
    let args: Vec<String> = std::env::args().collect();
    let lines: u64 = args[2].parse().expect("a number of lines");
    let mut r = Random(0x9E37_79B9_7F4A_7C15);
    let mut stdout = std::io::BufWriter::new(std::io::stdout().lock());
    let mut out = Vec::new();
    let mut n = 0;
    while n < lines {
        n += set_up(&mut out, &mut r);
        let block = 5000;
        for i in 0..block {
            if args[1] == "burst" {
                if i / 100 % 2 == 0 {
                    frame(&mut out, 0x13, 0, r.next(256))
                } else {
                    frame(&mut out, 0x24, 0, 0)
                }
            } else {
                mixed(&mut out, &mut r)
            }
        }
        n += block;
        stdout.write_all(&out).expect("write");
        out.clear();
    }
}
