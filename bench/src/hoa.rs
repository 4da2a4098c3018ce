//! The text of a machine in the Hanoi Omega-Automata format, version 1, in plain Rust: from the wording of the change request alone.
use crate::plain::{self, bits, Machine, Refusal};

// the bytes that the buffer of a call must have; no text takes more
pub const TEXT_ROOM: usize = 20_000;

// a call for this machine is refused after the file is read: there are machines 0 and 1 only
pub const NO_MACHINE: usize = 2;

// a buffer, and how many of its bytes are written
struct Text<'a> {
    out: &'a mut [u8],
    length: usize,
}

impl Text<'_> {
    fn byte(&mut self, b: u8) {
        self.out[self.length] = b;
        self.length += 1;
    }

    fn bytes(&mut self, b: &[u8]) {
        self.out[self.length..self.length + b.len()].copy_from_slice(b);
        self.length += b.len();
    }

    // counts, states and sets are below 100
    fn number(&mut self, n: usize) {
        if n >= 10 {
            self.byte(b'0' + (n / 10) as u8);
        }
        self.byte(b'0' + (n % 10) as u8);
    }

    fn numbers(&mut self, all: impl Iterator<Item = usize>) {
        for (i, n) in all.enumerate() {
            if i > 0 {
                self.byte(b' ');
            }
            self.number(n);
        }
    }

    fn header(&mut self, m: &Machine) {
        self.bytes(b"HOA: v1\n");
        self.bytes(b"States: ");
        self.number(m.states);
        self.byte(b'\n');
        for s in bits(m.start) {
            self.bytes(b"Start: ");
            self.number(s);
            self.byte(b'\n');
        }
        self.bytes(b"AP: 8 \"o0\" \"o1\" \"o2\" \"o3\" \"o4\" \"o5\" \"o6\" \"o7\"\n");
        self.bytes(b"acc-name: generalized-Buchi ");
        self.number(m.sets);
        self.bytes(b"\nAcceptance: ");
        self.number(m.sets);
        for k in 0..m.sets {
            self.bytes(if k == 0 { b" Inf(" } else { b"&Inf(" });
            self.number(k);
            self.byte(b')');
        }
        self.bytes(b"\nproperties: state-labels state-acc\n");
    }

    fn state(&mut self, m: &Machine, s: usize) {
        self.bytes(b"State: [");
        for bit in 0..8 {
            if bit > 0 {
                self.byte(b'&');
            }
            if m.observations[s] >> bit & 1 == 0 {
                self.byte(b'!');
            }
            self.number(bit);
        }
        self.bytes(b"] ");
        self.number(s);
        let mut sets = (0..m.sets).filter(|&k| m.fairness[k] >> s & 1 == 1).peekable();
        if sets.peek().is_some() {
            self.bytes(b" {");
            self.numbers(sets);
            self.byte(b'}');
        }
        self.byte(b'\n');
        self.numbers(bits(m.successors[s]));
        self.byte(b'\n');
    }
}

// the text's length
pub fn text(m: &Machine, out: &mut [u8]) -> usize {
    let mut q = Text { out, length: 0 };
    q.header(m);
    q.bytes(b"--BODY--\n");
    for s in 0..m.states {
        q.state(m, s);
    }
    q.bytes(b"--END--\n");
    q.length
}

// ---- a show in, the text of its rig (0) or of its score (1) out

pub fn text_file(bytes: &[u8], which: usize, out: &mut [u8]) -> Result<usize, Refusal> {
    if out.len() < TEXT_ROOM {
        return Err(Refusal(1, 0, 0, 0));
    }
    let mut t = [0u16; plain::ROOM];
    let (p, _) = plain::read(bytes, &mut t)?;
    match which {
        0 => Ok(text(&p.c, out)),
        1 => Ok(text(&p.a, out)),
        _ => Err(Refusal(20, 0, 0, 0)),
    }
}
