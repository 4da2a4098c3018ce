//! A plain implementation of reader, writer, check and player, from the documents alone. It is the measure for speed and the other opinion on results.
//! The two plain solvers stand in nested.rs and sweeps.rs, and the text of a machine in hoa.rs.

#[derive(Clone, Copy, PartialEq, Eq, Debug)]
pub struct Machine {
    pub states: usize,
    pub sets: usize,
    pub start: u64,
    pub observations: [u8; 64],
    pub successors: [u64; 64],
    pub fairness: [u64; 8],
}

pub const EMPTY: Machine = Machine { states: 0, sets: 0, start: 0, observations: [0; 64], successors: [0; 64], fairness: [0; 8] };

// the machines of a show; a set bit of the hidden mask is not compared in their observations
#[derive(Clone, Copy, PartialEq, Eq, Debug)]
pub struct Pair {
    pub c: Machine,
    pub a: Machine,
    pub hidden: u8,
}

impl Pair {
    // every bit is compared
    pub fn new(c: Machine, a: Machine) -> Pair {
        Pair { c, a, hidden: 0 }
    }

    // the same, with a state in each set that had none, so that the solver takes it
    pub fn filled(mut self) -> Pair {
        for m in [&mut self.c, &mut self.a] {
            for k in 0..m.sets {
                if m.fairness[k] == 0 {
                    m.fairness[k] = 1 << (k % m.states);
                }
            }
        }
        self
    }

    pub fn has_empty_set(&self) -> bool {
        *self != self.filled()
    }
}

pub const ROOM: usize = 28672;
pub const BLANK: u16 = 65535;
pub const FILE_ROOM: usize = 59392;

// a set of pairs: for each concrete state the mask of the abstract states beside it
pub type Set = [u64; 64];

#[derive(Clone, Copy, PartialEq, Eq, Debug)]
pub struct Refusal(pub u32, pub usize, pub usize, pub usize);

#[derive(Clone, Copy, PartialEq, Eq, Debug)]
pub enum Answer {
    Carried(usize),
    NotCarried(usize, usize),
    NoTable,
    Refused(Refusal),
}

impl Answer {
    pub fn number(self) -> u32 {
        match self {
            Answer::Carried(_) => 100,
            Answer::NoTable => 101,
            Answer::NotCarried(c, _) => 200 + c as u32,
            Answer::Refused(r) => r.0,
        }
    }
}

pub fn bits(mut m: u64) -> impl Iterator<Item = usize> {
    std::iter::from_fn(move || {
        if m == 0 {
            return None;
        }
        let i = m.trailing_zeros() as usize;
        m &= m - 1;
        Some(i)
    })
}

pub fn full(n: usize) -> u64 {
    if n >= 64 { u64::MAX } else { (1 << n) - 1 }
}

// ---- well-formedness

fn counts_ok(limit: usize, states: usize, sets: usize) -> bool {
    (1..=64).contains(&states) && (1..=limit).contains(&sets)
}

fn content(index: usize, m: &Machine) -> Result<(), Refusal> {
    let beyond = !full(m.states);
    let mut bad = m.start & beyond != 0;
    for s in 0..64 {
        bad |= if s < m.states { m.successors[s] & beyond != 0 } else { m.observations[s] != 0 || m.successors[s] != 0 };
    }
    for k in 0..8 {
        bad |= if k < m.sets { m.fairness[k] & beyond != 0 } else { m.fairness[k] != 0 };
    }
    if bad {
        return Err(Refusal(9, index, 0, 0));
    }
    if m.start == 0 {
        return Err(Refusal(10, index, 0, 0));
    }
    for s in 0..m.states {
        if m.successors[s] == 0 {
            return Err(Refusal(11, index, s, 0));
        }
    }
    Ok(())
}

// a set without a state, counted from 1: what the solver does not take
fn nonempty(index: usize, m: &Machine) -> Result<(), Refusal> {
    match m.fairness[..m.sets].iter().position(|&set| set == 0) {
        Some(k) => Err(Refusal(21, index, k + 1, 0)),
        None => Ok(()),
    }
}

// ---- files

fn check_of(block: &[u8]) -> u32 {
    let mut sum: u32 = 0;
    for i in 0..510 {
        sum += (i as u32 + 1) * block[i] as u32;
    }
    sum % 65521
}

// a wrong check is refused with the number that is given for it, and then a number that is not the block's place with 19
fn block(bytes: &[u8], wrong: u32, i: usize) -> Result<(), Refusal> {
    let b = &bytes[512 * i..512 * i + 512];
    if u32::from(u16::from_le_bytes([b[510], b[511]])) != check_of(b) {
        return Err(Refusal(wrong, i, 0, 0));
    }
    let number = u16::from_le_bytes([b[0], b[1]]) as usize;
    if number != i {
        return Err(Refusal(19, i, number, 0));
    }
    Ok(())
}

fn payload_len(nc: usize, na: usize, m: usize, n: usize, table: bool) -> usize {
    32 + 9 * (nc + na) + 8 * (m + n) + if table { 2 * n * nc * na } else { 0 }
}

fn mask_at(q: &[u8], at: usize) -> u64 {
    u64::from_le_bytes(q[at..at + 8].try_into().unwrap())
}

fn machine_at(q: &[u8], at: usize, states: usize, sets: usize) -> Machine {
    let mut m = EMPTY;
    m.states = states;
    m.sets = sets;
    m.observations[..states].copy_from_slice(&q[at..at + states]);
    m.start = mask_at(q, at + states);
    for s in 0..states {
        m.successors[s] = mask_at(q, at + states + 8 + 8 * s);
    }
    for k in 0..sets {
        m.fairness[k] = mask_at(q, at + 9 * states + 8 + 8 * k);
    }
    m
}

pub fn read(bytes: &[u8], table: &mut [u16]) -> Result<(Pair, bool), Refusal> {
    let refuse = |n| Err(Refusal(n, 0, 0, 0));
    if table.len() < ROOM {
        return refuse(1);
    }
    if bytes.is_empty() || bytes.len() % 512 != 0 {
        return refuse(2);
    }
    block(bytes, 3, 0)?;
    let h = &bytes[2..18];
    if &h[0..4] != b"DOM1" || h[9] > 1 || h[10..16].iter().any(|&x| x != 0) {
        return refuse(4);
    }
    let (nc, na, m, n) = (h[4] as usize, h[5] as usize, h[6] as usize, h[7] as usize);
    let (hidden, note) = (h[8], h[9] == 1);
    if !counts_ok(8, nc, m) || !counts_ok(7, na, n) {
        return refuse(5);
    }
    let len = payload_len(nc, na, m, n, note);
    let blocks = (len + 507) / 508;
    if bytes.len() != 512 * blocks {
        return refuse(6);
    }
    for i in 1..blocks {
        block(bytes, 7, i)?;
    }
    let mut q = [0u8; 116 * 508];
    for i in 0..blocks {
        q[508 * i..508 * i + 508].copy_from_slice(&bytes[512 * i + 2..512 * i + 510]);
    }
    if q[len..508 * blocks].iter().any(|&x| x != 0) {
        return refuse(8);
    }
    let c = machine_at(&q, 16, nc, m);
    let a = machine_at(&q, 24 + 9 * nc + 8 * m, na, n);
    content(0, &c)?;
    content(1, &a)?;
    if note {
        let at = payload_len(nc, na, m, n, false);
        for e in 0..n * nc * na {
            table[e] = u16::from_le_bytes([q[at + 2 * e], q[at + 2 * e + 1]]);
        }
    }
    Ok((Pair { c, a, hidden }, note))
}

fn put_machine(q: &mut Vec<u8>, m: &Machine) {
    q.extend_from_slice(&m.observations[..m.states]);
    q.extend_from_slice(&m.start.to_le_bytes());
    for s in 0..m.states {
        q.extend_from_slice(&m.successors[s].to_le_bytes());
    }
    for k in 0..m.sets {
        q.extend_from_slice(&m.fairness[k].to_le_bytes());
    }
}

pub fn write(p: &Pair, table: Option<&[u16]>, out: &mut [u8]) -> usize {
    let (c, a) = (&p.c, &p.a);
    let mut q = Vec::with_capacity(FILE_ROOM);
    q.extend_from_slice(b"DOM1");
    q.extend_from_slice(&[c.states as u8, a.states as u8, c.sets as u8, a.sets as u8, p.hidden, table.is_some() as u8, 0, 0, 0, 0, 0, 0]);
    put_machine(&mut q, c);
    put_machine(&mut q, a);
    if let Some(t) = table {
        for e in 0..a.sets * c.states * a.states {
            q.extend_from_slice(&t[e].to_le_bytes());
        }
    }
    let blocks = (q.len() + 507) / 508;
    q.resize(508 * blocks, 0);
    for i in 0..blocks {
        let b = &mut out[512 * i..512 * i + 512];
        b[0..2].copy_from_slice(&(i as u16).to_le_bytes());
        b[2..510].copy_from_slice(&q[508 * i..508 * i + 508]);
        let s = check_of(b) as u16;
        b[510..512].copy_from_slice(&s.to_le_bytes());
    }
    512 * blocks
}

// ---- the check

pub fn matched(p: &Pair) -> Set {
    let mut out = [0u64; 64];
    for s in 0..p.c.states {
        for t in 0..p.a.states {
            if p.hidden | p.c.observations[s] == p.hidden | p.a.observations[t] {
                out[s] |= 1 << t;
            }
        }
    }
    out
}

#[inline(always)]
fn has_partner(moves: u64, matched: u64, row: &[u16], bound: u16) -> bool {
    let mut m = moves & matched;
    while m != 0 {
        let a = m.trailing_zeros() as usize;
        if a < row.len() && row[a] <= bound {
            return true;
        }
        m &= m - 1;
    }
    false
}

fn first_failing(p: &Pair, t: &[u16]) -> Option<Refusal> {
    let mt = matched(p);
    let (c, a) = (&p.c, &p.a);
    let (nc, na, m, n) = (c.states, a.states, c.sets, a.sets);
    for j in 0..n {
        for s in 0..nc {
            for u in 0..na {
                let e = t[(j * nc + s) * na + u];
                if e == BLANK {
                    continue;
                }
                let fails = Some(Refusal(12, j + 1, s, u));
                if mt[s] >> u & 1 == 0 || e as usize > m * nc * na {
                    return fails;
                }
                let (section, bound) = if e == 0 {
                    if a.fairness[j] >> u & 1 == 0 {
                        return fails;
                    }
                    (if j + 1 == n { 0 } else { j + 1 }, BLANK - 1)
                } else {
                    let r = e as usize - 1;
                    if c.fairness[r % m] >> s & 1 == 1 { (j, (r / m * m) as u16) } else { (j, e) }
                };
                for d in bits(c.successors[s]) {
                    let from = (section * nc + d) * na;
                    if !has_partner(a.successors[u], mt[d], &t[from..from + na], bound) {
                        return fails;
                    }
                }
            }
        }
    }
    None
}

pub fn check(p: &Pair, t: &[u16]) -> Answer {
    if let Some(r) = first_failing(p, t) {
        return Answer::Refused(r);
    }
    let (c, a) = (&p.c, &p.a);
    let count = t[..a.sets * c.states * a.states].iter().filter(|&&e| e != BLANK).count();
    for s in bits(c.start) {
        if !bits(a.start).any(|u| t[s * a.states + u] != BLANK) {
            return Answer::NotCarried(s, count);
        }
    }
    Answer::Carried(count)
}

pub fn verdict(bytes: &[u8]) -> Answer {
    let mut t = [0u16; ROOM];
    match read(bytes, &mut t) {
        Err(r) => Answer::Refused(r),
        Ok((_, false)) => Answer::NoTable,
        Ok((p, true)) => check(&p, &t),
    }
}

// ---- the player

fn lasso_holds(c: &Machine, stem: &[u8], cycle: &[u8]) -> Result<(), Refusal> {
    let whole = stem.len() + cycle.len();
    if cycle.is_empty() || whole > 64 {
        return Err(Refusal(13, 0, 0, 0));
    }
    let at = |i: usize| if i < stem.len() { stem[i] as usize } else { cycle[(i - stem.len()) % cycle.len()] as usize };
    let moves = |s: usize, t: usize| s < 64 && t < 64 && c.successors[s] >> t & 1 == 1;
    for i in 0..whole {
        let entered = if i == 0 { at(0) < 64 && c.start >> at(0) & 1 == 1 } else { moves(at(i - 1), at(i)) };
        if at(i) >= c.states || !entered || (i + 1 == whole && !moves(at(i), at(i + 1))) {
            return Err(Refusal(14, i, 0, 0));
        }
    }
    for k in 0..c.sets {
        if !cycle.iter().any(|&s| c.fairness[k] >> s & 1 == 1) {
            return Err(Refusal(15, k + 1, 0, 0));
        }
    }
    Ok(())
}

// the state of the mask with the least entry that is not blank; of these the present state if it is one of them, else the lowest
fn best(present: Option<usize>, moves: u64, row: &[u16]) -> Option<usize> {
    bits(moves).filter(|&u| row[u] != BLANK).min_by_key(|&u| (row[u], present != Some(u)))
}

pub fn play(p: &Pair, t: &[u16], stem: &[u8], cycle: &[u8], run: &mut [u8]) -> Result<(usize, usize), Refusal> {
    if let Answer::Refused(r) = check(p, t) {
        return Err(r);
    }
    let (c, a) = (&p.c, &p.a);
    lasso_holds(c, stem, cycle)?;
    let (nc, na, n) = (c.states, a.states, a.sets);
    let row = |j: usize, s: usize| &t[(j * nc + s) * na..(j * nc + s + 1) * na];
    let at = |i: usize| if i < stem.len() { stem[i] as usize } else { cycle[(i - stem.len()) % cycle.len()] as usize };
    let mut u = best(None, a.start, row(0, at(0))).ok_or(Refusal(16, 0, 0, 0))?;
    let mut j = 0;
    let mut seen = [[0usize; 7]; 64];
    let mut i = 0;
    loop {
        if i >= stem.len() && (i - stem.len()) % cycle.len() == 0 {
            if seen[u][j] > 0 {
                let first = seen[u][j] - 1;
                return Ok((first, i - first));
            }
            seen[u][j] = i + 1;
        }
        run[i] = u as u8;
        if row(j, at(i))[u] == 0 {
            j = (j + 1) % n;
        }
        u = best(Some(u), a.successors[u], row(j, at(i + 1))).unwrap();
        i += 1;
    }
}

// At how many of the first moves of a play, of which the player has a run, the abstract state changes: with `stay` by the player's rule, and without
// it where of several partners of least entry the lowest number is always taken.
pub fn changes(p: &Pair, t: &[u16], stem: &[u8], cycle: &[u8], moves: usize, stay: bool) -> usize {
    let (c, a) = (&p.c, &p.a);
    let row = |j: usize, s: usize| &t[(j * c.states + s) * a.states..(j * c.states + s + 1) * a.states];
    let at = |i: usize| if i < stem.len() { stem[i] as usize } else { cycle[(i - stem.len()) % cycle.len()] as usize };
    let mut u = best(None, a.start, row(0, at(0))).unwrap();
    let (mut j, mut count) = (0, 0);
    for i in 0..moves {
        if row(j, at(i))[u] == 0 {
            j = (j + 1) % a.sets;
        }
        let v = best(stay.then_some(u), a.successors[u], row(j, at(i + 1))).unwrap();
        count += (u != v) as usize;
        u = v;
    }
    count
}

pub fn play_file(bytes: &[u8], stem: &[u8], cycle: &[u8], run: &mut [u8]) -> Result<Option<(usize, usize)>, Refusal> {
    let mut t = [0u16; ROOM];
    match read(bytes, &mut t)? {
        (_, false) => Ok(None),
        (p, true) => play(&p, &t, stem, cycle, run).map(Some),
    }
}

// ---- a show in, the same show with a solver's table out

pub fn solve_file(solve: fn(&Pair, &mut [u16]), bytes: &[u8], out: &mut [u8]) -> Result<usize, Refusal> {
    let mut t = [0u16; ROOM];
    let (p, _) = read(bytes, &mut t)?;
    nonempty(0, &p.c)?;
    nonempty(1, &p.a)?;
    solve(&p, &mut t);
    Ok(write(&p, Some(&t), out))
}
