//! Pairs of machines to compare and to measure on: random ones, and ones made by hand to be slow.
use crate::plain::{full, Machine, Pair, EMPTY};

pub struct Random(pub u64);

impl Random {
    fn next(&mut self) -> u64 {
        self.0 ^= self.0 << 13;
        self.0 ^= self.0 >> 7;
        self.0 ^= self.0 << 17;
        self.0.wrapping_mul(0x2545F4914F6CDD1D)
    }

    pub fn below(&mut self, n: usize) -> usize {
        (self.next() >> 33) as usize % n
    }

    // a mask of states below n, each with a chance of d in 16
    fn mask(&mut self, n: usize, d: usize) -> u64 {
        (0..n).filter(|_| self.below(16) < d).fold(0, |m, s| m | 1 << s)
    }

    pub fn machine(&mut self, states: usize, sets: usize, observations: usize, moves: usize, fair: usize) -> Machine {
        let mut m = EMPTY;
        m.states = states;
        m.sets = sets;
        m.start = 1 << self.below(states) | self.mask(states, 2);
        for s in 0..states {
            m.observations[s] = self.below(observations) as u8;
            m.successors[s] = 1 << self.below(states) | self.mask(states, moves);
        }
        for k in 0..sets {
            m.fairness[k] = self.mask(states, fair);
        }
        m
    }

    pub fn pair(&mut self, limit: usize) -> Pair {
        let (nc, na, m, n) = (1 + self.below(limit), 1 + self.below(limit), 1 + self.below(8), 1 + self.below(7));
        let (o, x, y) = (1 + self.below(3), self.below(8), 1 + self.below(15));
        let (u, v) = (4 + self.below(12), 8 + self.below(8));
        Pair::new(self.machine(nc, m, o, x, y), self.machine(na, n, o, u, v))
    }

    // a mask of states below n, each with a chance of d in 1000
    fn thin_mask(&mut self, n: usize, d: usize) -> u64 {
        (0..n).filter(|_| self.below(1000) < d).fold(0, |m, s| m | 1 << s)
    }

    // moves at random, or a ring with shortcuts, or such a ring some of whose states may wait; chances are out of 1000
    fn shaped(&mut self, states: usize, sets: usize, observations: usize, moves: usize, fair: usize) -> Machine {
        let mut m = EMPTY;
        m.states = states;
        m.sets = sets;
        m.start = 1;
        let shape = self.below(3);
        for s in 0..states {
            m.observations[s] = self.below(observations) as u8;
            m.successors[s] = if shape == 0 {
                self.thin_mask(states, moves)
            } else {
                let shortcut = if self.below(1000) < moves { 1 << self.below(states) } else { 0 };
                let wait = if shape == 2 { (self.below(2) as u64) << s } else { 0 };
                1 << ((s + 1) % states) | shortcut | wait
            };
            if m.successors[s] == 0 {
                m.successors[s] = 1 << self.below(states);
            }
        }
        for k in 0..sets {
            m.fairness[k] = self.thin_mask(states, fair);
        }
        m
    }

    // a pair of any density and of these numbers of states; half of the time its fairness sets have very few states
    pub fn shaped_pair(&mut self, nc: usize, na: usize) -> Pair {
        let (m, n, o) = (1 + self.below(8), 1 + self.below(7), 1 + self.below(3));
        let (x, u) = (5 * self.below(100), 10 * self.below(100));
        let y = if self.below(2) == 0 { 30 } else { 10 * self.below(50) };
        let v = if self.below(2) == 0 { 20 } else { 7 * self.below(45) };
        Pair::new(self.shaped(nc, m, o, x, y), self.shaped(na, n, o, u, v))
    }

    // a small pair of the first hard family, with some moves and sets changed
    pub fn altered_hard_pair(&mut self) -> Pair {
        let states = 10 + self.below(5);
        let (x, y) = (2 + self.below(states - 6), 2 + self.below(states - 8));
        let lengths = Lengths { x, x2: states - 2 - x, y, y2: states - 4 - y };
        let wait = if self.below(5) == 0 { None } else { Some(self.below(4)) };
        let mut p = first_hard(lengths, wait, 1 + self.below(3), 1 + self.below(3));
        for _ in 0..self.below(5) {
            for machine in [&mut p.c, &mut p.a] {
                let (s, k) = (self.below(states), self.below(machine.sets));
                machine.successors[s] ^= 1 << self.below(states);
                if machine.successors[s] == 0 {
                    machine.successors[s] = 1;
                }
                machine.fairness[k] ^= 1 << self.below(states);
            }
        }
        p
    }

    // A hidden mask for half of the pairs: bits that their observations use, which are the lowest two, or others. Hidden bits of one machine, of both
    // or of none are then changed at random, so that many states are matched only thanks to the mask.
    pub fn may_hide(&mut self, p: &mut Pair) {
        if self.below(2) == 0 {
            return;
        }
        p.hidden = match self.below(4) {
            0 => 1 + self.below(3),
            1 => 1 + self.below(255),
            _ => 4 * (1 + self.below(63)),
        } as u8;
        let changed = self.below(4);
        for (i, machine) in [&mut p.c, &mut p.a].into_iter().enumerate() {
            if changed >> i & 1 == 1 {
                for s in 0..machine.states {
                    machine.observations[s] ^= self.below(256) as u8 & p.hidden;
                }
            }
        }
    }
}

fn machine_of(states: usize, sets: usize) -> Machine {
    Machine { states, sets, start: 1, ..EMPTY }
}

// a concrete cycle, all of it one observation, against an abstract chain whose sets alternate
pub fn chain(states: usize, m: usize, n: usize) -> Pair {
    let mut c = machine_of(states, m);
    for s in 0..states {
        c.successors[s] = 1 << ((s + 1) % states);
    }
    for k in 0..m {
        c.fairness[k] = 1 << (k * states / m);
    }
    let mut a = machine_of(states, n);
    for s in 0..states {
        a.successors[s] = 1 << s | 1 << (s + 1).min(states - 1);
    }
    for j in 0..n {
        a.fairness[j] = (0..states).filter(|s| s % n == j).fold(0, |x, s| x | 1 << s);
    }
    Pair::new(c, a)
}

// which states of a linked chain are in its fairness sets: the state in which the last link waits, or the second states of links
pub enum Links {
    Last,
    All,
    Fourths,
}

// A concrete ring that shows observation 1 once a round, against an abstract chain of 32 links. A link is a state that waits and one that shows
// observation 1 and leads to the next link; where each fourth link is in the sets, the others may also wait again.
pub fn linked_chain(links: Links) -> Pair {
    let mut c = machine_of(64, 8);
    c.observations[0] = 1;
    for s in 0..64 {
        c.successors[s] = 1 << ((s + 1) % 64);
    }
    for k in 0..8 {
        c.fairness[k] = 1;
    }
    let mut a = machine_of(64, 7);
    let mut fair = 0u64;
    for i in 0..32 {
        let (wait, show) = (2 * i, 2 * i + 1);
        a.observations[show] = 1;
        a.successors[wait] = 1 << wait | 1 << show;
        a.successors[show] = 1 << if i < 31 { wait + 2 } else { wait };
        match links {
            Links::Last => fair = 1 << wait,
            Links::All if i < 31 => fair |= 1 << show,
            Links::All => (),
            Links::Fourths if i % 4 == 0 => fair |= 1 << show,
            Links::Fourths => a.successors[show] |= 1 << wait,
        }
    }
    for j in 0..7 {
        a.fairness[j] = fair;
    }
    Pair::new(c, a)
}

// 64 states of one observation, those below `length` in a ring and the others leading into it; each of the sets is the mask `fair`
fn ring(length: usize, sets: usize, fair: u64) -> Machine {
    let mut x = machine_of(64, sets);
    for s in 0..64 {
        x.successors[s] = 1 << ((s + 1) % length);
    }
    for k in 0..sets {
        x.fairness[k] = fair;
    }
    x
}

// rings of 64 and of 61 states, every state in every set: the run of a lasso round the first comes back to its beginning only after 61 rounds, or
// 61 x 7 where the sections go round too
pub fn rings(m: usize, n: usize) -> Pair {
    Pair::new(ring(64, m, full(64)), ring(61, n, full(64)))
}

// two rings of 64 states, every concrete state and one abstract state in every set: each step towards that state is a level, and of 64 entries
// one is 0 and the others are ranks
pub fn ranked_rings(m: usize, n: usize) -> Pair {
    Pair::new(ring(64, m, full(64)), ring(64, n, 1))
}

// machines whose texts are the longest: every state is a start state, is in every set and has all successors, and no bit of an observation is set
pub fn longest_texts() -> Pair {
    let complete = |sets| {
        let mut x = machine_of(64, sets);
        x.start = full(64);
        x.successors = [full(64); 64];
        x.fairness[..sets].fill(full(64));
        x
    };
    Pair::new(complete(8), complete(7))
}

// The hard families. The concrete machine has rings of x and x2 states, the abstract one rings of y and y2. Where two lengths are coprime, the
// pairs of two rings are one long chain, and three such chains lie one in another:
// - x beside y: all are goals while the next pair is in the next section's set, and one pair is lost, so that in each turn one more leaves the set;
// - x2 beside y2: in every concrete set, and one pair leads to the universal state, so that in each level of each turn one more enters;
// - x beside y2: in no concrete set and no goals, and one pair is lost, so that in each round of each X one more leaves.
// Nested iteration steps all pairs some (x y) n (x2 y2) m (x y2) times, which is the sixth power of the number of states.
#[derive(Clone, Copy)]
pub struct Lengths {
    pub x: usize,
    pub x2: usize,
    pub y: usize,
    pub y2: usize,
}

// the two rings, then a state with observation 1 and one with observation 2, which stay
fn concrete_rings(r: Lengths, sets: usize) -> Machine {
    let mut c = machine_of(r.x + r.x2 + 2, sets);
    let (one, two) = (r.x + r.x2, r.x + r.x2 + 1);
    for s in 0..r.x {
        c.successors[s] = 1 << ((s + 1) % r.x) | 1 << two;
    }
    c.successors[0] |= 1 << one;
    for s in 0..r.x2 {
        c.successors[r.x + s] = 1 << (r.x + (s + 1) % r.x2);
        if s != 1 {
            c.successors[r.x + s] |= 1 << two;
        }
    }
    for (s, observation) in [(one, 1), (two, 2)] {
        c.observations[s] = observation;
        c.successors[s] = 1 << s;
    }
    for k in 0..sets {
        c.fairness[k] = full(one) & !full(r.x);
    }
    c
}

// the two rings, then a state that leads to the universal one, the universal state, which has an answer to every move, one with observation 1 and one
// with observation 2; the rings' first states lack observation 1
fn abstract_rings(r: Lengths, states: usize, sets: usize) -> Machine {
    let mut a = machine_of(states, sets);
    let after = r.y + r.y2;
    let (universal, one, two) = (after + 1, after + 2, after + 3);
    for s in 0..r.y {
        a.successors[s] = 1 << ((s + 1) % r.y) | 1 << one | 1 << two;
    }
    for s in 0..r.y2 {
        a.successors[r.y + s] = 1 << (r.y + (s + 1) % r.y2) | 1 << one | 1 << two;
    }
    a.successors[0] &= !(1 << one);
    a.successors[r.y] &= !(1 << one);
    a.successors[r.y] |= 1 << after;
    a.successors[after] = 1 << universal;
    a.successors[universal] = 1 << universal | 1 << one | 1 << two;
    for (s, observation) in [(one, 1), (two, 2)] {
        a.observations[s] = observation;
        a.successors[s] = 1 << s;
    }
    for j in 0..sets {
        a.fairness[j] = full(r.y) | 1 << universal | 1 << one | 1 << two;
    }
    a
}

// x + x2 + 2 and y + y2 + 4 states; the pair that the first chain loses may wait for the third chain, from a place of the ring y2 on
pub fn first_hard(r: Lengths, wait: Option<usize>, m: usize, n: usize) -> Pair {
    let mut a = abstract_rings(r, r.y + r.y2 + 4, n);
    if let Some(w) = wait {
        a.successors[0] |= 1 << (r.y + w % r.y2);
    }
    Pair::new(concrete_rings(r, m), a)
}

// x + x2 + 2 and y + y2 + 7 states. Made against solvers that drop at first what cannot stay: the third chain stays, one level above all of the
// second, and the first one is lost only by fairness.
pub fn second_hard(r: Lengths, m: usize, n: usize) -> Pair {
    let mut c = concrete_rings(r, m);
    let one = r.x + r.x2;
    c.successors[one] = 1 << (r.x + 1);
    for k in 0..m {
        c.fairness[k] |= 1 << one;
    }
    let mut a = abstract_rings(r, r.y + r.y2 + 7, n);
    let (universal, one, two) = (r.y + r.y2 + 1, r.y + r.y2 + 2, r.y + r.y2 + 3);
    let (to_ring, to_idle, idle) = (two + 1, two + 2, two + 3);
    a.successors[one] = 1 << universal;
    a.successors[0] |= 1 << to_idle;
    a.successors[r.y] |= 1 << to_ring;
    for (s, moves) in [(to_ring, 1 << (r.y + 1)), (to_idle, 1 << idle)] {
        a.observations[s] = 1;
        a.successors[s] = moves;
    }
    a.successors[idle] = 1 << idle | 1 << two;
    Pair::new(c, a)
}
