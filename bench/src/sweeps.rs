//! The solver's own algorithm in plain Rust, step for step. The table is nested iteration's (nested.rs).
//!
//! - The abstract states with a partner in a row are the union of the predecessors of the row's states.
//! - An X is found with a worklist: a row is looked at again only when the row of a successor has lost a pair.
//! - Sections are swept in place, the last one first, and a section is solved again only when the set of the next one has lost a pair.
//!   Its goals only shrink meanwhile, so ranks only rise, and an X starts from the pairs whose entries so far let them be in it.
use crate::plain::{bits, full, matched, Machine, Pair, Set, BLANK};

struct Game<'a> {
    c: &'a Machine,
    a: &'a Machine,
    matched: Set,
    concrete_predecessors: Set,
    abstract_predecessors: Set,
}

// for each state the states that move to it
fn predecessors(m: &Machine) -> Set {
    let mut out = [0u64; 64];
    for s in 0..m.states {
        for t in bits(m.successors[s]) {
            out[t] |= 1 << s;
        }
    }
    out
}

impl Game<'_> {
    fn partners(&self, row: u64) -> u64 {
        bits(row).fold(0, |m, u| m | self.abstract_predecessors[u])
    }

    fn partner_rows(&self, set: &Set) -> Set {
        let mut out = [0u64; 64];
        for d in 0..self.c.states {
            out[d] = self.partners(set[d]);
        }
        out
    }

    // the abstract states whose pair with c steps into the set that has these partner rows
    fn meet(&self, c: usize, rows: &Set) -> u64 {
        bits(self.c.successors[c]).fold(u64::MAX, |m, d| m & rows[d])
    }

    // the largest X within the start in which each pair is in the base, or has c outside the concrete fairness set and steps into X
    fn largest(&self, base: &Set, fair: u64, start: &Set, start_rows: &Set) -> Set {
        let mut x = *start;
        let mut rows = *start_rows;
        let mut due = full(self.c.states);
        while due != 0 {
            let c = due.trailing_zeros() as usize;
            due &= due - 1;
            let stay = if fair >> c & 1 == 0 { self.meet(c, &rows) } else { 0 };
            let row = x[c] & (base[c] | stay);
            if row != x[c] {
                x[c] = row;
                rows[c] = self.partners(row);
                due |= self.concrete_predecessors[c];
            }
        }
        x
    }

    // writes an entry for the pairs of x that are not in y
    fn write_entry(&self, x: &Set, y: &Set, entry: u16, section: &mut [u16]) {
        for c in 0..self.c.states {
            for u in bits(x[c] & !y[c]) {
                section[c * self.a.states + u] = entry;
            }
        }
    }

    // the pairs with an entry of at most the bound
    fn up_to(&self, section: &[u16], bound: u16) -> Set {
        let mut out = [0u64; 64];
        for (row, entries) in out.iter_mut().zip(section.chunks_exact(self.a.states)) {
            for (u, &entry) in entries.iter().enumerate() {
                *row |= ((entry <= bound) as u64) << u;
            }
        }
        out
    }

    // solves a section over the next section's set, and says whether its own set has lost a pair
    fn solve_section(&self, fair: u64, next: &Set, section: &mut [u16]) -> bool {
        let (nc, m) = (self.c.states, self.c.sets);
        let before = self.up_to(section, BLANK - 1);
        let rows = self.partner_rows(next);
        let mut goals = [0u64; 64];
        for c in 0..nc {
            goals[c] = self.matched[c] & fair & self.meet(c, &rows);
        }
        let mut level = [0u64; 64];
        for l in 0..nc * self.a.states {
            let rows = self.partner_rows(&level);
            let (mut base, mut seen) = ([0u64; 64], [0u64; 64]);
            for c in 0..nc {
                base[c] = self.matched[c] & (goals[c] | self.meet(c, &rows));
                seen[c] = goals[c] | level[c];
            }
            let start = self.up_to(section, (l * m + m) as u16);
            let start_rows = self.partner_rows(&start);
            for k in 0..m {
                let x = self.largest(&base, self.c.fairness[k], &start, &start_rows);
                self.write_entry(&x, &seen, (l * m + k + 1) as u16, section);
                for c in 0..nc {
                    seen[c] |= x[c];
                }
            }
            if seen == level {
                break;
            }
            level = seen;
        }
        self.write_entry(&before, &level, BLANK, section);
        before != level
    }
}

pub fn solve(p: &Pair, t: &mut [u16]) {
    let (c, a) = (&p.c, &p.a);
    let g = Game { c, a, matched: matched(p), concrete_predecessors: predecessors(c), abstract_predecessors: predecessors(a) };
    let (n, pairs) = (a.sets, c.states * a.states);
    for j in 0..n {
        for s in 0..c.states {
            for u in 0..a.states {
                t[(j * c.states + s) * a.states + u] = if g.matched[s] >> u & 1 == 1 { 0 } else { BLANK };
            }
        }
    }
    // the lowest bit is the last section
    let mut due = full(n);
    while due != 0 {
        let i = due.trailing_zeros() as usize;
        due &= due - 1;
        let j = n - 1 - i;
        let after = (j + 1) % n * pairs;
        let next = g.up_to(&t[after..after + pairs], BLANK - 1);
        if g.solve_section(a.fairness[j], &next, &mut t[j * pairs..(j + 1) * pairs]) {
            due |= 1 << ((i + 1) % n);
        }
    }
}
