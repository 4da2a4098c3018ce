//! The solver by plain nested iteration of the fixpoints, as docs/RULES.md states them: every X from all matched pairs, every level from the
//! empty set, every section again in each turn, and a last pass for the ranks. It is the plainest way to the table, and the other opinion on it.
use crate::plain::{bits, full, matched, Machine, Pair, Set, BLANK};

struct Game<'a> {
    c: &'a Machine,
    a: &'a Machine,
    matched: Set,
}

impl Game<'_> {
    #[inline(always)]
    fn steps(&self, s: &Set) -> Set {
        let mut part = [0u64; 64];
        for d in 0..self.c.states {
            let mut m = 0;
            for u in 0..self.a.states {
                if self.a.successors[u] & s[d] != 0 {
                    m |= 1 << u;
                }
            }
            part[d] = m;
        }
        let mut out = [0u64; 64];
        for x in 0..self.c.states {
            let mut m = full(self.a.states);
            for d in bits(self.c.successors[x]) {
                m &= part[d];
            }
            out[x] = m;
        }
        out
    }

    fn goals(&self, j: usize, next: &Set) -> Set {
        let s = self.steps(next);
        let mut out = [0u64; 64];
        for x in 0..self.c.states {
            out[x] = self.matched[x] & self.a.fairness[j] & s[x];
        }
        out
    }

    fn x(&self, k: usize, base: &Set) -> Set {
        let mut x = self.matched;
        loop {
            let s = self.steps(&x);
            let mut y = [0u64; 64];
            for c in 0..self.c.states {
                let stay = if self.c.fairness[k] >> c & 1 == 0 { s[c] } else { 0 };
                y[c] = self.matched[c] & (base[c] | stay);
            }
            if y == x {
                return x;
            }
            x = y;
        }
    }

    fn levels(&self, goals: &Set, mut visit: impl FnMut(usize, usize, &Set)) -> Set {
        let mut below = [0u64; 64];
        let mut l = 1;
        loop {
            let mut base = self.steps(&below);
            for c in 0..64 {
                base[c] |= goals[c];
            }
            let mut next = [0u64; 64];
            for k in 0..self.c.sets {
                let x = self.x(k, &base);
                visit(l, k, &x);
                for c in 0..64 {
                    next[c] |= x[c];
                }
            }
            if next == below {
                return below;
            }
            below = next;
            l += 1;
        }
    }
}

pub fn solve(p: &Pair, t: &mut [u16]) {
    let (c, a) = (&p.c, &p.a);
    let g = Game { c, a, matched: matched(p) };
    let n = a.sets;
    let mut z = [g.matched; 7];
    loop {
        let mut w = z;
        for j in 0..n {
            let goals = g.goals(j, &z[(j + 1) % n]);
            w[j] = g.levels(&goals, |_, _, _| ());
        }
        if w == z {
            break;
        }
        z = w;
    }
    for j in 0..n {
        let goals = g.goals(j, &z[(j + 1) % n]);
        let mut rank = [[BLANK; 64]; 64];
        for s in 0..c.states {
            for u in bits(goals[s]) {
                rank[s][u] = 0;
            }
        }
        let mut done = goals;
        g.levels(&goals, |l, k, x| {
            for s in 0..c.states {
                for u in bits(x[s] & !done[s]) {
                    rank[s][u] = ((l - 1) * c.sets + k + 1) as u16;
                }
                done[s] |= x[s];
            }
        });
        for s in 0..c.states {
            t[(j * c.states + s) * a.states..(j * c.states + s + 1) * a.states].copy_from_slice(&rank[s][..a.states]);
        }
    }
}
