//! The algorithm of the crate `graph`, in plain Rust: a bit for each pair of moments, closed by pairs of moments.

use crate::{AFTER, BEFORE, BenchScene, Entry, MOMENTS, TOGETHER};

/// A set of moments, a bit for each.
#[derive(Clone, Copy)]
struct Moments([u64; 4]);

impl Moments {
    const NONE: Moments = Moments([0; 4]);

    fn has(&self, moment: u8) -> bool {
        (self.0[moment as usize / 64] >> (moment % 64)) & 1 == 1
    }

    fn pair_from(&self, first: u8) -> usize {
        (self.0[first as usize / 64] >> (first % 64)) as usize & 3
    }

    fn put_if(&mut self, told: bool, moment: u8) {
        self.0[moment as usize / 64] |= (told as u64) << (moment % 64);
    }

    fn join(self, other: Moments) -> Moments {
        let (a, b) = (self.0, other.0);
        Moments([a[0] | b[0], a[1] | b[1], a[2] | b[2], a[3] | b[3]])
    }

    fn follow(&mut self, given: u8, other: Moments) {
        if self.has(given) {
            *self = self.join(other);
        }
    }

    fn within(&self, other: &Moments) -> bool {
        self.0.iter().zip(&other.0).all(|(a, b)| a & !b == 0)
    }
}

/// For each moment, the set of moments that it reaches.
struct Closure([Moments; MOMENTS]);

impl Closure {
    /// What steps lead to, from rows of a left moment, a set and a right moment.
    fn of(rows: impl Iterator<Item = (u8, u8, u8)>) -> Closure {
        let mut reached = [Moments::NONE; MOMENTS];
        for (m, set) in reached.iter_mut().enumerate() {
            set.put_if(true, m as u8);
        }
        for (left, set, right) in rows {
            reached[left as usize].put_if(set & AFTER == 0, right);
            reached[right as usize].put_if(set & BEFORE == 0, left);
        }
        for first in (0..=254).step_by(2) {
            let mut one = reached[first as usize];
            let mut next = reached[first as usize + 1];
            next.follow(first, one);
            one.follow(first + 1, next);
            let unions = [Moments::NONE, one, next, one.join(next)];
            for row in &mut reached {
                *row = row.join(unions[row.pair_from(first)]);
            }
        }
        Closure(reached)
    }

    fn same_group(&self, x: u8, y: u8) -> bool {
        self.0[x as usize].has(y) && self.0[y as usize].has(x)
    }

    fn lowest_ready(&self, back: &Closure, placed: Moments) -> Option<u8> {
        (0..=255).find(|&m| {
            let allowed = self.0[m as usize].join(placed);
            !placed.has(m) && back.0[m as usize].within(&allowed)
        })
    }
}

/// None where the rows clash.
fn closure_without_clash(scene: &BenchScene) -> Option<Closure> {
    let closure = Closure::of(scene.rows.iter().map(|row| (row.left, row.set, row.right)));
    let impossible = scene
        .rows
        .iter()
        .any(|row| row.set & TOGETHER == 0 && closure.same_group(row.left, row.right));
    if impossible { None } else { Some(closure) }
}

#[inline(never)]
pub fn consistent(scene: &BenchScene) -> bool {
    closure_without_clash(scene).is_some()
}

/// Writes the place and the leader of each moment; the answer is the number of places, 0 where the rows clash.
#[inline(never)]
pub fn order(scene: &BenchScene, entries: &mut [Entry; MOMENTS]) -> u16 {
    let Some(closure) = closure_without_clash(scene) else {
        return 0;
    };
    let back = Closure::of(scene.rows.iter().map(|row| (row.right, row.set, row.left)));
    let mut placed = Moments::NONE;
    let mut places = 0;
    while let Some(leader) = closure.lowest_ready(&back, placed) {
        places += 1;
        for m in 0..=255 {
            if closure.same_group(leader, m) {
                entries[m as usize] = Entry {
                    place: places,
                    leader: u16::from(leader),
                };
                placed.put_if(true, m);
            }
        }
    }
    places
}
