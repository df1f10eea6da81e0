//! Consistency by the groups of moments that reach one another, found by two other algorithms.

use crate::{AFTER, BEFORE, BenchScene, MOMENTS, TOGETHER};

/// Whether no row that lacks together has both ends in one group.
fn possible(scene: &BenchScene, group: &[usize]) -> bool {
    scene
        .rows
        .iter()
        .all(|row| row.set & TOGETHER != 0 || group[row.left as usize] != group[row.right as usize])
}

struct Tarjan<'a> {
    next: &'a [Vec<usize>],
    /// When a moment was met, counted from 1; 0 where it was not.
    met: Vec<usize>,
    low: Vec<usize>,
    stack: Vec<usize>,
    stacked: Vec<bool>,
    group: Vec<usize>,
    count: usize,
    groups: usize,
}

impl Tarjan<'_> {
    fn visit(&mut self, v: usize) {
        self.count += 1;
        self.met[v] = self.count;
        self.low[v] = self.count;
        self.stack.push(v);
        self.stacked[v] = true;
        let next = self.next;
        for &w in &next[v] {
            if self.met[w] == 0 {
                self.visit(w);
                self.low[v] = self.low[v].min(self.low[w]);
            } else if self.stacked[w] {
                self.low[v] = self.low[v].min(self.met[w]);
            }
        }
        if self.low[v] == self.met[v] {
            while let Some(w) = self.stack.pop() {
                self.stacked[w] = false;
                self.group[w] = self.groups;
                if w == v {
                    break;
                }
            }
            self.groups += 1;
        }
    }
}

/// Tarjan's algorithm, recursive, over lists of the moments that a step leads to.
#[inline(never)]
pub fn tarjan(scene: &BenchScene) -> bool {
    let mut next = vec![Vec::new(); MOMENTS];
    for row in &scene.rows {
        let (left, right) = (row.left as usize, row.right as usize);
        if row.set & AFTER == 0 {
            next[left].push(right);
        }
        if row.set & BEFORE == 0 {
            next[right].push(left);
        }
    }
    let mut t = Tarjan {
        next: &next,
        met: vec![0; MOMENTS],
        low: vec![0; MOMENTS],
        stack: Vec::new(),
        stacked: vec![false; MOMENTS],
        group: vec![0; MOMENTS],
        count: 0,
        groups: 0,
    };
    for v in 0..MOMENTS {
        if t.met[v] == 0 {
            t.visit(v);
        }
    }
    possible(scene, &t.group)
}

/// A set of moments, a bit for each.
#[derive(Clone, Copy)]
struct Bits([u64; 4]);

impl Bits {
    fn put_if(&mut self, told: bool, m: u8) {
        self.0[m as usize / 64] |= (told as u64) << (m % 64);
    }

    fn take(&mut self, m: usize) {
        self.0[m / 64] &= !(1 << (m % 64));
    }

    fn has(&self, m: usize) -> bool {
        (self.0[m / 64] >> (m % 64)) & 1 == 1
    }

    /// The lowest moment that both have.
    fn first_of_both(&self, other: &Bits) -> Option<usize> {
        for i in 0..4 {
            let both = self.0[i] & other.0[i];
            if both != 0 {
                return Some(i * 64 + both.trailing_zeros() as usize);
            }
        }
        None
    }
}

/// The moments in the sequence in which a walk along steps leaves them.
fn left_in_turn(next: &[Bits; MOMENTS]) -> [usize; MOMENTS] {
    let mut unseen = Bits([u64::MAX; 4]);
    let mut stack = [0; MOMENTS];
    let mut left = [0; MOMENTS];
    let mut count = 0;
    for start in 0..MOMENTS {
        if !unseen.has(start) {
            continue;
        }
        unseen.take(start);
        stack[0] = start;
        let mut height = 1;
        while height > 0 {
            let v = stack[height - 1];
            if let Some(w) = next[v].first_of_both(&unseen) {
                unseen.take(w);
                stack[height] = w;
                height += 1;
            } else {
                left[count] = v;
                count += 1;
                height -= 1;
            }
        }
    }
    left
}

/// The group of each moment: from the last left to the first, whoever reaches it and has no group yet.
fn groups_of(before: &[Bits; MOMENTS], left: &[usize; MOMENTS]) -> [usize; MOMENTS] {
    let mut unseen = Bits([u64::MAX; 4]);
    let mut stack = [0; MOMENTS];
    let mut group = [0; MOMENTS];
    for &root in left.iter().rev() {
        if !unseen.has(root) {
            continue;
        }
        unseen.take(root);
        stack[0] = root;
        let mut height = 1;
        while height > 0 {
            height -= 1;
            let v = stack[height];
            group[v] = root;
            while let Some(w) = before[v].first_of_both(&unseen) {
                unseen.take(w);
                stack[height] = w;
                height += 1;
            }
        }
    }
    group
}

/// Kosaraju's algorithm over bit rows, with a stack of its own.
#[inline(never)]
pub fn kosaraju(scene: &BenchScene) -> bool {
    let mut next = [Bits([0; 4]); MOMENTS];
    let mut before = [Bits([0; 4]); MOMENTS];
    for row in &scene.rows {
        let (onward, backward) = (row.set & AFTER == 0, row.set & BEFORE == 0);
        next[row.left as usize].put_if(onward, row.right);
        before[row.right as usize].put_if(onward, row.left);
        next[row.right as usize].put_if(backward, row.left);
        before[row.left as usize].put_if(backward, row.right);
    }
    possible(scene, &groups_of(&before, &left_in_turn(&next)))
}
