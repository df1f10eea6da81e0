//! The rows that are timed, from a fixed seed.

use crate::{BenchRow, BenchScene, ROWS};

/// The generator xorshift64.
pub struct Random(u64);

impl Random {
    pub fn new() -> Self {
        Random(0x9E37_79B9_7F4A_7C15)
    }

    /// A number below `end`.
    pub fn below(&mut self, end: usize) -> usize {
        self.0 ^= self.0 << 13;
        self.0 ^= self.0 >> 7;
        self.0 ^= self.0 << 17;
        (self.0 % end as u64) as usize
    }

    fn pick(&mut self, sets: &[u8]) -> u8 {
        sets[self.below(sets.len())]
    }

    fn moment(&mut self) -> u8 {
        self.below(256) as u8
    }

    /// Two moments, the first below the second.
    fn rising(&mut self) -> (u8, u8) {
        let left = self.below(255);
        let right = left + 1 + self.below(255 - left);
        (left as u8, right as u8)
    }
}

/// Scenes of one sort.
pub struct Kind {
    pub name: &'static str,
    pub scenes: Vec<BenchScene>,
    /// Whether some placement obeys the rows, the same of each scene.
    pub consistent: bool,
    /// Whether the limits of consistency are stated for this sort.
    pub limited: bool,
}

/// How many scenes of a sort there are. One scene run again and again is learned by the processor's
/// branch prediction, so that all are timed in turn too.
pub const SCENES: usize = 16;

const EVERY_SET: [u8; 7] = [1, 2, 3, 4, 5, 6, 7];
const RISING_SETS: [u8; 3] = [1, 3, 5];
const WEAK_SETS: [u8; 4] = [2, 3, 6, 7];

fn scene(mut row: impl FnMut() -> BenchRow) -> BenchScene {
    BenchScene {
        rows: std::array::from_fn(|_| row()),
    }
}

fn random(r: &mut Random) -> BenchScene {
    scene(|| BenchRow {
        left: r.moment(),
        set: r.pick(&EVERY_SET),
        right: r.moment(),
    })
}

fn rising(r: &mut Random) -> BenchScene {
    scene(|| {
        let (left, right) = r.rising();
        BenchRow {
            left,
            set: r.pick(&RISING_SETS),
            right,
        }
    })
}

fn weak(r: &mut Random) -> BenchScene {
    scene(|| BenchRow {
        left: r.moment(),
        set: r.pick(&WEAK_SETS),
        right: r.moment(),
    })
}

/// A rising scene with left and right exchanged.
fn falling(r: &mut Random) -> BenchScene {
    let mut scene = rising(r);
    for row in &mut scene.rows {
        *row = BenchRow {
            left: row.right,
            set: row.set,
            right: row.left,
        };
    }
    scene
}

/// A rising scene whose moments have changed names.
fn shuffled(r: &mut Random) -> BenchScene {
    let mut names: [u8; 256] = std::array::from_fn(|m| m as u8);
    for last in (1..256).rev() {
        names.swap(last, r.below(last + 1));
    }
    let mut scene = rising(r);
    for row in &mut scene.rows {
        *row = BenchRow {
            left: names[row.left as usize],
            set: row.set,
            right: names[row.right as usize],
        };
    }
    scene
}

pub fn kinds() -> Vec<Kind> {
    let r = &mut Random::new();
    let mut kind = |name, one: fn(&mut Random) -> BenchScene, consistent, limited| Kind {
        name,
        scenes: (0..SCENES).map(|_| one(r)).collect(),
        consistent,
        limited,
    };
    vec![
        kind("random", random, false, true),
        kind("rising", rising, true, true),
        kind("weak", weak, true, true),
        kind("falling", falling, true, false),
        kind("shuffled", shuffled, true, false),
    ]
}

/// A scene of a few random rows; the others have all three relations, so they say nothing.
pub fn sparse(r: &mut Random, few: usize) -> BenchScene {
    let mut left_over = few.min(ROWS);
    scene(|| {
        let set = if left_over > 0 { r.pick(&EVERY_SET) } else { 7 };
        left_over = left_over.saturating_sub(1);
        BenchRow {
            left: r.moment(),
            set,
            right: r.moment(),
        }
    })
}
