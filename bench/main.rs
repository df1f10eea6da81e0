//! Times the proved calls of Vurkesh beside plain Rust on the same rows.

mod groups;
mod kinds;
mod same;

use kinds::{Kind, Random, SCENES, kinds, sparse};
use std::hint::black_box;
use std::process::ExitCode;
use std::time::Instant;

const MOMENTS: usize = 256;
const ROWS: usize = 4096;
const RUNS: usize = 500;

const BEFORE: u8 = 1;
const TOGETHER: u8 = 2;
const AFTER: u8 = 4;

#[derive(Clone, Copy)]
#[repr(C)]
struct BenchRow {
    left: u8,
    set: u8,
    right: u8,
}

#[repr(C)]
struct BenchScene {
    rows: [BenchRow; ROWS],
}

#[derive(Clone, Copy, Debug, PartialEq, Eq)]
#[repr(C)]
struct Entry {
    place: u16,
    leader: u16,
}

const BLANK: Entry = Entry {
    place: 0,
    leader: 0,
};

// The static library of the crate `bench_calls`.
unsafe extern "C" {
    safe fn vurkesh_consistent(scene: &BenchScene) -> bool;
    // The number of places; 0, and no entry written, where the rows clash.
    safe fn vurkesh_order(scene: &BenchScene, entries: &mut [Entry; MOMENTS]) -> u16;
}

/// What ways there are to answer a question about a scene.
type Way<'a, T> = (&'static str, &'a dyn Fn(&BenchScene) -> T);

const CONSISTENT: [Way<bool>; 4] = [
    ("vurkesh", &|scene| vurkesh_consistent(scene)),
    ("same algorithm", &same::consistent),
    ("Tarjan", &groups::tarjan),
    ("Kosaraju", &groups::kosaraju),
];

const ORDER: [Way<(u16, [Entry; MOMENTS])>; 2] = [
    ("vurkesh", &|scene| {
        with_entries(|entries| vurkesh_order(scene, entries))
    }),
    ("same algorithm", &|scene| {
        with_entries(|entries| same::order(scene, entries))
    }),
];

fn with_entries(order: impl FnOnce(&mut [Entry; MOMENTS]) -> u16) -> (u16, [Entry; MOMENTS]) {
    let mut entries = [BLANK; MOMENTS];
    let places = order(&mut entries);
    (places, entries)
}

/// Whether the entries obey every row, with the groups and places counted from 1 and none left out.
fn obeyed(scene: &BenchScene, places: u16, entries: &[Entry; MOMENTS]) -> bool {
    let rows = scene.rows.iter().all(|row| {
        let (left, right) = (
            entries[row.left as usize].place,
            entries[row.right as usize].place,
        );
        let relation = match left.cmp(&right) {
            std::cmp::Ordering::Less => BEFORE,
            std::cmp::Ordering::Equal => TOGETHER,
            std::cmp::Ordering::Greater => AFTER,
        };
        row.set & relation != 0
    });
    rows && (1..=places).all(|place| entries.iter().any(|entry| entry.place == place))
        && entries
            .iter()
            .all(|entry| (1..=places).contains(&entry.place))
}

/// That every way gives the same answers on a scene, which come back.
fn agreed(name: &str, scene: &BenchScene) -> Result<bool, String> {
    let consistent = same::consistent(scene);
    for (way, answer) in CONSISTENT {
        if answer(scene) != consistent {
            return Err(format!("{name}: {way} does not answer {consistent}"));
        }
    }
    let (places, entries) = ORDER[1].1(scene);
    if ORDER[0].1(scene) != (places, entries) {
        return Err(format!("{name}: another order"));
    }
    let right = if consistent {
        obeyed(scene, places, &entries)
    } else {
        places == 0 && entries == [BLANK; MOMENTS]
    };
    if right {
        Ok(consistent)
    } else {
        Err(format!("{name}: the order does not obey the rows"))
    }
}

fn all_agreed(kinds: &[Kind]) -> Result<(), String> {
    for kind in kinds {
        for scene in &kind.scenes {
            if agreed(kind.name, scene)? != kind.consistent {
                return Err(format!(
                    "{}: the answer is not {}",
                    kind.name, kind.consistent
                ));
            }
        }
    }
    let r = &mut Random::new();
    let mut consistent = 0;
    for few in 0..400 {
        consistent += agreed("sparse", &sparse(r, few))? as usize;
    }
    println!(
        "every way gives the same answers, on scenes of {} kinds and on 400 sparse scenes, of which {consistent} are consistent",
        kinds.len()
    );
    Ok(())
}

/// Microseconds.
#[derive(Clone, Copy)]
struct Times {
    median: f64,
    best: f64,
}

/// The times of each way, run by run in turn, so that what else the machine does hits all alike.
/// The first tenth of the runs is not counted.
fn timed<T, const N: usize>(ways: [Way<T>; N], scenes: &[BenchScene]) -> [Times; N] {
    let mut times = [(); N].map(|_| Vec::with_capacity(RUNS));
    for (run, scene) in scenes.iter().cycle().take(RUNS + RUNS / 10).enumerate() {
        for (times, (_, answer)) in times.iter_mut().zip(ways) {
            let start = Instant::now();
            black_box(answer(black_box(scene)));
            let time = start.elapsed();
            if run >= RUNS / 10 {
                times.push(time.as_secs_f64() * 1e6);
            }
        }
    }
    times.map(|mut times| {
        times.sort_by(f64::total_cmp);
        Times {
            median: times[times.len() / 2],
            best: times[0],
        }
    })
}

fn print_times<T, const N: usize>(ways: [Way<T>; N], rows: &[(&Kind, [Times; N])]) {
    print!("| Kind |");
    for (way, _) in ways {
        print!(" {way} |");
    }
    for (way, _) in &ways[1..] {
        print!(" to {way} |");
    }
    println!("\n|---|{}", "---|".repeat(2 * N - 1));
    for (kind, times) in rows {
        print!("| {} |", kind.name);
        for time in times {
            print!(" {:.1} ({:.1}) |", time.median, time.best);
        }
        for other in &times[1..] {
            print!(" {:.2} |", times[0].median / other.median);
        }
        println!();
    }
    println!();
}

fn print_limit(question: &str, kind: &Kind, way: &str, times: Times, other: Times, most: f64) {
    let ratio = times.median / other.median;
    let verdict = if ratio <= most {
        "holds"
    } else {
        "DOES NOT HOLD"
    };
    println!(
        "- {question}, {}: {ratio:.2} times {way}, at most {most}: {verdict}",
        kind.name
    );
}

/// Times each kind on its first scenes, and prints the tables and whether the limits hold.
fn report(kinds: &[Kind], scenes: usize, how: &str) {
    let consistent: Vec<_> = kinds
        .iter()
        .map(|kind| (kind, timed(CONSISTENT, &kind.scenes[..scenes])))
        .collect();
    let clear = kinds.iter().filter(|kind| kind.consistent);
    let order: Vec<_> = clear
        .map(|kind| (kind, timed(ORDER, &kind.scenes[..scenes])))
        .collect();

    println!("\n## {scenes} {how}\n\nConsistency:\n");
    print_times(CONSISTENT, &consistent);
    println!("Order:\n");
    print_times(ORDER, &order);

    println!("Limits:\n");
    for (kind, [ours, same, tarjan, _]) in &consistent {
        if kind.limited {
            print_limit("consistency", kind, "the same algorithm", *ours, *same, 1.5);
            print_limit("consistency", kind, "Tarjan", *ours, *tarjan, 2.0);
        }
    }
    for (kind, [ours, same]) in &order {
        print_limit("order", kind, "the same algorithm", *ours, *same, 1.5);
    }
}

fn main() -> ExitCode {
    let kinds = kinds();
    if let Err(fault) = all_agreed(&kinds) {
        eprintln!("{fault}");
        return ExitCode::FAILURE;
    }

    println!(
        "microseconds: the median of {RUNS} runs, and in brackets the best; ratios are of medians"
    );
    report(&kinds, SCENES, "scenes of each kind in turn");
    report(&kinds, 1, "scene of each kind again and again");
    ExitCode::SUCCESS
}
