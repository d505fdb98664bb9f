//! One sine and one placement, by the library and by the plain program.

use std::hint::black_box;
use std::process::exit;

use at_scale::library::{from_head, from_placement};
use plain_program::placement;
use plain_program::sine::Tables;
use uldrevin::{place, sine};

use crate::measure::{best_round, timed};
use crate::scene::Scene;

/// In one round.
const CALLS: u32 = 3_600;

/// All around, every remainder by 1,000 among the angles.
fn azimuth(call: u32) -> u32 {
    call * 1_001 % 3_600_000
}

/// Up to 229 km.
fn range(call: u32) -> u32 {
    call * 6_361
}

fn all_calls<T>(work: &impl Fn(u32) -> T) {
    for call in 0..CALLS {
        black_box(work(black_box(call)));
    }
}

/// Compares what the two answer, times them in turn, and prints the best round of each.
fn print_row<T: PartialEq>(name: &str, library: impl Fn(u32) -> T, plain: impl Fn(u32) -> T) {
    if let Some(call) = (0..CALLS).find(|&call| library(call) != plain(call)) {
        println!("different: {name} of call {call} by the library and by the plain program");
        exit(1);
    }
    let (best, _) = best_round(|_| [timed(|| all_calls(&library)), timed(|| all_calls(&plain))]);
    let [library, plain] = best.map(|time| time / f64::from(CALLS));
    let ratio = library / plain;
    println!("| {name} | {library:.1} | {plain:.1} | {ratio:.2} |");
}

pub fn print_calls(tables: &Tables, scene: &Scene) {
    println!("Nanoseconds a call, best round");
    println!();
    println!("| call | library | plain program | library / plain |");
    println!("|---|---|---|---|");
    print_row(
        "sine",
        |call| sine(azimuth(call).into()),
        |call| tables.sine(azimuth(call).into()),
    );
    let (site, grid, head) = (scene.head.site, scene.head.grid, from_head(scene.head));
    print_row(
        "place",
        |call| {
            place(site, grid, azimuth(call), range(call))
                .map(from_placement)
                .map_err(|refusal| refusal.number)
        },
        |call| {
            let (azimuth, range) = (azimuth(call).into(), range(call).into());
            placement::place(tables, head.site, head.grid, azimuth, range)
        },
    );
    println!();
}
