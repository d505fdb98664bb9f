//! The tables of times, ratios, growth, the single calls of a whole scan and sweeps.

use crate::measure::{Times, CALLS, GROUPS};
use crate::scene::Scene;
use crate::FULL_SIZE;

/// A number for a table, or a dash where it was not measured.
fn cell(number: Option<f64>, decimals: usize) -> String {
    match number {
        Some(number) => format!("{number:.decimals$}"),
        None => "-".to_string(),
    }
}

pub fn print_times(measured: &[(Scene, Times)]) {
    println!("Nanoseconds a gate, best round");
    println!();
    println!("| grid | rays x gates | rounds | whole scan | single calls | plain program | numpy and PROJ |");
    println!("|---|---|---|---|---|---|---|");
    for (scene, times) in measured {
        println!(
            "| {} | {} x {} | {} | {:.1} | {:.1} | {:.1} | {} |",
            scene.name,
            scene.head.rays,
            scene.head.gates,
            times.rounds,
            times.whole,
            times.single,
            times.plain,
            cell(times.pipeline.as_ref().map(|found| found.nanoseconds), 1),
        );
    }
    println!();
}

pub fn print_ratios(measured: &[(Scene, Times)]) {
    println!("Ratios of these");
    println!();
    println!("| grid | rays x gates | whole / single calls | whole / plain | whole / numpy and PROJ | gates in another cell by numpy and PROJ |");
    println!("|---|---|---|---|---|---|");
    for (scene, times) in measured {
        let pipeline = times.pipeline.as_ref();
        println!(
            "| {} | {} x {} | {:.3} | {:.2} | {} | {} |",
            scene.name,
            scene.head.rays,
            scene.head.gates,
            times.whole / times.single,
            times.whole / times.plain,
            cell(pipeline.map(|found| times.whole / found.nanoseconds), 3),
            cell(pipeline.map(|found| found.other_cells as f64), 0),
        );
    }
    println!();
}

/// The time of a call beside that of the scene with all gates on the same grid.
pub fn print_growth(measured: &[(Scene, Times)]) {
    println!("Growth with the number of gates, each beside the scan of 360 x 230");
    println!();
    println!("| grid | rays x gates | gates | times as many gates | times as long, whole scan | times as long, plain program |");
    println!("|---|---|---|---|---|---|");
    for (scene, times) in measured {
        let full = measured.iter().find(|(other, _)| {
            other.name == scene.name && (other.head.rays, other.head.gates) == FULL_SIZE
        });
        let (all, base) = full.expect("a scene of the full size");
        let growth = scene.values.len() as f64 / all.values.len() as f64;
        println!(
            "| {} | {} x {} | {} | {:.2} | {:.2} | {:.2} |",
            scene.name,
            scene.head.rays,
            scene.head.gates,
            scene.values.len(),
            growth,
            growth * times.whole / base.whole,
            growth * times.plain / base.plain,
        );
    }
    println!();
}

/// Each call of the whole scan of the full size. Publishing goes over the cells, whatever the gates, so these are times of a call.
pub fn print_parts(measured: &[(Scene, Times)]) {
    println!("Tally and publishing of the scan of 360 x 230, microseconds a call, best round");
    println!();
    println!("| grid | call | library | plain program | library / plain |");
    println!("|---|---|---|---|---|");
    for (scene, times) in measured {
        if (scene.head.rays, scene.head.gates) != FULL_SIZE {
            continue;
        }
        let both = times.calls.into_iter().zip(times.plain_calls);
        for (call, (library, plain)) in CALLS.into_iter().zip(both) {
            println!(
                "| {} | {call} | {:.1} | {:.1} | {:.2} |",
                scene.name,
                library / 1_000.0,
                plain / 1_000.0,
                library / plain,
            );
        }
    }
    println!();
}

/// The time of a sweep beside that of the whole scan.
pub fn print_sweeps(measured: &[(Scene, Times)]) {
    println!("Sweeps of the same gates, each opened, fed and closed");
    println!();
    println!("| grid | rays x gates | rays at a time | nanoseconds a gate | sweep / whole scan |");
    println!("|---|---|---|---|---|");
    for (scene, times) in measured {
        let sweeps = times.sweeps.into_iter().flatten();
        for (group, time) in GROUPS.into_iter().zip(sweeps) {
            println!(
                "| {} | {} x {} | {group} | {time:.1} | {:.2} |",
                scene.name,
                scene.head.rays,
                scene.head.gates,
                time / times.whole,
            );
        }
    }
    println!();
}
