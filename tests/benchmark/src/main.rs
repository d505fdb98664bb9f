//! Times of a whole scan by the library, which is a tally and publishing by quality, of the same gates fed to a sweep and by single calls,
//! of the plain program, and of numpy with PROJ; of the tally and of publishing in both weightings alone; then of one sine and one
//! placement, and bytes of stack.
//!
//! Every round works the whole scan, publishing plain besides, and the same by the plain program, for the scan of the full size the sweeps,
//! every tenth the single calls too, and the best round of each counts. Nothing is asserted about speed; before anything is timed, the
//! ledgers, marks, sums and cells of both weightings have to be the same.

mod measure;
mod one_call;
mod pipeline;
mod plain;
mod report;
mod scene;
mod stack;
mod stack_of_calls;
mod sweep;

use measure::measure;
use pipeline::Pipeline;
use plain_program::sine::Tables;
use scene::Scene;

/// One tenth of the gates, all, and the most that the rules allow, which is 8.7 times as many.
const SIZES: [(u32, u32); 3] = [(36, 230), FULL_SIZE, (720, 1_000)];
const FULL_SIZE: (u32, u32) = (360, 230);

fn main() {
    let tables = Tables::new();
    let pipeline = Pipeline::find();
    if pipeline.is_none() {
        println!("No Python with numpy and pyproj is here: that column stays empty.");
        println!();
    }
    let kinds: [fn(u32, u32) -> Scene; 2] = [scene::hrap, scene::radolan];
    let mut measured = Vec::new();
    for kind in kinds {
        for (rays, gates) in SIZES {
            let scene = kind(rays, gates);
            let times = measure(&tables, &scene, pipeline.as_ref());
            measured.push((scene, times));
        }
    }
    report::print_times(&measured);
    report::print_ratios(&measured);
    report::print_growth(&measured);
    report::print_parts(&measured);
    report::print_sweeps(&measured);
    let scene = scene::hrap(FULL_SIZE.0, FULL_SIZE.1);
    one_call::print_calls(&tables, &scene);
    stack_of_calls::print_stack(&scene);
}
