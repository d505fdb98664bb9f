//! A scan fed to a sweep.

use uldrevin::{GateLists, Refusal, Sweep};

use crate::scene::{Lists, Scene};

/// So many rays of the scene at a time, fewer at the end.
fn groups(scene: &Scene, rays: usize) -> impl Iterator<Item = GateLists<'_>> {
    let gates = rays * scene.head.gates as usize;
    let azimuths = scene.azimuths.chunks(rays);
    let values = scene.values.chunks(gates);
    let qualities = scene.qualities.chunks(gates);
    azimuths
        .zip(values)
        .zip(qualities)
        .map(|((azimuths, values), qualities)| GateLists {
            azimuths,
            values,
            qualities,
        })
}

fn sweep(scene: &Scene, rays: usize, lists: &mut Lists) -> Result<Sweep, Refusal> {
    let (entries, sums, cells) = &mut lists.lent();
    let mut sweep = Sweep::open(scene.head, sums)?;
    for group in groups(scene, rays) {
        sweep = sweep.take(group, entries, sums)?;
    }
    sweep.close(sums, &mut cells.means, &mut cells.cell_qualities)
}

/// Opens a sweep, feeds it so many rays at a time, and closes it. Answers the refusal, or 0.
pub fn swept(scene: &Scene, rays: usize, lists: &mut Lists) -> u32 {
    match sweep(scene, rays, lists) {
        Ok(_) => 0,
        Err(refusal) => refusal.number,
    }
}
