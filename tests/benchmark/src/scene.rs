//! The scans that are measured: one site and one grid, more or fewer gates.

use uldrevin::{
    place, Cells, EntryLists, GateLists, Grid, HrapGrid, RadolanGrid, ScanHead, Site, SumLists,
    Sums, Tally, Weighting,
};

const MESH_SIDE: i64 = 476_250;

pub struct Scene {
    pub name: &'static str,
    pub head: ScanHead,
    pub azimuths: Vec<u32>,
    pub values: Vec<u16>,
    pub qualities: Vec<u8>,
}

impl Scene {
    pub fn gate_lists(&self) -> GateLists<'_> {
        GateLists {
            azimuths: &self.azimuths,
            values: &self.values,
            qualities: &self.qualities,
        }
    }
}

/// All lists that a scan is worked into.
pub struct Lists {
    pub tally: Tally,
    pub cells: Cells,
}

impl Lists {
    pub fn lent(&mut self) -> (EntryLists<'_>, SumLists<'_>, &mut Cells) {
        let Tally {
            ledger,
            marks,
            sums,
        } = &mut self.tally;
        (EntryLists { ledger, marks }, sums.lists(), &mut self.cells)
    }
}

/// Lists of the scene's sizes, with something else in them than it gives.
pub fn lists_of(scene: &Scene) -> Lists {
    let (gates, cells) = (scene.head.all_gates(), scene.head.all_cells());
    Lists {
        tally: Tally {
            ledger: vec![1; gates],
            marks: vec![2; gates],
            sums: Sums {
                counts: vec![1; cells],
                quality_sums: vec![1; cells],
                value_sums: vec![1; cells],
                weighted_sums: vec![1; cells],
            },
        },
        cells: Cells {
            means: vec![1; cells],
            cell_qualities: vec![1; cells],
        },
    }
}

/// A window of the mesh with the radar in its middle cell.
fn hrap_window(site: Site, size: u32) -> Grid {
    let window = |i, j| HrapGrid {
        i,
        j,
        columns: size,
        rows: size,
    };
    let radar = place(site, Grid::Hrap(window(0, 0)), 0, 0).expect("a good site");
    let half = i64::from(size / 2);
    Grid::Hrap(window(
        radar.x.div_euclid(MESH_SIDE) + 401 - half,
        radar.y.div_euclid(MESH_SIDE) + 1_601 - half,
    ))
}

/// A fixed sequence of numbers that look random.
fn draws() -> impl FnMut(u64) -> u64 {
    let mut state: u64 = 20_270_118;
    move |below| {
        state = state
            .wrapping_mul(6_364_136_223_846_793_005)
            .wrapping_add(1_442_695_040_888_963_407);
        (state >> 33) % below
    }
}

/// Half of the gates have no echo, one in sixteen is not measured.
fn value(draw: &mut impl FnMut(u64) -> u64) -> u16 {
    match draw(16) {
        0 => uldrevin::NOT_MEASURED,
        1..=8 => uldrevin::NO_ECHO,
        _ => draw(3_000) as u16,
    }
}

/// Rays at even steps around the radar, the last gate centre 229 km away, however many gates there are.
fn scene(name: &'static str, site: Site, grid: Grid, rays: u32, gates: u32) -> Scene {
    let head = ScanHead {
        site,
        rays,
        gates,
        first: 0,
        spacing: 22_900_000 / (gates - 1),
        grid,
        weighting: Weighting::ByQuality,
    };
    let mut draw = draws();
    let (values, qualities) = (0..head.all_gates())
        .map(|_| (value(&mut draw), draw(101) as u8))
        .unzip();
    Scene {
        name,
        head,
        azimuths: (0..rays)
            .map(|ray| (2 * ray + 1) * 1_800_000 / rays)
            .collect(),
        values,
        qualities,
    }
}

/// 131 by 131 cells around a radar in Oklahoma.
pub fn hrap(rays: u32, gates: u32) -> Scene {
    let site = Site {
        latitude: 353_300,
        longitude: -972_800,
    };
    scene("HRAP 131 x 131", site, hrap_window(site, 131), rays, gates)
}

/// The weather service's raster of 900 by 900 cells, with a radar in Hesse.
pub fn radolan(rays: u32, gates: u32) -> Scene {
    let site = Site {
        latitude: 503_100,
        longitude: 87_100,
    };
    let grid = Grid::Radolan(RadolanGrid {
        x: -52_346_220,
        y: -465_864_470,
        side: 100_000,
        columns: 900,
        rows: 900,
    });
    scene("RADOLAN 900 x 900", site, grid, rays, gates)
}
