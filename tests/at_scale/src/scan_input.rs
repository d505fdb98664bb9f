//! Draws of a scan's head and its three lists, good and wrong.

use crate::draw::Draw;
use crate::sites_and_grids::{
    good_site, grid_anywhere, grid_kind, grid_near, position, range_at_mesh_line, spoil_grid,
    spoil_site,
};
use plain_program::placement::{Site, AZIMUTHS, FARTHEST, HRAP_KIND, LAST_AZIMUTH, RANGES};
use plain_program::scan::{
    Given, Head, BY_QUALITY, GATES, MOST_GATES, MOST_QUALITY, MOST_SPACING, NOT_MEASURED, NO_ECHO,
    PLAIN, RAYS, SPACINGS,
};
use plain_program::sine::Tables;

const LARGEST_VALUE: u16 = 65_533;

#[derive(Clone, Debug)]
pub struct ScanInput {
    pub head: Head,
    pub azimuths: Vec<u32>,
    pub values: Vec<u16>,
    pub qualities: Vec<u8>,
}

impl ScanInput {
    pub fn given(&self) -> Given<'_> {
        Given {
            azimuths: &self.azimuths,
            values: &self.values,
            qualities: &self.qualities,
        }
    }

    pub fn gate_lists(&self) -> uldrevin::GateLists<'_> {
        uldrevin::GateLists {
            azimuths: &self.azimuths,
            values: &self.values,
            qualities: &self.qualities,
        }
    }

    /// So many rays from one on, all numbers but that of the rays kept; after the last ray comes the first again.
    pub fn rays_from(&self, first: usize, count: usize) -> ScanInput {
        let gates = self.head.gates as usize;
        let rays = (first..first + count).map(|ray| ray % self.azimuths.len());
        let gate_places = rays.clone().flat_map(|ray| ray * gates..(ray + 1) * gates);
        ScanInput {
            head: Head {
                rays: count as i64,
                ..self.head
            },
            azimuths: rays.map(|ray| self.azimuths[ray]).collect(),
            values: gate_places.clone().map(|gate| self.values[gate]).collect(),
            qualities: gate_places.map(|gate| self.qualities[gate]).collect(),
        }
    }
}

/// Rays, gates in a ray, and the most columns and rows.
#[derive(Clone, Copy)]
pub struct Shape {
    pub rays: i64,
    pub gates: i64,
    pub most_cells: i64,
}

/// First centre and spacing of so many gates in a ray, often with the last centre at its limit.
fn centres(draw: &mut Draw, gates: i64) -> (i64, i64) {
    let steps = (gates - 1).max(1);
    let most = MOST_SPACING.min(FARTHEST / steps);
    let near = draw.one_of(&[most, most.min(100), most.min(100_000)]);
    let spacing = draw.good(1..=near);
    let first = draw.good(0..=FARTHEST - steps * spacing);
    (first, spacing)
}

/// The same with the gates a few centimetres apart and, where that can be, before and behind the range.
fn centres_about(draw: &mut Draw, gates: i64, range: i64) -> (i64, i64) {
    let spacing = draw.good(1..=3);
    let before = draw.within(0..=gates - 1) * spacing;
    let first = (range - before).max(0);
    (first.min(FARTHEST - (gates - 1) * spacing), spacing)
}

/// A range near which edge lines are met; those of RADOLAN are drawn to it afterwards.
fn range_at_lines(draw: &mut Draw, tables: &Tables, kind: i64, site: Site, azimuth: i64) -> i64 {
    match kind {
        HRAP_KIND => range_at_mesh_line(draw, tables, site, azimuth),
        _ => draw.good(RANGES),
    }
}

/// A head with every number good but for the shape, which is taken as it is. Mostly a ray at the azimuth meets the grid.
fn head(draw: &mut Draw, tables: &Tables, shape: Shape, azimuth: i64) -> Head {
    let (site, kind) = (good_site(draw), grid_kind(draw));
    let gates = shape.gates.clamp(1, MOST_GATES);
    let (first, spacing) = match draw.below(4) {
        0 => {
            let range = range_at_lines(draw, tables, kind, site, azimuth);
            centres_about(draw, gates, range)
        }
        _ => centres(draw, gates),
    };
    let range = first + draw.within(0..=gates - 1) * spacing;
    let grid = match draw.below(16) {
        0 => grid_anywhere(draw, kind, shape.most_cells),
        _ => {
            let near = position(tables, kind, site, azimuth, range);
            grid_near(draw, kind, near, shape.most_cells)
        }
    };
    Head {
        site,
        rays: shape.rays,
        gates: shape.gates,
        first,
        spacing,
        grid,
        weighting: draw.one_of(&[PLAIN, BY_QUALITY]),
    }
}

/// Azimuths one behind the other around the circle, all equal, or anywhere.
fn azimuths(draw: &mut Draw, rays: i64) -> Vec<u32> {
    let (start, manner) = (draw.good(AZIMUTHS), draw.below(3));
    let step = (LAST_AZIMUTH + 1) / rays.max(1);
    let azimuth = |ray: i64| match manner {
        0 => start,
        1 => (start + ray * step) % (LAST_AZIMUTH + 1),
        _ => draw.good(AZIMUTHS),
    };
    (0..rays).map(azimuth).map(|good| good as u32).collect()
}

fn mixed_value(draw: &mut Draw) -> u16 {
    match draw.below(8) {
        0 => NO_ECHO,
        1 => NOT_MEASURED,
        2 => draw.one_of(&[0, 1, LARGEST_VALUE - 1, LARGEST_VALUE]),
        3 => draw.below(10) as u16,
        _ => draw.bits() as u16,
    }
}

fn values(draw: &mut Draw, gates: usize) -> Vec<u16> {
    match draw.below(16) {
        0 => vec![LARGEST_VALUE; gates],
        1 => vec![NOT_MEASURED; gates],
        2 => vec![NO_ECHO; gates],
        _ => (0..gates).map(|_| mixed_value(draw)).collect(),
    }
}

fn mixed_quality(draw: &mut Draw) -> u8 {
    match draw.below(8) {
        0 => 0,
        1 => MOST_QUALITY,
        _ => draw.below(usize::from(MOST_QUALITY) + 1) as u8,
    }
}

fn qualities(draw: &mut Draw, gates: usize) -> Vec<u8> {
    match draw.below(16) {
        0 => vec![MOST_QUALITY; gates],
        1 => vec![0; gates],
        2 => (0..gates).map(|_| draw.below(2) as u8).collect(),
        _ => (0..gates).map(|_| mixed_quality(draw)).collect(),
    }
}

/// A scan with every number good but for the shape, which is taken as it is.
pub fn scan_of(draw: &mut Draw, tables: &Tables, shape: Shape) -> ScanInput {
    let gates = (shape.rays * shape.gates) as usize;
    let azimuths = azimuths(draw, shape.rays);
    let met = match azimuths.len() {
        0 => 0,
        _ => draw.one_of(&azimuths),
    };
    ScanInput {
        head: head(draw, tables, shape, met.into()),
        azimuths,
        values: values(draw, gates),
        qualities: qualities(draw, gates),
    }
}

/// Spoils the centres: the first, the spacing, or the last by one centimetre or more.
fn spoil_centres(draw: &mut Draw, head: &mut Head) {
    match draw.below(3) {
        0 => head.first = draw.wrong(RANGES),
        1 => head.spacing = draw.wrong(SPACINGS),
        _ => {
            let over = draw.good(0..=2);
            let length = head.gates.wrapping_sub(1).wrapping_mul(head.spacing);
            head.first = (FARTHEST + over).wrapping_sub(length);
        }
    }
}

/// Spoils one number of the head, other than rays and gates.
pub fn spoil_number(draw: &mut Draw, head: &mut Head) {
    match draw.below(8) {
        0..=1 => spoil_centres(draw, head),
        2..=3 => spoil_site(draw, &mut head.site),
        4 => head.weighting = draw.wrong(PLAIN..=BY_QUALITY),
        _ => spoil_grid(draw, &mut head.grid),
    }
}

/// Puts a wrong azimuth or quality somewhere.
pub fn spoil_contents(draw: &mut Draw, scan: &mut ScanInput) {
    let azimuth = draw.wrong(AZIMUTHS) as u32;
    let wrong = draw.within(i64::from(MOST_QUALITY) + 1..=255) as u8;
    let quality = draw.one_of(&[MOST_QUALITY + 1, 255, wrong]);
    if draw.one_in(2) {
        put_somewhere(draw, &mut scan.azimuths, azimuth);
    } else {
        put_somewhere(draw, &mut scan.qualities, quality);
    }
}

/// Puts the number first, last or anywhere in a list that has a place.
fn put_somewhere<T>(draw: &mut Draw, list: &mut [T], number: T) {
    if list.is_empty() {
        return;
    }
    let (last, place) = (list.len() - 1, draw.below(list.len()));
    list[draw.one_of(&[0, last, place])] = number;
}

fn spoil_length<T: Clone + Default>(draw: &mut Draw, list: &mut Vec<T>) {
    list.resize(draw.wrong_length(list.len()), T::default());
}

/// Spoils the length of a list.
pub fn spoil_lengths(draw: &mut Draw, scan: &mut ScanInput) {
    match draw.below(3) {
        0 => spoil_length(draw, &mut scan.azimuths),
        1 => spoil_length(draw, &mut scan.values),
        _ => spoil_length(draw, &mut scan.qualities),
    }
}

/// Spoils one thing of a scan that a call hands in.
pub fn spoil(draw: &mut Draw, scan: &mut ScanInput) {
    match draw.below(7) {
        0 => scan.head.rays = draw.wrong(RAYS),
        1 => scan.head.gates = draw.wrong(GATES),
        2 => spoil_lengths(draw, scan),
        3 => spoil_contents(draw, scan),
        _ => spoil_number(draw, &mut scan.head),
    }
}
