//! Runs pipeline.py, the same scan by numpy and PROJ, where a Python that has both is found.

use std::io::Write;
use std::process::{Command, Stdio};

use uldrevin::{Grid, Weighting};

use crate::scene::Scene;

const SCRIPT: &str = concat!(env!("CARGO_MANIFEST_DIR"), "/pipeline.py");
const ROUNDS: u32 = 10;

/// The system's Python has the system's packages, also where another one comes first.
const PYTHONS: [&str; 2] = ["python3", "/usr/bin/python3"];

pub struct Pipeline {
    python: &'static str,
}

pub struct Measured {
    pub nanoseconds: f64,
    /// Gates whose ledger entry is not the library's.
    pub other_cells: usize,
}

fn metres(centimetres: i64) -> String {
    (centimetres as f64 / 100.0).to_string()
}

fn degrees(angle: i64) -> String {
    (angle as f64 / 10_000.0).to_string()
}

/// The arguments of pipeline.py, in the order of its Head.
fn arguments(scene: &Scene) -> Vec<String> {
    let head = &scene.head;
    let (radius, meridian, x, y, side) = match head.grid {
        Grid::Radolan(grid) => (637_004_000, 100_000, grid.x, grid.y, i64::from(grid.side)),
        Grid::Hrap(grid) => (
            637_120_000,
            -1_050_000,
            (grid.i - 401) * 476_250,
            (grid.j - 1_601) * 476_250,
            476_250,
        ),
    };
    vec![
        metres(radius),
        degrees(meridian),
        degrees(head.site.latitude),
        degrees(head.site.longitude),
        head.rays.to_string(),
        head.gates.to_string(),
        metres(i64::from(head.first)),
        metres(i64::from(head.spacing)),
        metres(x),
        metres(y),
        metres(side),
        head.grid.columns().to_string(),
        head.grid.rows().to_string(),
        u32::from(head.weighting == Weighting::ByQuality).to_string(),
        ROUNDS.to_string(),
    ]
}

/// Azimuths, values, qualities and the library's ledger, low byte first.
fn input(scene: &Scene, ledger: &[u32]) -> Vec<u8> {
    let mut bytes = Vec::new();
    bytes.extend(
        scene
            .azimuths
            .iter()
            .flat_map(|number| number.to_le_bytes()),
    );
    bytes.extend(scene.values.iter().flat_map(|number| number.to_le_bytes()));
    bytes.extend(&scene.qualities);
    bytes.extend(ledger.iter().flat_map(|number| number.to_le_bytes()));
    bytes
}

impl Pipeline {
    pub fn find() -> Option<Pipeline> {
        let has_both = |python: &&str| {
            let mut command = Command::new(python);
            command.args(["-c", "import numpy, pyproj"]);
            command.stderr(Stdio::null());
            command.status().is_ok_and(|status| status.success())
        };
        let python = PYTHONS.into_iter().find(has_both)?;
        Some(Pipeline { python })
    }

    pub fn measure(&self, scene: &Scene, ledger: &[u32]) -> Option<Measured> {
        let mut child = Command::new(self.python)
            .arg(SCRIPT)
            .args(arguments(scene))
            .stdin(Stdio::piped())
            .stdout(Stdio::piped())
            .spawn()
            .ok()?;
        child.stdin.take()?.write_all(&input(scene, ledger)).ok()?;
        let answer = child.wait_with_output().ok()?;
        let text = String::from_utf8(answer.stdout).ok()?;
        let (nanoseconds, other_cells) = text.trim().split_once(' ')?;
        Some(Measured {
            nanoseconds: nanoseconds.parse().ok()?,
            other_cells: other_cells.parse().ok()?,
        })
    }
}
