//! Document 01's example for the sheet program, without its lists.

use crate::placement::{Grid, Site, HRAP_KIND, HRAP_SIDE};
use crate::scan::{Head, BY_QUALITY};

pub(crate) const EXAMPLE: Head = Head {
    site: Site {
        latitude: 600_000,
        longitude: -1_050_000,
    },
    rays: 1,
    gates: 2,
    first: 0,
    spacing: 100_000,
    grid: Grid {
        kind: HRAP_KIND,
        x: 400,
        y: 932,
        side: HRAP_SIDE,
        columns: 2,
        rows: 1,
    },
    weighting: BY_QUALITY,
};
