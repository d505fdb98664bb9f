//! The rules of document 01 and of T-01, T-02 and T-05 in document 02 in plain Rust, written from these alone. No code is shared with
//! the library.
//!
//! - `sine`: the tables S, F and G, and sine and cosine of any angle
//! - `placement`: a gate to its position, its cell and T-02's mark, and the refusals of one gate
//! - `scan`: a whole scan tallied to its ledger, marks and sums, and the refusals of a scan; cells published from sums
//! - `record`: a scan record read and written, and the refusals of a record
//! - `sweep`: T-01's scan that is opened, fed with rays and closed, and its refusals
//!
//! The numbers of a site, a grid, a scan's head, a sweep's state and a single gate may be any of 64 bits. A refusal is given as its number
//! there, the error of a `Result`.

#[cfg(test)]
mod example;
pub mod placement;
pub mod record;
pub mod scan;
pub mod sine;
pub mod sweep;
