//! Document 01, "Sine tables" and "Sine of any angle".

pub(crate) const Q_BITS: u32 = 30;
pub(crate) const Q: i64 = 1 << Q_BITS;

const QUARTER: i64 = 900_000;
const TURN: i64 = 3_600_000;

/// The floor of the quotient by Q: the shift goes towards minus infinity.
pub(crate) fn by_q(number: i64) -> i64 {
    number >> Q_BITS
}

/// The tables' series are worked in fixed point with 18 decimals.
const ONE: i128 = 1_000_000_000_000_000_000;
const PI: i128 = 314_159_265_358_979_323_846; // with 20 decimals

/// Q times the sum of x^n / n! with alternating signs, for n from `power` to `last` in steps of 2, with 18 decimals.
fn q_times_series(angle: i128, mut power: i128, last: i128) -> i128 {
    let x = angle * PI / 180_000_000;
    let mut term = if power == 0 { ONE } else { x };
    let mut sum = term;
    while power < last {
        term = -(term * x / ONE * x / ONE) / ((power + 1) * (power + 2));
        sum += term;
        power += 2;
    }
    i128::from(Q) * sum
}

fn nearest(number: i128) -> i64 {
    (2 * number + ONE).div_euclid(2 * ONE) as i64
}

fn q_times_sine(angle: usize) -> i128 {
    q_times_series(angle as i128, 1, 21)
}

fn q_times_cosine(angle: usize) -> i128 {
    q_times_series(angle as i128, 0, 20)
}

pub struct Tables {
    s: [i64; 901],
    f: [i64; 1_000],
    g: [i64; 1_000],
}

impl Default for Tables {
    fn default() -> Tables {
        Tables::new()
    }
}

impl Tables {
    pub fn new() -> Tables {
        Tables {
            s: std::array::from_fn(|a| nearest(q_times_sine(1_000 * a))),
            f: std::array::from_fn(|b| nearest(q_times_sine(b))),
            g: std::array::from_fn(|b| nearest(q_times_cosine(b))),
        }
    }

    fn first_quarter(&self, t: i64) -> i64 {
        let (a, b) = ((t / 1_000) as usize, (t % 1_000) as usize);
        by_q(self.s[a] * self.g[b] + self.s[900 - a] * self.f[b])
    }

    pub fn sine(&self, angle: i64) -> i64 {
        let turned = angle.rem_euclid(TURN);
        let t = turned % QUARTER;
        match turned / QUARTER {
            0 => self.first_quarter(t),
            1 => self.first_quarter(QUARTER - t),
            2 => -self.first_quarter(t),
            _ => -self.first_quarter(QUARTER - t),
        }
    }

    /// The angle is taken modulo first, so that the sum fits for every angle.
    pub fn cosine(&self, angle: i64) -> i64 {
        self.sine(angle.rem_euclid(TURN) + QUARTER)
    }
}

#[cfg(test)]
mod tests {
    use super::*;

    /// How far Q times a series is from the nearest half between two whole numbers.
    fn from_half(number: i128) -> i128 {
        (number.rem_euclid(ONE) - ONE / 2).abs()
    }

    /// The cut decimals move Q times a series by less than a millionth, so no entry is rounded the wrong way.
    #[test]
    fn no_entry_is_near_a_half() {
        let millionth = ONE / 1_000_000;
        assert!((0..=900).all(|a| from_half(q_times_sine(1_000 * a)) > millionth));
        assert!((0..1_000).all(|b| from_half(q_times_sine(b)) > millionth));
        assert!((0..1_000).all(|b| from_half(q_times_cosine(b)) > millionth));
    }

    #[test]
    fn the_quarters() {
        let tables = Tables::new();
        assert_eq!(tables.sine(0), 0);
        assert_eq!(tables.sine(300_000), Q / 2);
        assert_eq!(tables.sine(900_000), Q);
        assert_eq!(tables.sine(2_100_000), -Q / 2);
        assert_eq!(tables.sine(-900_000), -Q);
        assert_eq!(tables.cosine(1_800_000), -Q);
    }
}
