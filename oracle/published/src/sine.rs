//! Document 01, "UVs and corners": the stand-in for sine and cosine that the
//! Rust is built with, so that no platform's library enters a comparison.

/// 2/π, and π/2 in three parts, of which the first two are short enough that
/// their products with a small whole number are exact.
const TWO_OVER_PI: f32 = f32::from_bits(0x3F22_F983);
const HALF_PI_HIGH: f32 = f32::from_bits(0x3FC9_0000);
const HALF_PI_MIDDLE: f32 = f32::from_bits(0x39FD_A000);
#[allow(clippy::excessive_precision)] // as document 01 writes it
const HALF_PI_LOW: f32 = 7.549_789_954_891_88e-8;

/// What the published text calls in place of `sin`, `cos` and `sin_cos`.
pub trait StandIn {
    fn stand_in_sin(self) -> f32;
    fn stand_in_cos(self) -> f32;
    fn stand_in_sin_cos(self) -> (f32, f32);
}

impl StandIn for f32 {
    fn stand_in_sin(self) -> f32 {
        self.stand_in_sin_cos().0
    }

    fn stand_in_cos(self) -> f32 {
        self.stand_in_sin_cos().1
    }

    fn stand_in_sin_cos(self) -> (f32, f32) {
        let n = (self * TWO_OVER_PI).round();
        let r = ((self - n * HALF_PI_HIGH) - n * HALF_PI_MIDDLE) - n * HALF_PI_LOW;
        let z = r * r;
        let s = sine_near_zero(r, z);
        let c = cosine_near_zero(z);
        match (n as i64).rem_euclid(4) {
            0 => (s, c),
            1 => (c, -s),
            2 => (-s, -c),
            _ => (-c, s),
        }
    }
}

fn sine_near_zero(r: f32, z: f32) -> f32 {
    let (c3, c5, c7, c9) = (-1.0 / 6.0, 1.0 / 120.0, -1.0 / 5040.0, 1.0 / 362_880.0);
    r + (r * z) * (c3 + z * (c5 + z * (c7 + z * c9)))
}

fn cosine_near_zero(z: f32) -> f32 {
    let (d2, d4, d6, d8) = (-1.0 / 2.0, 1.0 / 24.0, -1.0 / 720.0, 1.0 / 40_320.0);
    1.0 + z * (d2 + z * (d4 + z * (d6 + z * d8)))
}

#[cfg(test)]
mod tests {
    use super::*;

    /// Document 01 has radians as degrees times 0x3C8EFA35. The published text
    /// calls `to_radians`, which is that product in the Rust at hand.
    #[test]
    fn radians_are_the_product() {
        let factor = f32::from_bits(0x3C8E_FA35);
        for bits in (0..=u32::MAX).step_by(257) {
            let degrees = f32::from_bits(bits);
            let (by_rust, product) = (degrees.to_radians(), degrees * factor);
            assert!(
                by_rust.to_bits() == product.to_bits() || (by_rust.is_nan() && product.is_nan()),
                "{bits:08x}"
            );
        }
    }

    /// Close to the true sine and cosine over the admitted angles.
    #[test]
    fn near_the_true_sine() {
        for half_degrees in -7200..=7200 {
            let x = (half_degrees as f32 * 0.5).to_radians();
            let (sine, cosine) = x.stand_in_sin_cos();
            assert!((sine as f64 - (x as f64).sin()).abs() < 1e-6, "{x}");
            assert!((cosine as f64 - (x as f64).cos()).abs() < 1e-6, "{x}");
        }
    }
}
