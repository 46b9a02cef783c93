//! The arc cosine of musl's `acosf`, written out, since Rust leaves `acos` to the platform.
//!
//! Each operation is one f32 operation; the compiler contracts none of them.

/// 1.6666586697e-01, -4.2743422091e-02, -8.6563630030e-03, -7.0662963390e-01.
const P0: f32 = 1.6666586697e-01;
const P1: f32 = -4.2743422091e-02;
const P2: f32 = -8.6563630030e-03;
const Q1: f32 = -7.0662963390e-01;
/// Half of pi, in two parts.
const HIGH: f32 = f32::from_bits(0x3fc9_0fda);
const LOW: f32 = f32::from_bits(0x33a2_2168);
/// 2^-26.
const TINY: f32 = f32::from_bits(0x3280_0000);

fn r(z: f32) -> f32 {
    z * (P0 + z * (P1 + z * P2)) / (1.0 + z * Q1)
}

/// The arc cosine of `v`; a not-a-number for a not-a-number and outside -1 to 1.
pub fn acosf(v: f32) -> f32 {
    if v.is_nan() {
        return v;
    }
    if v == 1.0 {
        return 0.0;
    }
    if v == -1.0 {
        return 2.0 * HIGH;
    }
    if v.abs() <= TINY {
        return HIGH;
    }
    if v.abs() < 0.5 {
        return HIGH - (v - (LOW - v * r(v * v)));
    }
    if v <= -0.5 {
        let z = (1.0 + v) * 0.5;
        let s = z.sqrt();
        return 2.0 * (HIGH - (s + (r(z) * s - LOW)));
    }
    let z = (1.0 - v) * 0.5;
    let s = z.sqrt();
    let d = f32::from_bits(s.to_bits() & 0xffff_f000);
    let c = (z - d * d) / (s + d);
    2.0 * (d + (r(z) * s + c))
}

/// `x.acosf()` in the place of the published `x.acos()`.
pub trait Acosf {
    fn acosf(self) -> f32;
}

impl Acosf for f32 {
    fn acosf(self) -> f32 {
        acosf(self)
    }
}
