//! The side that is compared with the oracle: the port as linked, or for the self-test the oracle's own answers,
//! with one bit wrong where that is asked.

use expect::{Estimate, Lent, Patch, BUDGET};
use generate::Case;
use oracle::Limits;
use port::Quality;
use std::cell::Cell;

pub trait Side {
    fn number(&self, call: Number, x: f32, y: f32, z: f32) -> Value;
    fn circumradius(&self, c: &[f32; 9]) -> f32;
    fn quality(&self, c: &[f32; 9]) -> Quality;
    fn acceptable(&self, quality: Quality, radius: f32, limits: &Limits) -> bool;
    fn estimate(&self, case: &Case, lent: &mut Lent) -> Estimate;
    fn reconstruct(&self, case: &Case, lent: &mut Lent) -> Patch;
    fn origins(&self, case: &Case, turned: bool, lent: &mut Lent, origins: &mut [u32]) -> Patch;
}

/// The calls on one to three numbers.
#[derive(Clone, Copy, Debug, PartialEq, Eq)]
pub enum Number {
    Sqrt,
    Acos,
    Cut,
    CeilCut,
    Min,
    Max,
    Clamp,
}

#[derive(Clone, Copy, Debug)]
pub enum Value {
    Float(f32),
    Whole(u32),
}

impl Number {
    pub const ALL: [Number; 7] =
        [Number::Sqrt, Number::Acos, Number::Cut, Number::CeilCut, Number::Min, Number::Max, Number::Clamp];

    pub fn call(self) -> &'static str {
        match self {
            Number::Sqrt => "yb_sqrt",
            Number::Acos => "yb_acos",
            Number::Cut => "yb_cut",
            Number::CeilCut => "yb_ceil_cut",
            Number::Min => "yb_min",
            Number::Max => "yb_max",
            Number::Clamp => "yb_clamp",
        }
    }

    pub fn oracle(self, x: f32, y: f32, z: f32) -> Value {
        match self {
            Number::Sqrt => Value::Float(x.sqrt()),
            Number::Acos => Value::Float(oracle::acosf::acosf(x)),
            Number::Cut => Value::Whole(x as u32),
            Number::CeilCut => Value::Whole(x.ceil() as u32),
            Number::Min => Value::Float(x.min(y)),
            Number::Max => Value::Float(x.max(y)),
            Number::Clamp => Value::Float(x.clamp(y, z)),
        }
    }
}

/// The port's static library.
pub struct Linked;

impl Side for Linked {
    fn number(&self, call: Number, x: f32, y: f32, z: f32) -> Value {
        match call {
            Number::Sqrt => Value::Float(port::sqrt(x)),
            Number::Acos => Value::Float(port::acos(x)),
            Number::Cut => Value::Whole(port::cut(x)),
            Number::CeilCut => Value::Whole(port::ceil_cut(x)),
            Number::Min => Value::Float(port::min(x, y)),
            Number::Max => Value::Float(port::max(x, y)),
            Number::Clamp => Value::Float(port::clamp(x, y, z)),
        }
    }

    fn circumradius(&self, c: &[f32; 9]) -> f32 {
        port::circumradius(c)
    }

    fn quality(&self, c: &[f32; 9]) -> Quality {
        port::quality(c)
    }

    fn acceptable(&self, quality: Quality, radius: f32, limits: &Limits) -> bool {
        port::acceptable(quality, radius, limits)
    }

    fn estimate(&self, case: &Case, lent: &mut Lent) -> Estimate {
        port::estimate(&case.points, case.percentile, &mut lent.words, &mut lent.floats)
    }

    fn reconstruct(&self, case: &Case, lent: &mut Lent) -> Patch {
        port::reconstruct(&case.points, &case.normals, &case.settings, lent)
    }

    fn origins(&self, case: &Case, turned: bool, lent: &mut Lent, origins: &mut [u32]) -> Patch {
        port::reconstruct_with_origins(&case.points, &case.normals, &case.settings, turned, lent, origins)
    }
}

/// The oracle in the port's place. `fault` names the place where, at the `left`-th chance, one bit is turned.
pub struct Mirror {
    pub fault: &'static str,
    pub left: Cell<u32>,
}

pub fn measures(q: &oracle::TriangleQuality) -> Quality {
    Quality {
        aspect_ratio: q.aspect_ratio,
        min_angle: q.min_angle,
        max_angle: q.max_angle,
        area: q.area,
        edge_ratio: q.edge_ratio,
        quality_score: q.quality_score,
    }
}

pub fn published(q: &Quality) -> oracle::TriangleQuality {
    oracle::TriangleQuality {
        aspect_ratio: q.aspect_ratio,
        min_angle: q.min_angle,
        max_angle: q.max_angle,
        area: q.area,
        edge_ratio: q.edge_ratio,
        quality_score: q.quality_score,
    }
}

impl Mirror {
    pub fn new(fault: &'static str) -> Self {
        Self { fault, left: Cell::new(5) }
    }

    /// True once, at the fifth chance, for the place that is to be wrong.
    fn wrong(&self, place: &str) -> bool {
        if place != self.fault || self.left.get() == 0 {
            return false;
        }
        self.left.set(self.left.get() - 1);
        self.left.get() == 0
    }

    fn float(&self, place: &str, x: &mut f32) {
        // A turned low bit of a not-a-number would be no difference.
        if !x.is_nan() && self.wrong(place) {
            *x = f32::from_bits(x.to_bits() ^ 1);
        }
    }

    fn word(&self, place: &str, x: &mut u32) {
        if self.wrong(place) {
            *x ^= 1;
        }
    }

    fn slices(&self, lent: &mut Lent) {
        lent.faces.iter_mut().last().into_iter().for_each(|x| self.word("last face word", x));
        lent.faces.iter_mut().take(1).for_each(|x| self.word("first face word", x));
        lent.words.iter_mut().last().into_iter().for_each(|x| self.word("last work word", x));
        lent.floats.iter_mut().last().into_iter().for_each(|x| self.float("last work float", x));
    }
}

impl Side for Mirror {
    fn number(&self, call: Number, x: f32, y: f32, z: f32) -> Value {
        let mut value = call.oracle(x, y, z);
        match &mut value {
            Value::Float(x) => self.float(call.call(), x),
            Value::Whole(x) => self.word(call.call(), x),
        }
        value
    }

    fn circumradius(&self, c: &[f32; 9]) -> f32 {
        let mut radius = oracle::circumradius(c);
        self.float("circumradius", &mut radius);
        radius
    }

    fn quality(&self, c: &[f32; 9]) -> Quality {
        let mut quality = measures(&oracle::quality(c));
        self.float("aspect_ratio", &mut quality.aspect_ratio);
        self.float("quality_score", &mut quality.quality_score);
        quality
    }

    fn acceptable(&self, quality: Quality, radius: f32, limits: &Limits) -> bool {
        oracle::acceptable_amended(&published(&quality), radius, limits) ^ self.wrong("acceptable")
    }

    fn estimate(&self, case: &Case, lent: &mut Lent) -> Estimate {
        let mut estimate = expect::estimate(&case.points, case.percentile, lent, BUDGET).expect("compared cases only");
        self.word("answer", &mut estimate.answer);
        self.float("radius", &mut estimate.radius);
        self.slices(lent);
        estimate
    }

    fn reconstruct(&self, case: &Case, lent: &mut Lent) -> Patch {
        let work = [lent.words.len(), lent.floats.len()];
        let found =
            expect::find(&case.points, &case.normals, &case.settings, work, BUDGET).expect("compared cases only");
        let mut patch = found.deliver(lent);
        self.patch(&mut patch);
        self.slices(lent);
        patch
    }

    fn origins(&self, case: &Case, turned: bool, lent: &mut Lent, origins: &mut [u32]) -> Patch {
        let work = [lent.words.len(), lent.floats.len()];
        let found =
            expect::find(&case.points, &case.normals, &case.settings, work, BUDGET).expect("compared cases only");
        let mut patch = expect::origins::deliver(&found, turned, lent, origins);
        self.patch(&mut patch);
        self.slices(lent);
        origins.iter_mut().last().into_iter().for_each(|x| self.word("last origin word", x));
        origins.iter_mut().take(1).for_each(|x| self.word("first origin word", x));
        patch
    }
}

impl Mirror {
    fn patch(&self, patch: &mut Patch) {
        for (place, x) in [
            ("answer", &mut patch.answer),
            ("detail", &mut patch.detail),
            ("faces", &mut patch.faces),
            ("seeds", &mut patch.seeds),
            ("looks", &mut patch.looks),
            ("pivots", &mut patch.pivots),
            ("radii_count", &mut patch.radii_count),
        ] {
            self.word(place, x);
        }
        self.float("first radius", &mut patch.radii[0]);
        self.float("last radius", &mut patch.radii[16]);
    }
}
