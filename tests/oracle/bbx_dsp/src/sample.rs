//! A stand-in: f32 and f64 with the language's own conversions, as document 01 fixes them.
use std::ops::{Mul, Sub};

pub trait Sample: Copy + Default + PartialOrd + Mul<Output = Self> + Sub<Output = Self> {
    const ZERO: Self;
    const EPSILON: Self;
    const FRAC_PI_2: Self;
    fn from_f64(x: f64) -> Self;
    fn to_f64(self) -> f64;
    fn abs(self) -> Self;
}

impl Sample for f32 {
    const ZERO: f32 = 0.0;
    const EPSILON: f32 = f32::EPSILON;
    const FRAC_PI_2: f32 = std::f32::consts::FRAC_PI_2;
    fn from_f64(x: f64) -> f32 {
        x as f32
    }
    fn to_f64(self) -> f64 {
        f64::from(self)
    }
    fn abs(self) -> f32 {
        self.abs()
    }
}

impl Sample for f64 {
    const ZERO: f64 = 0.0;
    const EPSILON: f64 = f64::EPSILON;
    const FRAC_PI_2: f64 = std::f64::consts::FRAC_PI_2;
    fn from_f64(x: f64) -> f64 {
        x
    }
    fn to_f64(self) -> f64 {
        self
    }
    fn abs(self) -> f64 {
        self.abs()
    }
}
