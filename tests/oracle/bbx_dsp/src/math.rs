//! A stand-in: the standard library's functions of f64. Root and absolute value are exact in any library; sine,
//! cosine and power are those of this machine's, which are close to the true functions and not the same everywhere.
pub fn sin(x: f64) -> f64 {
    x.sin()
}

pub fn cos(x: f64) -> f64 {
    x.cos()
}

pub fn sqrt(x: f64) -> f64 {
    x.sqrt()
}

pub fn abs(x: f64) -> f64 {
    x.abs()
}

pub fn powf(x: f64, y: f64) -> f64 {
    x.powf(y)
}

pub fn radians(degrees: f64) -> f64 {
    degrees.to_radians()
}
