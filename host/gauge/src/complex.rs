//! Complex numbers, as far as a response needs them.

use std::f64::consts::TAU;
use std::ops::{Add, Mul};

/// A complex number.
#[derive(Clone, Copy, Debug, Default, PartialEq)]
pub struct Complex {
    /// The real part.
    pub re: f64,
    /// The imaginary part.
    pub im: f64,
}

impl Complex {
    /// A real number.
    pub fn real(re: f64) -> Complex {
        Complex { re, im: 0.0 }
    }

    /// 1, turned backwards by so many turns.
    pub fn turned_back(turns: f64) -> Complex {
        let (sin, cos) = (TAU * turns).sin_cos();
        Complex { re: cos, im: -sin }
    }

    /// Its size.
    pub fn size(self) -> f64 {
        self.re.hypot(self.im)
    }

    /// It times a real number.
    pub fn times(self, by: f64) -> Complex {
        Complex {
            re: by * self.re,
            im: by * self.im,
        }
    }
}

impl Add for Complex {
    type Output = Complex;

    fn add(self, other: Complex) -> Complex {
        Complex {
            re: self.re + other.re,
            im: self.im + other.im,
        }
    }
}

impl Mul for Complex {
    type Output = Complex;

    fn mul(self, other: Complex) -> Complex {
        Complex {
            re: self.re * other.re - self.im * other.im,
            im: self.re * other.im + self.im * other.re,
        }
    }
}

/// The size of what weights make of a wave of so many turns a place.
pub fn weighed(weights: &[f64], turns: f64) -> f64 {
    let turn = Complex::turned_back(turns);
    let next = |sum: Complex, weight: &f64| sum * turn + Complex::real(*weight);
    weights.iter().fold(Complex::default(), next).size()
}
