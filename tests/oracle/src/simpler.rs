//! Numbers that are simpler than another, for a smaller case: the simplest first, and never the number itself.

/// Nearer to zero: zero, then half the way, a quarter of it, and so on to the next number; then the positive one.
pub fn integers(x: i128) -> Vec<i128> {
    let halved = |&step: &i128| Some(step / 2);
    let steps = std::iter::successors(Some(x), halved).take_while(|&step| step != 0);
    let nearer = steps.map(|step| x - step);
    let positive = (x < 0).then_some(-x);
    nearer.chain(positive).collect()
}

/// How far from simple: zero, then short significands, small exponents and the positive sign; what is not a normal number comes last.
fn rank(x: f32) -> (u8, u32, u32, u32) {
    let kind = match x.classify() {
        std::num::FpCategory::Zero => 0,
        std::num::FpCategory::Normal => 1,
        std::num::FpCategory::Subnormal => 2,
        std::num::FpCategory::Infinite => 3,
        std::num::FpCategory::Nan => 4,
    };
    let bits = x.to_bits();
    let significand = 23 - (bits & 0x7f_ffff | 0x80_0000).trailing_zeros();
    let exponent = (bits >> 23 & 0xff).abs_diff(127);
    (kind, significand, exponent, bits >> 31)
}

pub fn floats(x: f32) -> Vec<f32> {
    let bits = x.to_bits();
    let shortened = (0..=23).rev().map(|cut| f32::from_bits(bits >> cut << cut));
    let middle = (bits >> 23 & 0xff).midpoint(127);
    let nearer = f32::from_bits(bits & 0x807f_ffff | middle << 23);
    let mut simpler = vec![0.0, 1.0, x.abs(), -1.0, nearer];
    simpler.extend(shortened);
    simpler.retain(|&other| rank(other) < rank(x));
    simpler
}
