//! Whether floats are worked out as the proofs take them.

// The value, which the compiler may not know.
fn lent(value: f32) -> f32 {
    // SAFETY: the place is this function's own.
    unsafe { core::ptr::read_volatile(&value) }
}

/// Whether this thread rounds to nearest, ties to even, and keeps subnormal numbers as operands and as results. The archive does not look: in another environment, which a C
/// library that was linked with -Ofast or a call of `fesetround` can make, it gives other levels and refuses nothing.
///
/// ```
/// assert!(gauge_line::fp_environment_ok());
/// ```
pub fn fp_environment_ok() -> bool {
    // Half a step of f32 above 1, three quarters of one, and a whole one.
    let (half_step, more, step) = (f32::EPSILON / 2.0, f32::EPSILON * 0.75, f32::EPSILON);
    let up = lent(lent(1.0) + lent(half_step));
    let down = lent(lent(-1.0) - lent(half_step));
    let near_next = lent(lent(1.0) + lent(more));
    let to_nearest = up == 1.0 && down == -1.0 && near_next == 1.0 + step;
    // The least subnormal, raised to the least normal number.
    let (least, raise) = (f32::from_bits(1), 8_388_608.0);
    let halved = lent(lent(f32::MIN_POSITIVE) * lent(0.5));
    let raised = lent(lent(least) * lent(raise));
    to_nearest && halved != 0.0 && raised == f32::MIN_POSITIVE
}

#[cfg(all(test, target_arch = "x86_64"))]
mod tests {
    use super::fp_environment_ok;
    use core::arch::asm;

    // What is said with these bits of the control register set as well, which are then taken back.
    fn said_with(bits: u32) -> bool {
        let mut kept = 0_u32;
        // SAFETY: the register is stored to a place of this function's own.
        unsafe { asm!("stmxcsr [{}]", in(reg) &mut kept) };
        let other = kept | bits;
        // SAFETY: only integers and the function that looks are between the two loads; what the second loads was there before.
        unsafe {
            asm!("ldmxcsr [{}]", in(reg) &other);
            let said = fp_environment_ok();
            asm!("ldmxcsr [{}]", in(reg) &kept);
            said
        }
    }

    #[test]
    fn each_rounding_mode_is_noticed() {
        assert!(said_with(0));
        for mode in [0x2000, 0x4000, 0x6000] {
            assert!(!said_with(mode), "{mode:x}");
        }
    }

    #[test]
    fn lost_subnormals_are_noticed() {
        for bits in [0x8000, 0x0040, 0x8040] {
            assert!(!said_with(bits), "{bits:x}");
        }
        assert!(fp_environment_ok());
    }
}
