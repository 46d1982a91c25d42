//! What `explain` says of a prototype's layout: how even the levels of a ramp are.

use crate::scratch::Scratch;

#[path = "../../examples/prototype/picture.rs"]
mod picture;

// Drawn straight between two values: h rises from 0 to 1 over 16 places and falls again.
fn natural() -> Vec<f64> {
    let up = (0..16).map(|p| f64::from(p) / 16.0);
    up.chain((0..16).map(|p| 1.0 - f64::from(p) / 16.0))
        .collect()
}

fn ramp(scratch: &Scratch, phases: usize, prototype: &[f64], step: f64) -> String {
    let numbers: Vec<String> = prototype.iter().map(f64::to_string).collect();
    let settings = format!(
        "stages = 1\nr = 1\nphases = {phases}\nphase_taps = {}\nprototype = {}\nstep = {step}\n",
        prototype.len() / phases,
        numbers.join(" ")
    );
    scratch.write("line.settings", settings);
    let explained = scratch.gauge("explain --settings line.settings").stdout;
    let explained = String::from_utf8(explained).unwrap();
    let said = explained
        .lines()
        .skip_while(|line| !line.starts_with("Ramp"));
    said.collect::<Vec<&str>>().join("\n")
}

#[test]
fn how_even_a_ramp_comes_out_is_told() {
    let scratch = Scratch::new("ramp");
    let two = ramp(&scratch, 2, &[1.0, 0.5, 0.0, 0.5], 0.9375);
    assert!(two.contains("at most 93.3 % of an even one"), "{two}");
    assert!(
        two.contains("Warning: past the last phase the reading wraps"),
        "{two}"
    );

    let backwards = ramp(&scratch, 16, &natural(), 0.9375);
    assert!(
        backwards.contains("this prototype would be off by 0.0 %"),
        "{backwards}"
    );

    // h[(t + 1) × P − p] at t × P + p.
    let h = |at: usize| natural().get(at).copied().unwrap_or(0.0);
    let laid: Vec<f64> = (0..32).map(|at| h((at / 16 + 1) * 16 - at % 16)).collect();
    let even = ramp(&scratch, 16, &laid, 0.9375);
    assert!(even.contains("at most 0.0 % of an even one"), "{even}");
    assert!(!even.contains("Warning"), "{even}");
}

#[test]
fn the_picture_of_the_layout_is_the_stored_one() {
    let stored = include_str!("../../../../docs/prototype.svg");
    assert_eq!(picture::picture(), stored);
}
