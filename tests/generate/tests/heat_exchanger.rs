//! The heat exchanger's field has walls, fluids and an outside where they should be.

use generate::heat_exchanger;
use independent::evaluate;

/// The field and the fluid at a point.
fn at(x: f64, y: f64, z: f64) -> (f64, f64) {
    let table = heat_exchanger::graph().to_bytes();
    let mut arguments = vec![x.to_bits(), y.to_bits(), z.to_bits()];
    for k in 0..16 {
        arguments.push(if k % 5 == 0 { 1f64.to_bits() } else { 0 });
    }
    let words = evaluate(&table, 6, &arguments);
    (f64::from_bits(words[0]), f64::from_bits(words[1]))
}

#[test]
fn regions() {
    // The middle of a warm tube, and of a cold one half a cell away.
    let (field, fluid) = at(4.0, 4.0, 40.0);
    assert!(field > 0.0 && fluid == 1.0);
    let (field, fluid) = at(8.0, 8.0, 44.0);
    assert!(field > 0.0 && fluid == -1.0);
    // The wall of a warm tube, whose radius is 1.65 at this height.
    let (field, _) = at(5.65, 4.0, 40.0);
    assert!((-0.26..-0.2).contains(&field));
    // A warm tube in another cell; outside the block there is neither.
    assert_eq!(at(20.0, 12.0, 40.0).1, 1.0);
    for (field, fluid) in [at(-20.0, 20.0, 40.0), at(100.0, 100.0, 100.0)] {
        assert!(field > 0.0 && fluid == 0.0);
    }
}
