//! The Walsh–Hadamard transform of a block, by sums and differences.

fn four(a: i32, b: i32, c: i32, d: i32) -> [i32; 4] {
    let (early, late) = (a + b, c + d);
    let (early_apart, late_apart) = (a - b, c - d);
    [
        early + late,
        early_apart + late_apart,
        early - late,
        early_apart - late_apart,
    ]
}

// Both ways; it is its own inverse, up to 16.
pub fn transform(values: &[i32; 16]) -> [i32; 16] {
    let mut rows = [0; 16];
    for y in (0..16).step_by(4) {
        let row = four(values[y], values[y + 1], values[y + 2], values[y + 3]);
        rows[y..y + 4].copy_from_slice(&row);
    }
    let mut out = [0; 16];
    for x in 0..4 {
        let column = four(rows[x], rows[4 + x], rows[8 + x], rows[12 + x]);
        for (y, value) in column.into_iter().enumerate() {
            out[4 * y + x] = value;
        }
    }
    out
}

// A predicted pixel with what levels add to it, of which `sum` is sixteen times as much.
pub fn shown(prediction: u8, sum: i32) -> u8 {
    (i32::from(prediction) + ((sum + 8) >> 4)).clamp(0, 255) as u8
}
