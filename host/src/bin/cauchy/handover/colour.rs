//! The colours of densities: the scale viridis (S. van der Walt and N. Smith, CC0). Equal steps on it look equal, it
//! rises in lightness throughout, and people who see fewer colours can read it.

/// The scale at each ninth, red, green, blue; between them it is taken as straight.
const SCALE: [[u8; 3]; 10] = [
    [0x44, 0x01, 0x54],
    [0x48, 0x28, 0x78],
    [0x3e, 0x4a, 0x89],
    [0x31, 0x68, 0x8e],
    [0x26, 0x82, 0x8e],
    [0x1f, 0x9e, 0x89],
    [0x35, 0xb7, 0x79],
    [0x6d, 0xcd, 0x59],
    [0xb4, 0xde, 0x2c],
    [0xfd, 0xe7, 0x25],
];

/// So many colours, from the scale's darkest to its lightest.
pub fn colours(count: usize) -> Vec<[u8; 3]> {
    let last = count.saturating_sub(1).max(1);
    (0..count).map(|i| at(i as f64 / last as f64)).collect()
}

/// The colour of a part of the scale, from 0 to 1.
fn at(part: f64) -> [u8; 3] {
    let place = part * (SCALE.len() - 1) as f64;
    let below = (place as usize).min(SCALE.len() - 2);
    let over = place - below as f64;
    let mixed = |i: usize| {
        let [from, to] = [SCALE[below][i], SCALE[below + 1][i]].map(f64::from);
        (from + (to - from) * over).round() as u8
    };
    [mixed(0), mixed(1), mixed(2)]
}

/// A colour as style sheets name it.
pub fn hexadecimal([red, green, blue]: [u8; 3]) -> String {
    format!("#{red:02x}{green:02x}{blue:02x}")
}

#[cfg(test)]
mod tests {
    use super::*;

    /// The colour in CIELAB, where distances are near to those that are seen (IEC 61966-2-1, CIE 15, white of D65).
    fn lab(colour: [u8; 3]) -> [f64; 3] {
        let [red, green, blue] = colour.map(|part| {
            let part = f64::from(part) / 255.0;
            if part <= 0.04045 { part / 12.92 } else { ((part + 0.055) / 1.055).powf(2.4) }
        });
        let x = (0.4124 * red + 0.3576 * green + 0.1805 * blue) / 0.9505;
        let y = 0.2126 * red + 0.7152 * green + 0.0722 * blue;
        let z = (0.0193 * red + 0.1192 * green + 0.9505 * blue) / 1.089;
        let root = |t: f64| if t > 0.008_856 { t.cbrt() } else { 7.787 * t + 16.0 / 116.0 };
        let [x, y, z] = [x, y, z].map(root);
        [116.0 * y - 16.0, 500.0 * (x - y), 200.0 * (y - z)]
    }

    #[test]
    fn equal_steps_rise_equally_in_lightness() {
        let lightness: Vec<f64> = colours(10).into_iter().map(|colour| lab(colour)[0]).collect();
        let steps: Vec<f64> = lightness.windows(2).map(|two| two[1] - two[0]).collect();
        let mean = steps.iter().sum::<f64>() / steps.len() as f64;
        assert!(steps.iter().all(|step| (step / mean - 1.0).abs() < 0.3), "{steps:?}");
        assert!(lightness[0] < 20.0 && lightness[9] > 85.0, "{lightness:?}");
    }

    #[test]
    fn the_ends_and_the_middle_are_the_scales_own() {
        assert_eq!(colours(1), [SCALE[0]]);
        assert_eq!(colours(2), [SCALE[0], SCALE[9]]);
        assert_eq!(colours(19)[8], SCALE[4]);
        assert_eq!(colours(19)[1], [0x46, 0x15, 0x66]);
        assert_eq!(hexadecimal(SCALE[0]), "#440154");
    }
}
