//! Faces in an order that keeps near ones together, for trees over them.

/// The corners of a face.
pub fn corners(vertices: &[[f64; 3]], face: [u32; 3]) -> [[f64; 3]; 3] {
    face.map(|corner| vertices[corner as usize])
}

/// The faces along Morton's curve through their middles.
pub fn near_ones_together(vertices: &[[f64; 3]], faces: Vec<[u32; 3]>) -> Vec<[u32; 3]> {
    let middle = |face: &[u32; 3]| {
        let [a, b, c] = corners(vertices, *face);
        [0, 1, 2].map(|axis| (a[axis] + b[axis] + c[axis]) / 3.0)
    };
    let (low, wide) = extent(faces.iter().map(middle));
    let steps = f64::from((1_u32 << BITS) - 1) / wide;
    // a cast of NaN, which faces in one point give, is 0
    let key = |face: &[u32; 3]| {
        let at = middle(face);
        let [x, y, z] = [0, 1, 2].map(|axis| spread(((at[axis] - low[axis]) * steps) as u32));
        x | y << 1 | z << 2
    };
    let mut keyed: Vec<(u64, [u32; 3])> = faces.into_iter().map(|face| (key(&face), face)).collect();
    keyed.sort_unstable();
    keyed.into_iter().map(|(_, face)| face).collect()
}

/// The least coordinates of some points, and how wide they reach along any axis.
fn extent(points: impl Iterator<Item = [f64; 3]>) -> ([f64; 3], f64) {
    let (mut low, mut high) = ([f64::INFINITY; 3], [f64::NEG_INFINITY; 3]);
    for point in points {
        low = [0, 1, 2].map(|axis| point[axis].min(low[axis]));
        high = [0, 1, 2].map(|axis| point[axis].max(high[axis]));
    }
    (low, (high[0] - low[0]).max(high[1] - low[1]).max(high[2] - low[2]))
}

/// The bits of each coordinate in a key.
const BITS: u32 = 21;

/// The bits of a number, with room for two more above each.
fn spread(number: u32) -> u64 {
    let apart = |bits: u64, (by, kept): (u32, u64)| (bits | bits << by) & kept;
    let steps = [
        (32, 0x001F_0000_0000_FFFF),
        (16, 0x001F_0000_FF00_00FF),
        (8, 0x100F_00F0_0F00_F00F),
        (4, 0x10C3_0C30_C30C_30C3),
        (2, 0x1249_2492_4924_9249),
    ];
    steps.into_iter().fold(u64::from(number), apart)
}

#[cfg(test)]
mod tests {
    use super::*;

    #[test]
    fn bits_are_spread() {
        for bit in 0..BITS {
            assert_eq!(spread(1 << bit), 1 << (3 * bit));
        }
        assert_eq!(spread((1 << BITS) - 1), 0x1249_2492_4924_9249);
    }

    #[test]
    fn near_faces_come_together() {
        // a face in each corner of two small cubes, far from each other, in an order that mixes them
        let corner = |i: u32| [i & 1, i >> 1 & 1, i >> 2 & 1].map(f64::from);
        let vertices: Vec<[f64; 3]> = (0..8).flat_map(|i| [corner(i), corner(i).map(|x| x + 70.0)]).collect();
        let order = near_ones_together(&vertices, (0..16).map(|i| [i; 3]).collect());
        let firsts: Vec<u32> = order.iter().map(|face| face[0]).collect();
        assert_eq!(firsts, [0, 2, 4, 6, 8, 10, 12, 14, 1, 3, 5, 7, 9, 11, 13, 15]);
    }
}
