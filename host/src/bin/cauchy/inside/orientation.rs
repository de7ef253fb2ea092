//! On which side of a line or of a plane a point lies, without rounding. Floats decide it wherever their rounding
//! cannot change the answer, which is nearly always; elsewhere the exact value is worked out as a sum of floats that
//! do not overlap, and its sign is that of the greatest of them (J. R. Shewchuk, Adaptive Precision Floating-Point
//! Arithmetic and Fast Robust Geometric Predicates, 1997). Exact while no product of three coordinates overflows or
//! underflows.

/// The rounding unit of floats, 2^-53.
const UNIT: f64 = f64::EPSILON / 2.0;
/// How far rounding can move the value of an orientation, as a part of the sum of the sizes of its products.
const ERROR_IN_PLANE: f64 = (3.0 + 16.0 * UNIT) * UNIT;
const ERROR_IN_SPACE: f64 = (7.0 + 56.0 * UNIT) * UNIT;

/// The sign of (b - a) × (p - a): 1 where p lies to the left of the line from a to b, -1 to the right, 0 on it.
pub fn in_plane(a: [f64; 2], b: [f64; 2], p: [f64; 2]) -> i32 {
    let left = (b[0] - a[0]) * (p[1] - a[1]);
    let right = (b[1] - a[1]) * (p[0] - a[0]);
    let value = left - right;
    if value.abs() > ERROR_IN_PLANE * (left.abs() + right.abs()) {
        return sign(value);
    }
    sign_of_sum(&[(a, b), (b, p), (p, a)].map(cross_terms).concat())
}

/// The sign of (a - p) · ((b - p) × (c - p)): 1 where p lies behind the face a, b, c, which is seen anticlockwise from
/// its front, -1 before it, 0 in its plane.
pub fn in_space([a, b, c]: [[f64; 3]; 3], p: [f64; 3]) -> i32 {
    let [u, v, w] = [a, b, c].map(|corner| [corner[0] - p[0], corner[1] - p[1], corner[2] - p[2]]);
    let minor = |v: [f64; 3], w: [f64; 3]| (v[0] * w[1], w[0] * v[1]);
    let (of_u, of_v, of_w) = (minor(v, w), minor(w, u), minor(u, v));
    let value = [(u, of_u), (v, of_v), (w, of_w)].map(|(x, (more, less))| x[2] * (more - less));
    let sizes = [(u, of_u), (v, of_v), (w, of_w)].map(|(x, (m, l))| x[2].abs() * (m.abs() + l.abs()));
    let value = value[0] + (value[1] + value[2]);
    if value.abs() > ERROR_IN_SPACE * (sizes[0] + (sizes[1] + sizes[2])) {
        return sign(value);
    }
    // the volumes of four tetrahedra with the origin: the face's, and those of p with each of its sides
    sign_of_sum(&[[a, b, c], [a, c, p], [a, p, b], [b, p, c]].map(volume_terms).concat())
}

fn sign(x: f64) -> i32 {
    i32::from(x > 0.0) - i32::from(x < 0.0)
}

/// Floats whose exact sum is a × b.
fn cross_terms((a, b): ([f64; 2], [f64; 2])) -> [f64; 4] {
    let (more, less) = (product(a[0], b[1]), product(a[1], b[0]));
    [more[0], more[1], -less[0], -less[1]]
}

/// Floats whose exact sum is a · (b × c).
fn volume_terms([a, b, c]: [[f64; 3]; 3]) -> [f64; 24] {
    let of = |x: f64, y: f64, z: f64| {
        let [high, low] = product(x, y);
        let (high, low) = (product(high, z), product(low, z));
        [high[0], high[1], low[0], low[1]]
    };
    let turn = |i: usize| {
        let (j, k) = ((i + 1) % 3, (i + 2) % 3);
        [of(a[i], b[j], c[k]), of(a[i], b[k], c[j]).map(|x| -x)]
    };
    let terms = [0, 1, 2].map(turn);
    std::array::from_fn(|i| terms[i / 8][i / 4 % 2][i % 4])
}

/// The product of two floats: as it is rounded, and what the rounding took.
fn product(x: f64, y: f64) -> [f64; 2] {
    let rounded = x * y;
    [rounded, x.mul_add(y, -rounded)]
}

/// The sign of the exact sum.
fn sign_of_sum(terms: &[f64]) -> i32 {
    let sum = terms.iter().fold(Vec::new(), |sum, term| grown(&sum, *term));
    sum.last().map_or(0, |greatest| sign(*greatest))
}

/// A sum of floats that do not overlap, by rising size and without zeros, after one more float is added.
fn grown(sum: &[f64], term: f64) -> Vec<f64> {
    let mut more = Vec::with_capacity(sum.len() + 1);
    let mut carry = term;
    for part in sum {
        let rounded = carry + part;
        let share = rounded - carry;
        let rest = (carry - (rounded - share)) + (part - share);
        more.extend((rest != 0.0).then_some(rest));
        carry = rounded;
    }
    more.extend((carry != 0.0).then_some(carry));
    more
}

#[cfg(test)]
mod tests {
    use super::*;

    #[test]
    fn sides_are_told() {
        let (a, b) = ([0.0, 0.0], [2.0, 1.0]);
        assert_eq!([[1.0, 1.0], [1.0, 0.0], [4.0, 2.0]].map(|p| in_plane(a, b, p)), [1, -1, 0]);
        let face = [[0.0, 0.0, 1.0], [3.0, 0.0, 1.0], [0.0, 3.0, 1.0]];
        assert_eq!([0.5, 1.5, 1.0].map(|z| in_space(face, [1.0, 1.0, z])), [1, -1, 0]);
    }

    /// Points of a grid of the last digit of 0.5 and a line through far points: floats alone misjudge many of them.
    #[test]
    fn the_last_digit_counts() {
        let step = f64::EPSILON / 2.0;
        let (mut right, mut misjudged) = (0, 0);
        for (i, j) in (0..256_i32).flat_map(|i| (0..256_i32).map(move |j| (i, j))) {
            let p = [0.5 + f64::from(i) * step, 0.5 + f64::from(j) * step];
            let told = in_plane(p, [12.0, 12.0], [24.0, 24.0]);
            // exactly 12 times y - x of the point
            assert_eq!(told, (j - i).signum(), "{i} {j}");
            let rounded = (12.0 - p[0]) * (24.0 - p[1]) - (12.0 - p[1]) * (24.0 - p[0]);
            misjudged += u32::from(sign(rounded) != told);
            let third = in_space([[p[0], p[1], 0.0], [12.0, 12.0, 0.0], [24.0, 24.0, 0.0]], [3.0, 7.0, -1.0]);
            right += u32::from(third == told);
        }
        assert!(misjudged > 1000, "{misjudged}");
        assert_eq!(right, 256 * 256);
    }

    /// Whole numbers of 20 bits, near planes and far, against integers of 128 bits.
    #[test]
    fn whole_numbers_are_judged_as_integers_judge_them() {
        let mut state = 1_u64;
        let mut whole = |bits: u32| {
            state = state.wrapping_mul(6_364_136_223_846_793_005).wrapping_add(1_442_695_040_888_963_407);
            i128::from(state >> (64 - bits)) - (1 << (bits - 1))
        };
        let mut on_it = 0;
        for i in 0..20_000 {
            let bits = if i % 2 == 0 { 3 } else { 40 };
            let [a, b, c, p]: [[i128; 3]; 4] = std::array::from_fn(|_| std::array::from_fn(|_| whole(bits)));
            let from = |x: [i128; 3], p: [i128; 3]| [x[0] - p[0], x[1] - p[1], x[2] - p[2]];
            let [u, v, w] = [a, b, c].map(|corner| from(corner, p));
            let volume = u[0] * (v[1] * w[2] - v[2] * w[1]) - u[1] * (v[0] * w[2] - v[2] * w[0])
                + u[2] * (v[0] * w[1] - v[1] * w[0]);
            let float = |x: [i128; 3]| x.map(|x| x as f64);
            let told = in_space([a, b, c].map(float), float(p));
            assert_eq!(told, volume.signum() as i32, "{a:?} {b:?} {c:?} {p:?}");
            on_it += u32::from(told == 0);
            let flat = |x: [i128; 3]| [x[0] as f64, x[1] as f64];
            let area = (b[0] - a[0]) * (p[1] - a[1]) - (b[1] - a[1]) * (p[0] - a[0]);
            assert_eq!(in_plane(flat(a), flat(b), flat(p)), area.signum() as i32);
        }
        assert!(on_it > 100, "{on_it}");
    }
}
