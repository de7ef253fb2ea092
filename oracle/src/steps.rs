//! 01's "Roots and powers", worked step by step from its text with the machine's arithmetic. It shares nothing with the proved code, and
//! goes another way where 01 leaves one: the root is the machine's instruction, L splits by exact products and not by bits, and
//! E's a·2^n is rounded once in whole numbers and not by products.

const H: f64 = 1.5707963267948966;

/// "Root: IEEE 754 square root, nearest even."
pub fn root(x: f64) -> f64 {
    x.sqrt()
}

/// "Arc A(t)".
#[inline(never)]
pub fn arc(t: f64) -> f64 {
    let s = t.abs();
    let mut v = if s > 1.0 { 1.0 / s } else { s };
    for _ in 0..2 {
        v = v / (1.0 + root(1.0 + v * v));
    }
    let q = v * v;
    let mut a = 1.0 / 23.0;
    for k in (0..=10).rev() {
        a = 1.0 / f64::from(2 * k + 1) - q * a;
    }
    let mut r = 4.0 * (v * a);
    if s > 1.0 {
        r = H - r;
    }
    r.copysign(t)
}

/// "Log L(b)", to base 2.
#[inline(never)]
pub fn log(b: f64) -> f64 {
    if b.is_nan() || b < 0.0 {
        return f64::NAN;
    }
    if b == 0.0 {
        return f64::NEG_INFINITY;
    }
    if b == f64::INFINITY {
        return b;
    }
    let (mut m, mut e) = split(b);
    if m > 1.4142135623730951 {
        m /= 2.0;
        e += 1;
    }
    let s = (m - 1.0) / (m + 1.0);
    let q = s * s;
    let mut a = 1.0 / 21.0;
    for k in (0..=9).rev() {
        a = 1.0 / f64::from(2 * k + 1) + q * a;
    }
    f64::from(e) + (2.0 * (s * a)) * 1.4426950408889634
}

/// "b = m·2^e, 1 ≤ m < 2", for a finite b above 0, by products with powers of two. Each is exact: on the way down m stays at or above
/// 1, and on the way up it stays below 2 and only gains digits.
fn split(b: f64) -> (f64, i32) {
    let (mut m, mut e) = (b, 0);
    for (k, up, down) in LADDER {
        while m >= up {
            m *= down;
            e += k;
        }
        while m < 2.0 * down {
            m *= up;
            e -= k;
        }
    }
    (m, e)
}

/// k, 2^k and 2^-k.
const LADDER: [(i32, f64, f64); 10] = {
    let mut rungs = [(1, 2.0, 0.5); 10];
    let mut i = 9;
    while i > 0 {
        let (k, up, down) = rungs[i];
        rungs[i - 1] = (2 * k, up * up, down * down);
        i -= 1;
    }
    rungs
};

/// "Exp E(y)", two to the y.
#[inline(never)]
pub fn exp(y: f64) -> f64 {
    if y.is_nan() {
        return y;
    }
    if y >= 1024.0 {
        return f64::INFINITY;
    }
    if y < -1080.0 {
        return 0.0;
    }
    let n = (y + 0.5).floor();
    let z = (y - n) * 0.6931471805599453;
    let mut a = 1.0;
    for k in (1..=13).rev() {
        a = 1.0 + (z * a) / f64::from(k);
    }
    scaled(a, n as i64)
}

/// "a·2^n, rounded once", nearest even, for a finite a: in whole numbers, so nothing is rounded on the way.
pub fn scaled(a: f64, n: i64) -> f64 {
    let bits = a.to_bits();
    let (sign, field, digits) = (bits >> 63 << 63, (bits >> 52) as i64 & 0x7ff, bits & 0xf_ffff_ffff_ffff);
    // a is whole·2^unit
    let (whole, unit) = if field == 0 { (digits, -1074) } else { (digits | 1 << 52, field - 1075) };
    if whole == 0 {
        return a;
    }
    let unit = unit + n;
    let top = unit + 63 - i64::from(whole.leading_zeros());
    if top > 1023 {
        return f64::from_bits(sign | f64::INFINITY.to_bits());
    }
    // the unit of the answer's last digit, and the answer counted in it
    let last = (top - 52).max(-1074);
    let count = match last - unit {
        65.. => 0,
        drop @ 1.. => halved(u128::from(whole), drop as u32),
        raise => whole << -raise,
    };
    // a count of 2^53 carries into the field above by itself, and into infinity at the top
    let size = if count < 1 << 52 { count } else { (((last + 1074) as u64) << 52) + count };
    f64::from_bits(sign | size)
}

/// w / 2^d to the nearest whole number, a half to the even one; 1 ≤ d ≤ 64.
fn halved(w: u128, d: u32) -> u64 {
    let (kept, rest, half) = (w >> d, w & ((1 << d) - 1), 1 << (d - 1));
    let up = rest > half || (rest == half && kept & 1 == 1);
    (kept + u128::from(up)) as u64
}

/// "Power P(b,y): 1 if b = 1 or y = 0, else E(y·L(b))".
#[inline(never)]
pub fn power(b: f64, y: f64) -> f64 {
    if b == 1.0 || y == 0.0 { 1.0 } else { exp(y * log(b)) }
}

/// The floats 10^0 to 10^22, which are exact.
const TENS: [f64; 23] =
    [1.0, 1e1, 1e2, 1e3, 1e4, 1e5, 1e6, 1e7, 1e8, 1e9, 1e10, 1e11, 1e12, 1e13, 1e14, 1e15, 1e16, 1e17, 1e18, 1e19, 1e20, 1e21, 1e22];

/// "T(y) = E(y·3.321928094887362)", but by 02's L2 "for whole y from 0 to 22, T(y) becomes the float 10^y", and "for whole y
/// from -22 to -1 it becomes 1 divided by the float 10^(-y)".
#[inline(never)]
pub fn ten(y: f64) -> f64 {
    match y.abs() as u8 as usize {
        k @ 0..=22 if y == k as f64 => TENS[k],
        k @ 0..=22 if y == -(k as f64) => 1.0 / TENS[k],
        _ => exp(y * 3.321928094887362),
    }
}

/// "log10(b) = L(b)·0.3010299956639812".
#[inline(never)]
pub fn log10(b: f64) -> f64 {
    log(b) * 0.3010299956639812
}
