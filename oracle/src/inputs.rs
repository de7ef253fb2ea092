//! Inputs that can be repeated: a small generator of random numbers and, for each function, families of arguments with the share that
//! each has of a comparison. Beside any bits they dwell where 01's steps branch or round.
use crate::step;

/// splitmix64 (Steele, Lea, Flood 2014).
pub struct Rng(pub u64);

impl Rng {
    /// 64 random bits.
    pub fn word(&mut self) -> u64 {
        self.0 = self.0.wrapping_add(0x9e37_79b9_7f4a_7c15);
        let z = (self.0 ^ (self.0 >> 30)).wrapping_mul(0xbf58_476d_1ce4_e5b9);
        let z = (z ^ (z >> 27)).wrapping_mul(0x94d0_49bb_1331_11eb);
        z ^ (z >> 31)
    }

    /// A number below n, for an n that is small beside 2^64.
    pub fn below(&mut self, n: u64) -> u64 {
        self.word() % n
    }

    /// A float from lo to hi, spread evenly.
    pub fn within(&mut self, lo: f64, hi: f64) -> f64 {
        lo + (hi - lo) * ((self.word() >> 11) as f64 * (1.0 / (1u64 << 53) as f64))
    }

    /// A float of any digits above 0, its exponent spread evenly from lo to hi - 1; -1022 ≤ lo, hi ≤ 1024.
    pub fn spread(&mut self, lo: i64, hi: i64) -> f64 {
        let field = (lo + 1023) as u64 + self.below((hi - lo) as u64);
        f64::from_bits(field << 52 | self.digits())
    }

    /// A float from lo to hi, its logarithm spread evenly; 0 < lo < hi.
    pub fn spread_within(&mut self, lo: f64, hi: f64) -> f64 {
        loop {
            let x = self.within(lo.log2(), hi.log2()).exp2();
            if lo <= x && x <= hi {
                return x;
            }
        }
    }

    /// 52 digits: any, or few ones, or few zeros.
    fn digits(&mut self) -> u64 {
        let (a, b, c) = (self.word(), self.word(), self.word());
        let digits = match self.below(4) {
            0 => a & b & c,
            1 => a | b | c,
            _ => a,
        };
        digits >> 12
    }

    fn pick<T: Copy>(&mut self, of: &[T]) -> T {
        of[self.below(of.len() as u64) as usize]
    }

    fn signed(&mut self, x: f64) -> f64 {
        if self.word() & 1 == 0 { x } else { -x }
    }

    /// x, or one of the three floats above or below it.
    fn beside(&mut self, x: f64) -> f64 {
        let by = self.below(7) as i64 - 3;
        step(x, by)
    }

    /// A float near x: from a few to a million floats away.
    fn around(&mut self, x: f64) -> f64 {
        let most = 1 << self.below(21);
        let by = self.below(2 * most + 1) as i64 - most as i64;
        step(x, by)
    }
}

/// A family of arguments: its name, its share of a comparison in hundredths, and one of it.
pub struct Family<T> {
    pub name: &'static str,
    pub share: u64,
    pub draw: fn(&mut Rng) -> T,
}

const fn family<T>(name: &'static str, share: u64, draw: fn(&mut Rng) -> T) -> Family<T> {
    Family { name, share, draw }
}

pub const ROOT: [Family<f64>; 8] = [
    family("any pattern", 28, any),
    family("any above zero", 12, positive),
    family("subnormal", 14, subnormal),
    family("beside a rounded square", 14, |r| {
        let x = r.spread(-510, 511);
        step(x * x, r.below(5) as i64 - 2)
    }),
    family("beside an exact square", 10, |r| {
        let x = (r.word() >> 38) as f64 * f64::from_bits((r.below(900) + 573) << 52);
        step(x * x, r.below(5) as i64 - 2)
    }),
    family("beside the square of a middle", 10, middle),
    family("ends of each exponent", 10, |r| {
        let end = r.pick(&[0, 1, 2, 3, 0xf_ffff_ffff_fffc, 0xf_ffff_ffff_fffd, 0xf_ffff_ffff_fffe, 0xf_ffff_ffff_ffff]);
        f64::from_bits(r.below(4096) << 52 | end)
    }),
    family("special", 2, special),
];

pub const ARC: [Family<f64>; 6] = [
    family("any pattern", 20, any),
    family("2^-30 to 2^30", 30, |r| {
        let x = r.spread(-30, 30);
        r.signed(x)
    }),
    family("-2 to 2", 25, |r| r.within(-2.0, 2.0)),
    family("around 1", 15, |r| {
        let x = r.around(1.0);
        r.signed(x)
    }),
    family("subnormal", 5, subnormal),
    family("special", 5, special),
];

/// Arguments of L and of log10.
pub const LOG: [Family<f64>; 7] = [
    family("any pattern", 15, any),
    family("any above zero", 20, positive),
    family("subnormal", 15, subnormal),
    family("beside 2^k root 2", 15, |r| {
        let x = power_of_two(r) * 1.4142135623730951;
        r.beside(x)
    }),
    family("beside 2^k", 15, |r| {
        let x = power_of_two(r);
        r.beside(x)
    }),
    family("around 1, 0.5 to 2", 15, |r| match r.below(2) {
        0 => r.around(1.0),
        _ => r.within(0.5, 2.0),
    }),
    family("special", 5, special),
];

pub const EXP: [Family<f64>; 7] = [
    family("-1090 to 1034", 20, |r| r.within(-1090.0, 1034.0)),
    family("-1081 to -1020", 25, |r| r.within(-1081.0, -1020.0)),
    family("beside a whole or a half", 20, |r| {
        let x = (r.below(4240) as f64 - 2170.0) / 2.0;
        r.beside(x)
    }),
    family("around the bounds", 10, |r| {
        let x = r.pick(&[1024.0, 1023.5, 1023.0, -1021.5, -1022.0, -1022.5, -1074.0, -1074.5, -1075.0, -1079.5, -1080.0]);
        r.around(x)
    }),
    family("2^-60 to 2", 10, |r| {
        let x = r.spread(-60, 1);
        r.signed(x)
    }),
    family("any pattern", 10, any),
    family("special", 5, special),
];

pub const TEN: [Family<f64>; 6] = [
    family("E's arguments by log 10", 50, |r| {
        let x = exponent(r) / 3.321928094887362;
        r.beside(x)
    }),
    family("-330 to 310", 20, |r| r.within(-330.0, 310.0)),
    family("beside a whole", 10, |r| {
        let x = r.below(640) as f64 - 330.0;
        r.beside(x)
    }),
    family("beside a whole, -24 to 24", 10, |r| {
        let x = r.below(49) as f64 - 24.0;
        r.beside(x)
    }),
    family("any pattern", 5, any),
    family("special", 5, special),
];

pub const POWER: [Family<(f64, f64)>; 7] = [
    family("any two patterns", 10, |r| (any(r), any(r))),
    family("0.001 to 1000, -40 to 40", 20, |r| (r.spread(-10, 10), r.within(-40.0, 40.0))),
    family("above zero, over E's range", 25, |r| {
        let b = positive(r);
        let y = exponent(r) / b.log2();
        (b, r.beside(y))
    }),
    family("around 1, over E's range", 15, |r| {
        let b = r.around(1.0);
        (b, exponent(r) / b.log2())
    }),
    family("1 + u·u, -5 to 0", 10, |r| {
        let u = r.spread(-14, 14);
        (1.0 + u * u, -r.within(0.0, 5.0))
    }),
    family("special, any", 10, |r| match r.below(2) {
        0 => (special(r), any(r)),
        _ => (any(r), special(r)),
    }),
    family("special, special", 10, |r| (special(r), special(r))),
];

/// Any bits at all, NaNs and infinities among them.
pub fn any(r: &mut Rng) -> f64 {
    f64::from_bits(r.word())
}

/// Any finite float above 0, subnormals seldom.
pub fn positive(r: &mut Rng) -> f64 {
    f64::from_bits(1 + r.below(0x7fef_ffff_ffff_ffff))
}

/// A subnormal of one to 52 digits, mostly above 0.
pub fn subnormal(r: &mut Rng) -> f64 {
    let x = f64::from_bits((r.word() >> 12 | 1 << 51) >> r.below(52));
    if r.below(8) == 0 { -x } else { x }
}

/// Any power of two that a float holds.
fn power_of_two(r: &mut Rng) -> f64 {
    match r.below(8) {
        0 => f64::from_bits(1 << r.below(52)),
        _ => f64::from_bits((1 + r.below(2046)) << 52),
    }
}

/// An argument of E, from one of its families.
fn exponent(r: &mut Rng) -> f64 {
    let draw = EXP[r.below(5) as usize].draw;
    draw(r)
}

/// A value at which a step of 01 changes its way, or one of the three beside it.
pub fn special(r: &mut Rng) -> f64 {
    let x = r.pick(&SPECIAL);
    let x = r.signed(x);
    match r.below(2) {
        0 => x,
        _ => r.beside(x),
    }
}

const SPECIAL: [f64; 27] = [
    0.0,
    f64::INFINITY,
    f64::NAN,
    f64::from_bits(0x7ff0_0000_0000_0001),
    f64::MAX,
    f64::MIN_POSITIVE,
    f64::from_bits(1),
    f64::from_bits(0xf_ffff_ffff_ffff),
    0.5,
    0.49999999999999994,
    0.70710678118654757,
    1.0,
    1.4142135623730951,
    1.5,
    2.0,
    3.0,
    4.0,
    10.0,
    100.0,
    308.25471555991675,
    323.30621534311575,
    1021.5,
    1022.0,
    1023.5,
    1024.0,
    1074.5,
    1080.0,
];

/// A float whose root lies as near to the middle of two floats as any: r·r + r - c = x·2^d for a root r of 53 digits and a small c, so
/// that the root of x·2^d is r + 1/2 less some c/2r. The r comes from a square root of 4c + 1 modulo a power of two.
fn middle(r: &mut Rng) -> f64 {
    const TOP: u64 = 1 << 52;
    loop {
        let wide = r.below(20);
        let c = 2 * (r.below(2 << wide) as i64 - (1 << wide));
        let drop = 52 + r.below(2);
        let s = root_modulo((4 * c + 1) as u64, drop + 2);
        let half = if r.word() & 1 == 0 { s >> 1 } else { !(s >> 1) };
        let q = match drop {
            52 => half % TOP + TOP,
            _ => half % (2 * TOP),
        };
        let exact = i128::from(q) * i128::from(q) + i128::from(q) - i128::from(c);
        let x = (exact >> drop) as u64;
        if q >= TOP && (TOP..2 * TOP).contains(&x) && exact == i128::from(x) << drop {
            let even = 2 * (r.below(900) as i64 - 450) + drop as i64;
            return x as f64 * f64::from_bits(((even + 1023) as u64) << 52);
        }
    }
}

/// A square root of a modulo 2^n, for an a that is 1 modulo 8: one more binary digit at each turn.
fn root_modulo(a: u64, n: u64) -> u64 {
    let mut s = 1u64;
    for i in 3..n {
        if (s.wrapping_mul(s) ^ a) >> i & 1 == 1 {
            s = s.wrapping_add(1 << (i - 1));
        }
    }
    s
}
