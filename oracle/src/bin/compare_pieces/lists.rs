use crate::judge::{kernel, pieces_differ};
use oracle::cases;
use oracle::inputs::Rng;
use oracle::original::native::{self, KernelSi};
use oracle::pieces::{self, Kernel};
use oracle::tally::Tally;

/// Lists of up to 8 kernels with exponents of all families, some not of sixes, into runs of every kind of length.
pub fn lists(count: u64, mut r: Rng) -> Tally {
    let mut tally = Tally::new();
    let (mut ragged, mut short, mut once) = (0, 0, 0);
    for _ in 0..count {
        let kernels: Vec<Kernel> = (0..r.below(9)).map(|_| draw(&mut r)).collect();
        let radius = cases::length(&mut r, 500.0);
        let mut run: Vec<f64> = kernels.iter().flat_map(|k| [k.c[0], k.c[1], k.c[2], k.sigma, k.w, k.alpha]).collect();
        if r.below(8) == 0 {
            run.extend((0..1 + r.below(5)).map(|_| 1.0));
        }
        let theirs: Vec<KernelSi> = kernels.iter().map(|k| KernelSi { c: k.c, sigma: k.sigma, w: k.w, alpha: k.alpha }).collect();
        let (list, error) = native::decompose(&theirs, radius);
        let need = 6 * list.len();
        let room = match r.below(8) {
            0 => need.saturating_sub(1),
            1 => r.below(need as u64 + 1) as usize,
            2 | 3 => need + r.below(30) as usize,
            4 | 5 => 96 * kernels.len(),
            _ => need,
        };
        let before = cases::garbage(&mut r, room);
        let refused = !run.len().is_multiple_of(6) || room < need;
        let text = if refused { None } else { Some((&list[..], error)) };
        tally.count(list_differs(&run, radius, text, &before), || {
            format!("{kernels:?}, {} floats, radius {radius:?}, room for {room}", run.len())
        });
        ragged += u64::from(!run.len().is_multiple_of(6));
        short += u64::from(room < need);
        once += u64::from(room >= 96 * kernels.len());
    }
    tally.line("pieces", "of a list", &format!("{ragged} not of sixes, {short} of a short run, {once} with room for 16 each"));
    tally
}

fn draw(r: &mut Rng) -> Kernel {
    let (_, exponent) = cases::one(r, &cases::EXPONENTS);
    let alpha = exponent(r);
    kernel(r, alpha)
}

fn list_differs(run: &[f64], radius: f64, text: Option<(&[KernelSi], f64)>, before: &[f64]) -> bool {
    let mut out = before.to_vec();
    let told = pieces::decompose_list(run, radius, &mut out);
    let kernels = if text.is_none() { 0 } else { run.len() as u64 / 6 };
    told.kernels != kernels || pieces_differ((told.no, told.pieces, told.error), &out, text, before)
}
