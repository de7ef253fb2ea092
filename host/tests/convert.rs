//! The kernels of a file's lines, as a user of the crate sees them, against a reader of lines that is written here.
use cauchy::{FileKernel, Kernel, Loader, Refusal, convert};

const LOADERS: [Loader; 3] = [Loader::Native, Loader::Source, Loader::Strict];
const DEFAULTS: [f64; 5] = [1.5, 0.0, -0.0, -1.0, f64::NAN];
const ALPHAS: [Option<f64>; 10] = [
    None,
    Some(2.5),
    Some(5e-324),
    Some(f64::INFINITY),
    Some(0.0),
    Some(-0.0),
    Some(-5e-324),
    Some(-1.0),
    Some(f64::NEG_INFINITY),
    Some(f64::NAN),
];

fn hex(x: f64) -> String {
    format!("{:016X}", x.to_bits())
}

fn line(kernel: FileKernel) -> String {
    let [x, y, z] = kernel.c.map(hex);
    let (sigma, w) = (hex(kernel.sigma), hex(kernel.w));
    let alpha = kernel.alpha.map_or("none".to_string(), hex);
    format!("(kernel (c {x} {y} {z}) (sigma {sigma}) (w {w}) (alpha {alpha}))\n")
}

/// A kernel whose every number is another, by its place in a file.
fn numbered(i: usize, alpha: Option<f64>) -> FileKernel {
    let n = i as f64;
    FileKernel { c: [n + 0.125, -n - 2.0, n / 3.0], sigma: n + 0.7, w: -500.0 - n, alpha }
}

/// The kernels of lines, read word by word, or nothing where they are not of the form.
fn naive(lines: &[u8]) -> Option<Vec<FileKernel>> {
    let text = std::str::from_utf8(lines).ok()?;
    let mut kernels = Vec::new();
    let mut rest = text;
    while !rest.is_empty() {
        let (line, after) = rest.split_once('\n')?;
        let inner = line.strip_prefix("(kernel (c ")?.strip_suffix("))")?;
        let (c, inner) = inner.split_once(") (sigma ")?;
        let (sigma, inner) = inner.split_once(") (w ")?;
        let (w, alpha) = inner.split_once(") (alpha ")?;
        let c: Option<Vec<f64>> = c.split(' ').map(number).collect();
        let alpha = if alpha == "none" { None } else { Some(number(alpha)?) };
        kernels.push(FileKernel { c: c?.try_into().ok()?, sigma: number(sigma)?, w: number(w)?, alpha });
        rest = after;
    }
    Some(kernels)
}

fn number(word: &str) -> Option<f64> {
    let is_digit = |byte: u8| byte.is_ascii_digit() || (b'A'..=b'F').contains(&byte);
    let whole = word.len() == 16 && word.bytes().all(is_digit);
    whole.then(|| f64::from_bits(u64::from_str_radix(word, 16).unwrap()))
}

/// What a loader makes of a kernel, by the words of the specification.
fn loaded(kernel: &FileKernel, default: f64, loader: Loader) -> Kernel {
    let alpha = match (kernel.alpha, loader) {
        (Some(alpha), Loader::Source) => alpha,
        (Some(alpha), _) if alpha > 0.0 => alpha,
        _ => default,
    };
    let [x, y, z] = kernel.c.map(|x| x * 1000.0);
    Kernel { c: [x, y, z], sigma: kernel.sigma / 1000.0, w: kernel.w, alpha }
}

/// The bits of kernels, those of every NaN alike.
fn bits(kernels: &[Kernel]) -> Vec<[u64; 6]> {
    let one = |x: f64| if x.is_nan() { f64::NAN.to_bits() } else { x.to_bits() };
    kernels.iter().map(|k| [k.c[0], k.c[1], k.c[2], k.sigma, k.w, k.alpha].map(one)).collect()
}

fn expected(lines: &[u8], default: f64, loader: Loader) -> Result<Vec<[u64; 6]>, Refusal> {
    let kernels = naive(lines).ok_or(Refusal::BadKernelLine)?;
    let by = |loader| bits(&kernels.iter().map(|k| loaded(k, default, loader)).collect::<Vec<_>>());
    match loader {
        Loader::Strict if by(Loader::Native) != by(Loader::Source) => Err(Refusal::LoadersDiffer),
        loader => Ok(by(loader)),
    }
}

/// Holds the answers of all loaders to those worked here.
fn hold(lines: &[u8], default: f64) {
    for loader in LOADERS {
        let told = convert(lines, default, loader).map(|kernels| bits(&kernels));
        let text = String::from_utf8_lossy(lines);
        assert_eq!(told, expected(lines, default, loader), "{loader:?}, default {default}: {text}");
    }
}

#[test]
fn every_exponent_with_every_default() {
    for default in DEFAULTS {
        for alpha in ALPHAS {
            hold(line(numbered(1, alpha)).as_bytes(), default);
            for other in ALPHAS {
                hold((line(numbered(1, alpha)) + &line(numbered(2, other))).as_bytes(), default);
            }
        }
        let all: String = ALPHAS.iter().enumerate().map(|(i, alpha)| line(numbered(i, *alpha))).collect();
        hold(all.as_bytes(), default);
        hold(b"", default);
    }
}

#[test]
fn strict_tells_zeros_apart_and_no_nan() {
    let strict = |alpha, default| convert(line(numbered(1, alpha)).as_bytes(), default, Loader::Strict);
    assert_eq!(strict(Some(-0.0), 0.0), Err(Refusal::LoadersDiffer));
    assert_eq!(strict(Some(0.0), -0.0), Err(Refusal::LoadersDiffer));
    assert!(strict(Some(-0.0), -0.0).unwrap()[0].alpha.is_sign_negative());
    assert_eq!(strict(Some(0.0), 0.0).unwrap()[0].alpha.to_bits(), 0);
    let another_nan = f64::from_bits(0xFFF0_0000_0000_0001);
    assert!(strict(Some(another_nan), f64::NAN).unwrap()[0].alpha.is_nan());
    assert!(strict(None, f64::NAN).unwrap()[0].alpha.is_nan());
    assert_eq!(strict(Some(f64::NAN), 1.0), Err(Refusal::LoadersDiffer));
}

#[test]
fn every_exponent_above_zero_is_taken_by_all() {
    let lines: String = (0..100).map(|i| line(numbered(i, Some(0.01 + i as f64)))).collect();
    let kernels = LOADERS.map(|loader| convert(lines.as_bytes(), f64::NAN, loader).unwrap());
    assert!(kernels[0] == kernels[1] && kernels[1] == kernels[2]);
    assert_eq!((kernels[0].len(), kernels[0][99].alpha), (100, 99.01));
}

#[test]
fn a_byte_more_less_or_other_is_no_line() {
    let lines = line(numbered(1, Some(-1.0))) + &line(numbered(2, None)) + &line(numbered(3, Some(2.0)));
    let lines = lines.as_bytes();
    assert_eq!(expected(lines, 1.5, Loader::Strict), Err(Refusal::LoadersDiffer));
    for at in 0..=lines.len() {
        hold(&lines[..at], 1.5);
        hold(&lines[at..], 1.5);
        hold(&[&lines[..at], &lines[lines.len().min(at + 1)..]].concat(), 1.5);
        for byte in *b"\0\r\n ()0Gafn\xff" {
            hold(&[&lines[..at], &[byte], &lines[at..]].concat(), 1.5);
            hold(&[&lines[..at], &[byte], &lines[lines.len().min(at + 1)..]].concat(), 1.5);
        }
    }
}

/// Numbers that look random, the same in every run.
struct Random(u64);

impl Random {
    fn below(&mut self, limit: usize) -> usize {
        (self.bits() >> 33) as usize % limit
    }

    fn bits(&mut self) -> u64 {
        self.0 = self.0.wrapping_mul(6_364_136_223_846_793_005).wrapping_add(1_442_695_040_888_963_407);
        self.0 ^ self.0 >> 29
    }

    fn float(&mut self) -> f64 {
        match self.below(4) {
            0 => ALPHAS[1 + self.below(9)].unwrap(),
            1 => f64::from_bits(self.bits()),
            _ => self.below(4000) as f64 / 8.0 - 100.0,
        }
    }
}

#[test]
fn random_files() {
    let mut random = Random(11);
    for _ in 0..20_000 {
        let mut lines = Vec::new();
        for _ in 0..random.below(5) {
            let c = [random.float(), random.float(), random.float()];
            let alpha = (random.below(4) > 0).then(|| random.float());
            lines.extend(line(FileKernel { c, sigma: random.float(), w: random.float(), alpha }).bytes());
        }
        if !lines.is_empty() && random.below(3) == 0 {
            let at = random.below(lines.len());
            match random.below(4) {
                0 => drop(lines.remove(at)),
                1 => lines.insert(at, random.bits() as u8),
                2 => lines[at] = random.bits() as u8,
                _ => lines.truncate(at),
            }
        }
        hold(&lines, DEFAULTS[random.below(5)]);
    }
}

#[test]
fn long_files_and_hostile_ones() {
    let many = line(numbered(7, None)).repeat(50_000);
    assert_eq!(convert(many.as_bytes(), 2.0, Loader::Strict).unwrap().len(), 50_000);
    let differ = many.clone() + &line(numbered(7, Some(-1.0)));
    assert_eq!(convert(differ.as_bytes(), 2.0, Loader::Strict), Err(Refusal::LoadersDiffer));
    assert_eq!(convert(differ.as_bytes(), 2.0, Loader::Source).unwrap()[50_000].alpha, -1.0);
    let bad = differ + "\n";
    for loader in LOADERS {
        assert_eq!(convert(bad.as_bytes(), 2.0, loader), Err(Refusal::BadKernelLine));
        for byte in [0, b'\n', b'(', 255] {
            assert_eq!(convert(&vec![byte; 1 << 20], 2.0, loader), Err(Refusal::BadKernelLine));
        }
    }
}

#[test]
fn a_conversion_stays_within_its_stack() {
    let thread = std::thread::Builder::new().stack_size((512 + 32) << 10).spawn(|| {
        let many = line(numbered(7, None)).repeat(1000);
        convert(many.as_bytes(), 2.0, Loader::Strict).unwrap().len()
    });
    assert_eq!(thread.unwrap().join().unwrap(), 1000);
}
