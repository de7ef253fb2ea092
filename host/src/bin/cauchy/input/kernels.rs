//! A kernel list of the program's own form: a kernel a line, by its numbers.
use super::source::Source;
use super::words::{Read, Words, point};
use super::{layer_of, too_many};
use crate::failure::{Failure, Result};
use cauchy::{FileKernel, PLACES};

/// A kernel list, in kilometres.
#[derive(Debug, Default, PartialEq)]
pub struct KernelFile {
    /// The default exponent, where the list gives one.
    pub default: Option<f64>,
    pub kernels: Vec<FileKernel>,
    /// The layer of each kernel.
    pub layers: Vec<u32>,
}

/// The kernels of a list.
pub fn read(source: &mut Source<'_>) -> Result<KernelFile> {
    let mut list = KernelFile::default();
    while source.content()? {
        list.line(source.words()).map_err(|fault| source.fault(fault))?;
    }
    if list.kernels.is_empty() {
        return Err(Failure::of_file(source.path(), "has no kernel"));
    }
    Ok(list)
}

impl KernelFile {
    fn line(&mut self, words: Words<'_>) -> Read<()> {
        let ([first], _) = words.ahead();
        if first.is("default") {
            return match self.default {
                Some(_) => Err(first.fault("a second default")),
                None => default(words).map(|alpha| self.default = Some(alpha)),
            };
        }
        if self.kernels.len() == PLACES as usize {
            return Err(first.fault(too_many()));
        }
        let (kernel, layer) = kernel(words)?;
        self.kernels.push(kernel);
        self.layers.push(layer);
        Ok(())
    }
}

fn default(words: Words<'_>) -> Read<f64> {
    match words.ahead() {
        ([_, word], 2) => match word.number()? {
            alpha if alpha > 0.0 => Ok(alpha),
            _ => Err(word.fault(format!("the default exponent {} is not above 0", word.shown()))),
        },
        _ => Err(words.miscounted(2, "a default has one exponent".to_string())),
    }
}

/// A kernel, and its layer: 0 where the line names none.
fn kernel(words: Words<'_>) -> Read<(FileKernel, u32)> {
    let ([x, y, z, sigma, w, alpha, layer], n) = words.ahead();
    if !matches!(n, 6 | 7) {
        let numbers = "x y z sigma weight exponent (- for none)";
        let what =
            format!("a kernel has six numbers, {numbers}, and may have its layer after them; here are {n}");
        return Err(words.miscounted(7, what));
    }
    let kernel = FileKernel {
        c: point(&[x, y, z])?,
        sigma: sigma.number()?,
        w: w.number()?,
        alpha: if alpha.is("-") { None } else { Some(alpha.number()?) },
    };
    let layer = if n == 7 { layer.told(layer_of(&layer.shown()))? } else { 0 };
    Ok((kernel, layer))
}

#[cfg(test)]
mod tests {
    use super::*;
    use crate::input::tests::said;
    use std::path::Path;

    fn read_of(text: &str) -> Result<KernelFile> {
        read(&mut Source::of_bytes(Path::new("k.txt"), text.as_bytes()))
    }

    #[test]
    fn a_kernel_list_is_read_in_kilometres() {
        let text = "default 1.5\r\n 1 2 3\t4 5 6 # core\n\n# all comment\n-1 -2 -3 0.5 -50 - 15";
        let list = read_of(text).unwrap();
        assert_eq!((list.default, &list.layers[..]), (Some(1.5), &[0, 15][..]));
        let first = FileKernel { c: [1.0, 2.0, 3.0], sigma: 4.0, w: 5.0, alpha: Some(6.0) };
        let second = FileKernel { c: [-1.0, -2.0, -3.0], sigma: 0.5, w: -50.0, alpha: None };
        assert_eq!(list.kernels, [first, second]);
        assert_eq!(read_of("1 2 3 4 5 6").unwrap().default, None);
    }

    #[test]
    fn a_bad_kernel_list_is_named_by_its_place() {
        let told = |text: &str, wanted: &str| {
            let said = said(read_of(text));
            assert!(said.starts_with(&format!("k.txt, {wanted}")), "{text:?}: {said}");
        };
        told("\n1 2 3 4 5", "line 2, column 10: a kernel has six numbers, x y z sigma ");
        told("1 2 3 4 5 6 7 8", "line 1, column 15: a kernel has six numbers, ");
        assert!(
            said(read_of("1 2 3 4 5 6 7 8")).ends_with("here are 8\n  1 2 3 4 5 6 7 8\n                ^")
        );
        for layer in ["16", "-1", "+1", "1.0", "x", "99999999999"] {
            let wanted = format!("line 1, column 13: `{layer}` is not a layer: they are 0 to 15\n");
            told(&format!("1 2 3 4 5 6 {layer}"), &wanted);
        }
        told("1 2 3 - 5 6", "line 1, column 7: `-` is not a number from -1e100 to 1e100\n");
        told("1 2 \u{1b}[2J 4 5 6", "line 1, column 5: `\\u{1b}[2J` is not a number ");
        told("default 1\ndefault 2", "line 2, column 1: a second default\n");
        told("default", "line 1, column 8: a default has one exponent\n");
        told("default 1 2", "line 1, column 11: a default has one exponent\n");
        told("default 0", "line 1, column 9: the default exponent 0 is not above 0\n");
        told(&"0 0 0 1 1 1\n".repeat(33), "line 33, column 1: one kernel too many: a store has 32 places\n");
        assert_eq!(said(read_of("# none")), "k.txt: has no kernel");
    }
}
