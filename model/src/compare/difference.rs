//! Where two outputs differ.

/// The first output line that is not the same; `None` where an output has ended.
#[derive(Debug, PartialEq, Eq)]
pub struct Difference<'a> {
    pub line: usize,
    pub model: Option<&'a [u8]>,
    pub bench: Option<&'a [u8]>,
}

impl<'a> Difference<'a> {
    /// The first difference, if there is one. Lines have their line ends.
    pub fn first(model: &'a [u8], bench: &'a [u8]) -> Option<Difference<'a>> {
        if model == bench {
            return None;
        }
        let (mut model, mut bench) = (lines(model), lines(bench));
        (1..)
            .map(|line| Difference { line, model: model.next(), bench: bench.next() })
            .find(|pair| pair.model != pair.bench)
    }
}

fn lines(output: &[u8]) -> impl Iterator<Item = &[u8]> {
    output.split_inclusive(|&byte| byte == b'\n')
}

#[cfg(test)]
mod tests {
    use super::*;

    #[test]
    fn the_first_difference() {
        for (model, bench, expected) in [
            ("", "", None),
            ("1 a\n2 b\n", "1 a\n2 b\n", None),
            ("1 a\n2 b\n", "1 a\n2 c\n", Some((2, Some("2 b\n"), Some("2 c\n")))),
            ("1 a\n2 b\n", "1 a\n", Some((2, Some("2 b\n"), None))),
            ("", "1 a\n", Some((1, None, Some("1 a\n")))),
            ("1 a\n", "1 a", Some((1, Some("1 a\n"), Some("1 a")))),
        ] {
            let expected = expected.map(|(line, model, bench)| Difference {
                line,
                model: model.map(str::as_bytes),
                bench: bench.map(str::as_bytes),
            });
            assert_eq!(Difference::first(model.as_bytes(), bench.as_bytes()), expected);
        }
    }
}
