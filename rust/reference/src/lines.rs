//! A text as numbered lines.

/// One line of a text, without its LF.
#[derive(Clone, Copy, Debug, PartialEq, Eq)]
pub struct Line<'a> {
    /// "Lines count from 1."
    pub number: u32,
    pub bytes: &'a [u8],
    /// Whether an LF ends it; only a text's last line may lack one.
    pub ended: bool,
}

/// The lines of a text. An empty text has none, and a last LF begins no further line.
pub fn lines(text: &[u8]) -> impl Iterator<Item = Line<'_>> {
    text.split_inclusive(|byte| *byte == b'\n')
        .zip(1..)
        .map(|(line, number)| match line.strip_suffix(b"\n") {
            Some(bytes) => Line {
                number,
                bytes,
                ended: true,
            },
            None => Line {
                number,
                bytes: line,
                ended: false,
            },
        })
}

#[cfg(test)]
mod tests {
    use super::*;

    fn split(text: &str) -> Vec<(u32, &[u8], bool)> {
        lines(text.as_bytes())
            .map(|line| (line.number, line.bytes, line.ended))
            .collect()
    }

    #[test]
    fn lines_are_numbered_and_know_their_end() {
        assert_eq!(split(""), []);
        assert_eq!(split("\n"), [(1, &b""[..], true)]);
        assert_eq!(
            split("a\n\nb"),
            [(1, &b"a"[..], true), (2, b"", true), (3, b"b", false)]
        );
    }
}
