//! What the tests of the calls that write a graph share.

use ludopoplar::Refusal;

pub const TOO_SHORT: Refusal = Refusal {
    number: 12,
    line: 0,
};

/// A call that writes the graph of a number, of edges or of strokes: as the wrapper has it, and as
/// C does.
pub struct Writer {
    pub call: fn(u64, &mut [u8]) -> Result<usize, Refusal>,
    pub raw: fn(u64, &mut [u8], &mut u64) -> u64,
}

impl Writer {
    /// Makes both calls on a buffer of this length: what they answer, and what is in the buffer
    /// then. A refused one leaves the length as it was, too.
    pub fn written(&self, number: u64, lent: usize) -> (Result<usize, Refusal>, Vec<u8>) {
        let mut text = vec![b'#'; lent];
        let answer = (self.call)(number, &mut text);
        let (mut again, mut length) = (vec![b'#'; lent], 77);
        let code = (self.raw)(number, &mut again, &mut length);
        assert_eq!(Refusal::check(code), answer.map(|_| ()), "{number}, {lent}");
        assert_eq!(length, answer.unwrap_or(77) as u64, "{number}, {lent}");
        assert_eq!(again, text, "{number}, {lent}");
        (answer, text)
    }

    /// A number past the most, or none, is refused so, whatever the buffer.
    pub fn refuses_outside(&self, most: u64, refused: Refusal, lengths: &[usize]) {
        let far = [1 << 8, (1 << 8) + 1, 1 << 32, (1 << 32) + 1, 1 << 63];
        for number in [0, most + 1, most + 2, u64::MAX].into_iter().chain(far) {
            for &lent in lengths {
                let answer = (Err(refused), vec![b'#'; lent]);
                assert_eq!(self.written(number, lent), answer);
            }
        }
    }
}
