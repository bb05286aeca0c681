//! The measurement that broke first: No. 12 of document 02.

use crate::refusal::{check_size, Cause, Refusal};
use crate::trace::{cycles_of, MAX_TRACE_BYTES};

/// One of the two traces of a session.
#[derive(Clone, Copy, Debug, PartialEq, Eq)]
pub enum Trace {
    Flywheel,
    Handle,
}

/// Bytes of a trace, before which it has `offset` others.
#[derive(Clone, Copy, Debug, PartialEq, Eq)]
pub struct Part<'a> {
    pub trace: Trace,
    pub offset: usize,
    pub bytes: &'a [u8],
}

/// "One call answers the number and line of a refusal, or none."
pub fn broken_check(
    width: usize,
    flywheel: &[u8],
    handle: &[u8],
    flywheel_verdicts: &[u8],
    handle_verdicts: &[u8],
) -> Result<(), Refusal> {
    let verdicts = [flywheel_verdicts, handle_verdicts];
    Session::of(width, [flywheel, handle], verdicts).map(|_| ())
}

/// "Another hands back the part, which is that same empty beginning where the first
/// refuses."
pub fn first_broken<'a>(
    width: usize,
    flywheel: &'a [u8],
    handle: &'a [u8],
    flywheel_verdicts: &[u8],
    handle_verdicts: &[u8],
) -> Part<'a> {
    let verdicts = [flywheel_verdicts, handle_verdicts];
    let session = Session::of(width, [flywheel, handle], verdicts);
    let broken = session.ok().and_then(|session| session.first_broken());
    // "With no rejection, hand back the empty beginning of the flywheel trace."
    broken.unwrap_or(Part {
        trace: Trace::Flywheel,
        offset: 0,
        bytes: &flywheel[..0],
    })
}

struct Session<'a> {
    flywheel: Vec<Cycle<'a>>,
    handle: Vec<Cycle<'a>>,
}

struct Cycle<'a> {
    /// "The line excludes its LF."
    line: &'a [u8],
    rejected: bool,
}

impl<'a> Session<'a> {
    /// Checks 1, 26, 15, 25; of the traces, as of the verdict lists, the flywheel's first.
    fn of(width: usize, traces: [&'a [u8]; 2], verdicts: [&[u8]; 2]) -> Result<Self, Refusal> {
        let ([flywheel, handle], [flywheel_verdicts, handle_verdicts]) = (traces, verdicts);
        check_size(flywheel, MAX_TRACE_BYTES)?;
        check_size(handle, MAX_TRACE_BYTES)?;
        if !(1..=64).contains(&width) {
            return Err(Cause::WidthOutOfRange.no_line());
        }
        let flywheel = cycles_of(width, flywheel)?;
        let handle = cycles_of(width, handle)?;
        Ok(Session {
            flywheel: judged(flywheel, flywheel_verdicts)?,
            handle: judged(handle, handle_verdicts)?,
        })
    }

    /// Goes through the session cycle by cycle, as long as the longer trace lasts: they
    /// "need not be equally long". "At a tie, the flywheel's", so it is asked first.
    fn first_broken(&self) -> Option<Part<'a>> {
        let both = [
            (Trace::Flywheel, &self.flywheel),
            (Trace::Handle, &self.handle),
        ];
        for place in 0..self.flywheel.len().max(self.handle.len()) {
            for (trace, cycles) in both {
                if let Some(cycle) = cycles.get(place).filter(|cycle| cycle.rejected) {
                    return Some(Part {
                        trace,
                        offset: bytes_of(&cycles[..place]),
                        bytes: cycle.line,
                    });
                }
            }
        }
        None
    }
}

/// Checks 25: "a verdict list of another length or holding a byte above 1".
fn judged<'a>(lines: Vec<&'a [u8]>, verdicts: &[u8]) -> Result<Vec<Cycle<'a>>, Refusal> {
    if verdicts.len() != lines.len() || verdicts.iter().any(|byte| *byte > 1) {
        return Err(Cause::VerdictsWrong.no_line());
    }
    let cycles = lines.into_iter().zip(verdicts).map(|(line, byte)| Cycle {
        line,
        rejected: *byte == 1,
    });
    Ok(cycles.collect())
}

/// How many bytes these cycles take in their trace.
fn bytes_of(cycles: &[Cycle]) -> usize {
    cycles.iter().map(|cycle| cycle.line.len() + 1).sum()
}

#[cfg(test)]
mod tests {
    use super::*;
    use crate::testing::{lines_text, numbered};
    use Trace::{Flywheel, Handle};

    const F: &[u8] = b"10\n11\n01\n";
    const H: &[u8] = b"00\n01\n";

    /// The trace, offset and length of the part handed back, or number and line.
    type Answer = Result<(Trace, usize, usize), (u8, u32)>;

    /// Width, flywheel trace, handle trace, the verdict list of each, and what is due.
    type Case<'a> = (usize, &'a [u8], &'a [u8], [&'a [u8]; 2], Answer);

    /// What both calls answer. The part lies where it says in that trace; where the check
    /// refuses, it is the empty beginning of the flywheel trace.
    fn answer(width: usize, flywheel: &[u8], handle: &[u8], verdicts: [&[u8]; 2]) -> Answer {
        let [flywheel_verdicts, handle_verdicts] = verdicts;
        let check = broken_check(width, flywheel, handle, flywheel_verdicts, handle_verdicts);
        let part = first_broken(width, flywheel, handle, flywheel_verdicts, handle_verdicts);
        let (offset, length) = (part.offset, part.bytes.len());
        let trace = match part.trace {
            Flywheel => flywheel,
            Handle => handle,
        };
        assert!(std::ptr::eq(part.bytes, &trace[offset..offset + length]));
        if check.is_err() {
            assert_eq!((part.trace, offset, length), (Flywheel, 0, 0));
        }
        check
            .map(|()| (part.trace, offset, length))
            .map_err(numbered)
    }

    fn pairs<T: Copy>(items: &[T]) -> Vec<(T, T)> {
        let with_each = |one: &T| items.iter().map(|other| (*one, *other)).collect::<Vec<_>>();
        items.iter().flat_map(with_each).collect()
    }

    #[test]
    fn worked_cases() {
        let longest = b"1\n".repeat(524_288);
        let mut last = vec![0; 524_288];
        last[524_287] = 1;
        let too_long = vec![b'1'; 1_048_577];
        let cases: [Case; 19] = [
            (2, F, H, [&[0, 0, 1], &[0, 0]], Ok((Flywheel, 6, 2))),
            (2, F, H, [&[0, 1, 0], &[0, 1]], Ok((Flywheel, 3, 2))),
            (2, F, H, [&[0, 0, 1], &[0, 1]], Ok((Handle, 3, 2))),
            (2, F, H, [&[0, 0, 0], &[1, 1]], Ok((Handle, 0, 2))),
            (2, F, H, [&[0, 0, 0], &[0, 0]], Ok((Flywheel, 0, 0))),
            (2, b"", b"", [&[], &[]], Ok((Flywheel, 0, 0))),
            (2, b"", H, [&[], &[0, 1]], Ok((Handle, 3, 2))),
            (1, &longest, b"", [&last, &[]], Ok((Flywheel, 1_048_574, 1))),
            (0, F, H, [&[0, 0, 1], &[0, 0]], Err((26, 0))),
            (65, F, H, [&[0, 0, 1], &[0, 0]], Err((26, 0))),
            (3, F, H, [&[0, 0, 1], &[0, 0]], Err((15, 1))),
            (2, &F[..8], H, [&[0, 0, 1], &[0, 0]], Err((15, 3))),
            (2, F, b"00\n0x\n", [&[0, 0, 1], &[0, 0]], Err((15, 2))),
            (2, b"1\n", b"0\n", [&[0], &[0]], Err((15, 1))),
            (2, F, H, [&[0, 0], &[0, 0]], Err((25, 0))),
            (2, F, H, [&[0, 0, 2], &[0, 0]], Err((25, 0))),
            (2, F, H, [&[1, 0, 0], &[0, 0, 0]], Err((25, 0))),
            (0, &too_long, H, [&[], &[0, 0]], Err((1, 0))),
            (0, F, &too_long, [&[0, 0, 0], &[]], Err((1, 0))),
        ];
        for (place, (width, flywheel, handle, verdicts, due)) in cases.into_iter().enumerate() {
            let answer = answer(width, flywheel, handle, verdicts);
            assert_eq!(answer, due, "case {place}");
        }
    }

    #[test]
    fn bytes_of_the_line() {
        let line = |verdicts: [&[u8]; 2]| first_broken(2, F, H, verdicts[0], verdicts[1]).bytes;
        assert_eq!(line([&[1, 1, 1], &[1, 1]]), b"10");
        assert_eq!(line([&[0, 1, 1], &[0, 0]]), b"11");
        assert_eq!(line([&[0, 0, 1], &[1, 0]]), b"00");
        assert_eq!(line([&[0, 0, 1], &[0, 1]]), b"01");
        assert_eq!(line([&[0, 0, 0], &[0, 0]]), b"");
    }

    /// Every pair of verdict lists of up to five cycles: the first 1 of each is asked for.
    #[test]
    fn earlier_cycle_of_traces_of_any_lengths() {
        let mut lists: Vec<Vec<u8>> = vec![vec![]];
        for shorter in 0..31 {
            for byte in [0, 1] {
                lists.push([&lists[shorter][..], &[byte]].concat());
            }
        }
        let lists: Vec<&[u8]> = lists.iter().map(Vec::as_slice).collect();
        for (flywheel, handle) in pairs(&lists) {
            let first = |list: &[u8]| list.iter().position(|byte| *byte == 1);
            let due = match (first(flywheel), first(handle)) {
                (Some(at), None) => (Flywheel, 4 * at, 3),
                (Some(at), Some(other)) if at <= other => (Flywheel, 4 * at, 3),
                (_, Some(at)) => (Handle, 4 * at, 3),
                (None, None) => (Flywheel, 0, 0),
            };
            let [one, other] = [flywheel, handle].map(|list| b"101\n".repeat(list.len()));
            let answer = answer(3, &one, &other, [flywheel, handle]);
            assert_eq!(answer, Ok(due), "{flywheel:?}, {handle:?}");
        }
    }

    #[test]
    fn traces_at_and_over_their_limit() {
        let trace = b"1\n".repeat(524_288);
        let (accepted, mut last) = (vec![0; 524_288], vec![0; 524_288]);
        last[524_287] = 1;
        let of_both = |verdicts| answer(1, &trace, &trace, verdicts);
        assert_eq!(of_both([&last, &last]), Ok((Flywheel, 1_048_574, 1)));
        assert_eq!(of_both([&accepted, &last]), Ok((Handle, 1_048_574, 1)));
        assert_eq!(of_both([&accepted, &accepted]), Ok((Flywheel, 0, 0)));
        assert_eq!(of_both([&last, &last[1..]]), Err((25, 0)));
        // As many bytes, but no LF at the end; or nothing but LF.
        let open = [&trace[..1_048_575], b"1"].concat();
        assert_eq!(answer(1, &open, b"", [&last, &[]]), Err((15, 524_288)));
        assert_eq!(answer(1, b"", &open, [&[], &last]), Err((15, 524_288)));
        let empty_lines = vec![b'\n'; 1_048_576];
        assert_eq!(answer(1, &empty_lines, b"", [&[], &[]]), Err((15, 1)));
        for surplus in [b'1', b'\n'] {
            let longer = [&trace[..], &[surplus]].concat();
            assert_eq!(answer(1, &longer, b"", [&last, &[]]), Err((1, 0)));
            assert_eq!(answer(1, b"", &longer, [&[], &last]), Err((1, 0)));
        }
    }

    #[test]
    fn widths() {
        let verdicts: [&[u8]; 2] = [&[0, 0, 1], &[0, 1, 0]];
        for width in 1..=64 {
            let trace = [&vec![b'1'; width][..], b"\n"].concat().repeat(3);
            let of_width = |width| answer(width, &trace, &trace, verdicts);
            assert_eq!(of_width(width), Ok((Handle, width + 1, width)));
            for other in [width - 1, width + 1] {
                let due = match other {
                    0 | 65 => (26, 0),
                    _ => (15, 1),
                };
                assert_eq!(of_width(other), Err(due));
            }
        }
        // Lines of the width that is stated, but too wide or of nothing.
        let trace = [&[b'1'; 65][..], b"\n"].concat().repeat(3);
        assert_eq!(answer(65, &trace, &trace, verdicts), Err((26, 0)));
        assert_eq!(answer(0, b"\n\n\n", b"\n\n\n", verdicts), Err((26, 0)));
        // Numbers of more bits, with 2 in the lowest.
        for width in [258, 65_538, 1 << 32 | 2, 1 << 63 | 2, usize::MAX] {
            assert_eq!(answer(width, F, F, verdicts), Err((26, 0)));
        }
    }

    #[test]
    fn wrong_lines() {
        for (trace, line) in [
            ("1", 1),
            ("10,1", 2),
            ("10,111", 2),
            ("10,1x", 2),
            ("10,12,0/", 2),
            ("10,11,0 ", 3),
            ("10,11,01,", 4),
            (",10", 1),
            ("10,,11", 2),
            ("10\r,11", 1),
            ("10,11,0\r", 3),
            ("10,\r", 2),
            ("10,\u{1}\u{0}", 2),
        ] {
            let text = lines_text(trace);
            let verdicts = vec![0; trace.split(',').count()];
            let as_flywheel = answer(2, &text, H, [&verdicts, &[0, 0]]);
            let as_handle = answer(2, F, &text, [&[0, 0, 0], &verdicts]);
            let due = Err((15, line));
            assert_eq!((as_flywheel, as_handle), (due, due), "{trace:?}");
        }
        // The last line without its LF.
        for (open, line) in [(&F[..2], 1), (&F[..5], 2), (&F[..8], 3), (&F[..7], 3)] {
            let list = &[0; 3][..line as usize];
            assert_eq!(answer(2, open, H, [list, &[0, 0]]), Err((15, line)));
            assert_eq!(answer(2, F, open, [&[0, 0, 0], list]), Err((15, line)));
        }
    }

    #[test]
    fn wrong_verdict_lists() {
        for list in [
            &[][..],
            &[0, 0],
            &[0, 0, 0, 0],
            &[1, 0, 0, 0],
            &[2, 0, 0],
            &[1, 2, 0],
            &[0, 0, 255],
            b"000",
            b"001",
        ] {
            for good in [[0, 0], [1, 0]] {
                assert_eq!(answer(2, F, H, [list, &good]), Err((25, 0)), "{list:?}");
                assert_eq!(answer(2, H, F, [&good, list]), Err((25, 0)), "{list:?}");
            }
        }
        for byte in 2..=255 {
            assert_eq!(answer(2, F, H, [&[0, 1, byte], &[0, 0]]), Err((25, 0)));
            assert_eq!(answer(2, F, H, [&[0, 1, 0], &[0, byte]]), Err((25, 0)));
        }
        // Each of the length that the other should have; and of no line.
        assert_eq!(answer(2, F, H, [&[0, 1], &[0, 0, 0]]), Err((25, 0)));
        assert_eq!(answer(2, b"", H, [&[0], &[0, 1]]), Err((25, 0)));
        assert_eq!(answer(2, F, b"", [&[0, 0, 1], &[0]]), Err((25, 0)));
    }

    /// Every choice of faults: the first of them in order decides.
    #[test]
    fn order_of_refusals() {
        let too_long = vec![b'1'; 1_048_577];
        let traces: [(&[u8], Option<u32>); 4] = [
            (F, None),
            (b"1\n", Some(1)),
            (b"10\n11\n0\n", Some(3)),
            (&too_long, Some(1)),
        ];
        let good: &[u8] = &[0, 1, 0];
        let lists = [good, &[0, 1], &[0, 1, 2]];
        for width in [2, 0, 65] {
            for ((flywheel, flywheel_line), (handle, handle_line)) in pairs(&traces) {
                for (flywheel_list, handle_list) in pairs(&lists) {
                    let longer = flywheel.len().max(handle.len());
                    let faults = [
                        (longer > 1_048_576).then_some((1, 0)),
                        (width != 2).then_some((26, 0)),
                        flywheel_line.map(|line| (15, line)),
                        handle_line.map(|line| (15, line)),
                        (flywheel_list != good || handle_list != good).then_some((25, 0)),
                    ];
                    let due = match faults.into_iter().flatten().next() {
                        Some(first) => Err(first),
                        None => Ok((Flywheel, 3, 2)),
                    };
                    let answer = answer(width, flywheel, handle, [flywheel_list, handle_list]);
                    assert_eq!(answer, due, "{faults:?}");
                }
            }
        }
    }
}
