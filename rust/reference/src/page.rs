//! The session page: No. 9 of document 02.

use crate::formula::is_name_byte;
use crate::rate::per_million;
use crate::refusal::{check_size, fill, Cause, Refusal};
use crate::simulator::Tally;

/// "Cycles counted from 1 and at most 524,288."
const MAX_CYCLES: usize = 524_288;
const MAX_GRAPH_NAME_BYTES: usize = 24;
/// "Ten rejected cycles a line."
const CELLS: usize = 10;

/// Checks 1, 22, 12; lays the page out and returns how many bytes it has.
pub fn session_page(name: &[u8], verdicts: &[u8], page: &mut [u8]) -> Result<usize, Refusal> {
    check_size(verdicts, MAX_CYCLES)?;
    let is_verdict = |byte: &u8| *byte <= 1;
    if !is_graph_name(name) || !verdicts.iter().all(is_verdict) {
        return Err(Cause::NotPrintable.no_line());
    }
    let text = laid_out(name, verdicts);
    fill(page, &text)?;
    Ok(text.len())
}

/// Not one "that is empty, over 24 bytes or holds a byte that is no letter, digit or `_`".
pub fn is_graph_name(name: &[u8]) -> bool {
    (1..=MAX_GRAPH_NAME_BYTES).contains(&name.len()) && name.iter().all(|byte| is_name_byte(*byte))
}

/// "80-byte lines, the LF not counted"; "blanks fill up".
fn laid_out(name: &[u8], verdicts: &[u8]) -> Vec<u8> {
    let cycles = verdicts.len();
    let rejected: Vec<usize> = (1..)
        .zip(verdicts)
        .filter(|(_, byte)| **byte == 1)
        .map(|(cycle, _)| cycle)
        .collect();
    let name = String::from_utf8_lossy(name);
    // "Graph name (24 bytes, left) and cycles (10, right)."
    let mut rows = vec![format!("{name:<24}{cycles:>10}")];
    for ten in rejected.chunks(CELLS) {
        // "Each in 8 bytes, right."
        rows.push(ten.iter().map(|cycle| format!("{cycle:>8}")).collect());
    }
    rows.push(last_row(cycles, rejected.len()));
    let lines = rows.iter().map(|row| format!("{row:<80}\n"));
    lines.collect::<String>().into_bytes()
}

/// "Rejected (10), whole part (7) and remainder (10), right."
fn last_row(cycles: usize, rejected: usize) -> String {
    let tally = Tally {
        cycles: cycles as u32,
        rejected: rejected as u32,
        ..Tally::default()
    };
    match per_million(tally) {
        Ok(rate) => format!("{rejected:>10}{:>7}{:>10}", rate.whole, rate.remainder),
        // "With no cycle, the whole part and remainder are blank."
        Err(_) => format!("{rejected:>10}"),
    }
}

#[cfg(test)]
mod tests {
    use super::*;
    use crate::testing::numbered;

    /// The lines of a page, written out in full but for the blanks at their end.
    fn page(rows: &[&str]) -> Vec<u8> {
        let mut text = Vec::new();
        for row in rows {
            let mut line = row.as_bytes().to_vec();
            line.resize(80, b' ');
            text.extend(line);
            text.push(b'\n');
        }
        text
    }

    fn laid(name: &[u8], verdicts: &[u8]) -> Result<Vec<u8>, (u8, u32)> {
        let mut text = vec![0; 81 * (4 + verdicts.len() / 10)];
        let length = session_page(name, verdicts, &mut text).map_err(numbered)?;
        assert!(text[length..].iter().all(|byte| *byte == 0));
        text.truncate(length);
        Ok(text)
    }

    /// So many cycles, all rejected.
    fn all(cycles: usize) -> Vec<u8> {
        vec![1; cycles]
    }

    #[test]
    fn worked_cases() {
        for (name, verdicts, bytes, rows) in [
            (
                "G",
                &[1, 0, 0][..],
                243,
                &[
                    "G                                3",
                    "       1",
                    "         1 333333         1",
                ][..],
            ),
            (
                "G",
                &[],
                162,
                &["G                                0", "         0"],
            ),
            (
                "G",
                &[0, 0, 0],
                162,
                &[
                    "G                                3",
                    "         0      0         0",
                ],
            ),
            (
                "aaaaaaaaaaaaaaaaaaaaaaaa",
                &[1; 11],
                324,
                &[
                    "aaaaaaaaaaaaaaaaaaaaaaaa        11",
                    "       1       2       3       4       5       6       7       8       9      10",
                    "      11",
                    "        111000000         0",
                ],
            ),
            (
                "7up",
                &[0, 1],
                243,
                &[
                    "7up                              2",
                    "       2",
                    "         1 500000         0",
                ],
            ),
        ] {
            let text = laid(name.as_bytes(), verdicts);
            assert_eq!(text, Ok(page(rows)), "{name}, {verdicts:?}");
            assert_eq!(text.unwrap().len(), bytes, "{name}, {verdicts:?}");
        }
    }

    /// Every byte of one page, its blanks too.
    #[test]
    fn every_byte() {
        let due = [
            "G                                3                                              \n",
            "       1                                                                        \n",
            "         1 333333         1                                                     \n",
        ];
        assert_eq!(laid(b"G", &[1, 0, 0]), Ok(due.concat().into_bytes()));
    }

    #[test]
    fn longest_runs() {
        let accepted = laid(b"G", &vec![0; 524_288]).unwrap();
        let due = [
            "G                           524288",
            "         0      0         0",
        ];
        assert_eq!(accepted, page(&due));
        let rejected = laid(b"G", &all(524_288)).unwrap();
        assert_eq!(rejected.len(), 4_246_911);
        let lines: Vec<&[u8]> = rejected.split_inclusive(|byte| *byte == b'\n').collect();
        assert_eq!(lines.len(), 52_431);
        assert_eq!(lines[0], page(&due[..1]));
        assert_eq!(
            lines[52_428..].concat(),
            page(&[
                "  524271  524272  524273  524274  524275  524276  524277  524278  524279  524280",
                "  524281  524282  524283  524284  524285  524286  524287  524288",
                "    5242881000000         0",
            ])
        );
    }

    /// A line is begun for every ten rejected cycles that are begun.
    #[test]
    fn nine_ten_eleven_and_twenty_rejected() {
        let ten =
            "       1       2       3       4       5       6       7       8       9      10";
        let twenty =
            "      11      12      13      14      15      16      17      18      19      20";
        for (cycles, rows) in [
            (
                9,
                &[
                    "night_3                          9",
                    &ten[..72],
                    "         91000000         0",
                ][..],
            ),
            (
                10,
                &[
                    "night_3                         10",
                    ten,
                    "        101000000         0",
                ],
            ),
            (
                11,
                &[
                    "night_3                         11",
                    ten,
                    "      11",
                    "        111000000         0",
                ],
            ),
            (
                19,
                &[
                    "night_3                         19",
                    ten,
                    &twenty[..72],
                    "        191000000         0",
                ],
            ),
            (
                20,
                &[
                    "night_3                         20",
                    ten,
                    twenty,
                    "        201000000         0",
                ],
            ),
        ] {
            let text = laid(b"night_3", &all(cycles));
            assert_eq!(text, Ok(page(rows)), "{cycles}");
        }
        // Accepted cycles between them change nothing but the counts.
        let apart = [0, 1].repeat(10);
        let due = page(&[
            "night_3                         20",
            "       2       4       6       8      10      12      14      16      18      20",
            "        10 500000         0",
        ]);
        assert_eq!(laid(b"night_3", &apart), Ok(due));
    }

    /// How many bytes a page has: 81 × (2 + ⌈rejected ÷ 10⌉).
    #[test]
    fn lengths() {
        for rejected in 0..=130 {
            for accepted in [0, 1, 7, 100] {
                let verdicts = [all(rejected), vec![0; accepted]].concat();
                let text = laid(b"G", &verdicts).unwrap();
                assert_eq!(text.len(), 81 * (2 + rejected.div_ceil(10)));
            }
        }
    }

    #[test]
    fn numbers_grow_to_the_left() {
        let mut verdicts = vec![0; 100_001];
        for cycle in [9, 10, 99, 100, 999, 1_000, 9_999, 10_000, 99_999, 100_000] {
            verdicts[cycle - 1] = 1;
        }
        let due = page(&[
            "G                           100001",
            "       9      10      99     100     999    1000    9999   10000   99999  100000",
            "        10     99     99901",
        ]);
        assert_eq!(laid(b"G", &verdicts), Ok(due));
        let mut due = page(&[
            "G                             1001",
            "    1001",
            "         1    999         1",
        ]);
        assert_eq!(laid(b"G", &[vec![0; 1_000], all(1)].concat()), Ok(due));
        due = page(&[
            "G                              999",
            "     999",
            "         1   1001         1",
        ]);
        assert_eq!(laid(b"G", &[vec![0; 998], all(1)].concat()), Ok(due));
    }

    #[test]
    fn graph_names() {
        for name in [
            "_",
            "0",
            "9",
            "A",
            "Z",
            "a",
            "z",
            "7up",
            "__",
            "refused",
            "T",
            "ABCDEFGHIJKLMNOPQRSTUVWX",
            "YZabcdefghijklmnopqrstuv",
            "wxyz0123456789__________",
        ] {
            let text = laid(name.as_bytes(), &[]).unwrap();
            let title = format!("{name}{:1$}0", "", 33 - name.len());
            assert_eq!(text, page(&[&title, "         0"]));
        }
        for name in [
            &b""[..],
            b"aaaaaaaaaaaaaaaaaaaaaaaaa",
            b"a b",
            b"a-b",
            b" a",
            b"a ",
            b"a\n",
            b"\na",
            b"a\r",
            b"a\0",
            b"\0",
            b"\xe9",
            b"\xc3\xa9",
            b"caf\xc3\xa9",
            &[b'a'; 256],
        ] {
            assert_eq!(laid(name, &[0]), Err((22, 0)), "{}", name.escape_ascii());
        }
    }

    /// Each byte alone, first, and last in a name of 24: 63 of them may stand there.
    #[test]
    fn bytes_of_graph_names() {
        let good: Vec<u8> = [b'0'..=b'9', b'A'..=b'Z', b'_'..=b'_', b'a'..=b'z']
            .into_iter()
            .flatten()
            .collect();
        assert_eq!(good.len(), 63);
        for beside in b"@[`{/:^" {
            assert!(!good.contains(beside));
        }
        let filling = [b'a'; 23];
        for byte in 0..=255 {
            for name in [
                vec![byte],
                [&[byte], &filling[..]].concat(),
                [&filling[..], &[byte]].concat(),
            ] {
                let text = laid(&name, &[]).map(|text| text[..24].to_vec());
                let mut due = name;
                due.resize(24, b' ');
                match good.contains(&byte) {
                    true => assert_eq!(text, Ok(due)),
                    false => assert_eq!(text, Err((22, 0)), "{byte}"),
                }
            }
        }
    }

    #[test]
    fn verdict_bytes() {
        for byte in 2..=255 {
            assert_eq!(laid(b"G", &[byte]), Err((22, 0)));
            assert_eq!(laid(b"G", &[byte, 0, 1]), Err((22, 0)));
            assert_eq!(laid(b"G", &[0, 1, byte]), Err((22, 0)));
        }
        let mut longest = vec![0; 524_288];
        longest[524_287] = 2;
        assert_eq!(laid(b"G", &longest), Err((22, 0)));
    }

    #[test]
    fn surplus_and_short_buffers() {
        for (verdicts, needed) in [(&[][..], 162), (&[0], 162), (&[1], 243), (&[1; 11], 324)] {
            let mut buffer = [b'x'; 400];
            assert_eq!(session_page(b"G", verdicts, &mut buffer), Ok(needed));
            assert!(!buffer[..needed].contains(&b'x'));
            assert!(buffer[needed..].iter().all(|byte| *byte == b'x'));
            let mut buffer = [b'x'; 400];
            let exact = session_page(b"G", verdicts, &mut buffer[..needed]);
            assert_eq!(exact, Ok(needed));
            for short in [0, 1, 80, 81, needed - 1] {
                let mut buffer = [b'x'; 400];
                let refusal = session_page(b"G", verdicts, &mut buffer[..short]).unwrap_err();
                assert_eq!(numbered(refusal), (12, 0));
                assert!(buffer.iter().all(|byte| *byte == b'x'));
            }
        }
    }

    /// Every choice of faults: the first of them in order decides, and nothing is written.
    #[test]
    fn order_of_refusals() {
        let (most, too_many) = (vec![0; 524_288], vec![0; 524_289]);
        let mut wrong_and_too_many = too_many.clone();
        wrong_and_too_many[0] = 2;
        for (verdicts, of_verdicts) in [
            (&[][..], None),
            (&most[..], None),
            (&[2][..], Some(22)),
            (&[255][..], Some(22)),
            (&too_many[..], Some(1)),
            (&wrong_and_too_many[..], Some(1)),
        ] {
            for name in [&b"G"[..], b"", b"a b", &[b'a'; 25]] {
                for lent in [162, 161, 0] {
                    let faults = [
                        of_verdicts.filter(|number| *number == 1),
                        of_verdicts,
                        (name != b"G").then_some(22),
                        (lent < 162).then_some(12),
                    ];
                    let mut buffer = [b'x'; 162];
                    let answer = session_page(name, verdicts, &mut buffer[..lent]);
                    match faults.into_iter().flatten().next() {
                        None => assert_eq!(answer, Ok(162)),
                        Some(number) => {
                            assert_eq!(answer.map_err(numbered), Err((number, 0)), "{faults:?}");
                            assert_eq!(buffer, [b'x'; 162]);
                        }
                    }
                }
            }
        }
    }

    /// "Equal pages come only from equal graph names and verdict bytes": all of some names
    /// and of the verdict bytes of up to six cycles, and runs about ten rejected cycles.
    #[test]
    fn equal_pages_tell_equal_runs() {
        let mut runs: Vec<Vec<u8>> = vec![Vec::new()];
        for shorter in 0..63 {
            for byte in [0, 1] {
                runs.push([&runs[shorter][..], &[byte]].concat());
            }
        }
        for cycles in 8..=22 {
            runs.push(all(cycles));
            runs.push([all(cycles), vec![0]].concat());
            runs.push([vec![0], all(cycles)].concat());
        }
        let full = "a".repeat(24);
        let mut pages = std::collections::BTreeSet::new();
        for name in ["a", "b", "a1", "1", "11", "0", "_", &full] {
            for verdicts in &runs {
                let mut text = [0; 1_000];
                let length = session_page(name.as_bytes(), verdicts, &mut text).unwrap();
                let new = pages.insert(text[..length].to_vec());
                assert!(new, "{name}, {verdicts:?}");
            }
        }
    }
}
