//! Graph texts for No. 3 of document 02, all of each kind: short formulas, pairs of formulas,
//! width fields, lists of records, and names of every width.

use crate::graphs::{WRONG_TERMS, WRONG_WIDTHS};
use std::iter::repeat_n;

/// Two names of width 2 and one of width 1; constants of each.
const RECORDS: &str = "S\ta\t2\nS\tb\t2\nS\tp\nK\tk\t2\nK\tj\nV\tv\n";
/// What short formulas are put together from; `z` is unknown.
const PARTS: [&str; 15] = [
    "a", "b", "p", "z", "0", "1", "[", "]", "[0]", "[1]", "[2]", "=", "!", "(", ")",
];
const MOST_PARTS: usize = 4;
/// Good ones, and those refused with 19, 9, 8 and 7, or with several of them.
const FORMULAS: [&str; 30] = [
    "1",
    "p",
    "p[0]",
    "a[1]",
    "k[0]",
    "a==b",
    "!a==k",
    "p==j=a[0]",
    "a==b&k==a|b==b",
    "a",
    "!a",
    "a=b",
    "p&k",
    "a[2]",
    "p[1]",
    "a==p",
    "j==k",
    "a[18446744073709551616]",
    "z",
    "z[0]",
    "z==a",
    "a==z",
    "a[2]&z",
    "z|a",
    "!!!!!!!!!!!!!!!!!p",
    "!!!!!!!!!!!!!!!!!a==p",
    "((((((((((((((((!z))))))))))))))))",
    "a[02]",
    "a==b==k",
    "z[",
];

pub fn texts() -> Vec<Vec<u8>> {
    let texts = [
        short_formulas(),
        pairs_of_formulas(),
        width_fields(),
        lists_of_records(),
        each_width(),
    ];
    texts.concat().into_iter().map(String::into_bytes).collect()
}

fn edge(antecedent: &str, consequent: &str) -> String {
    format!("E\tv\tv\tt\t{antecedent}\t{consequent}\n")
}

/// Every formula of a few parts, as antecedent.
fn short_formulas() -> Vec<String> {
    let mut formulas = vec![String::new()];
    let mut longer = formulas.clone();
    for _ in 0..MOST_PARTS {
        longer = longer
            .iter()
            .flat_map(|formula| PARTS.map(|part| format!("{formula}{part}")))
            .collect();
        formulas.extend_from_slice(&longer);
    }
    formulas.extend(WRONG_TERMS.map(String::from));
    formulas
        .iter()
        .map(|formula| format!("{RECORDS}{}", edge(formula, "1")))
        .collect()
}

/// "After 9", over both.
fn pairs_of_formulas() -> Vec<String> {
    FORMULAS
        .iter()
        .flat_map(|antecedent| {
            FORMULAS.map(|consequent| format!("{RECORDS}{}", edge(antecedent, consequent)))
        })
        .collect()
}

/// Every width up to 40 and every wrong one, at each kind of record, in its place or too late.
fn width_fields() -> Vec<String> {
    let numbers = (0..=40).map(|width| width.to_string());
    let fields: Vec<String> = numbers.chain(WRONG_WIDTHS.map(String::from)).collect();
    let mut texts = Vec::new();
    for kind in ["S", "K", "V", "M", "E"] {
        for field in &fields {
            for before in ["", "S\tp\n", "K\tk\t2\n", "V\tw\n"] {
                texts.push(format!("{before}{kind}\tx\t{field}\nV\tv\n"));
            }
            texts.push(format!("V\tv\n{kind}\tx\t{field}"));
        }
    }
    texts
}

/// Every list of up to five of some records: totals passed by a bit or by more, names
/// repeated, kinds out of order.
fn lists_of_records() -> Vec<String> {
    const RECORDS: [&str; 7] = [
        "S\tx\t16\n",
        "S\ty\t15\n",
        "S\tz\t16\n",
        "S\tw\n",
        "K\tx\t3\n",
        "K\tk\t4\n",
        "K\tj\t2\n",
    ];
    let mut lists = vec![String::new()];
    let mut longer = lists.clone();
    for _ in 0..5 {
        longer = longer
            .iter()
            .flat_map(|list| RECORDS.map(|record| format!("{list}{record}")))
            .collect();
        lists.extend_from_slice(&longer);
    }
    lists.iter().map(|list| format!("{list}V\tv\n")).collect()
}

/// Names of every width, compared with those of every other; each bit of them, and some
/// beyond; and each number of bits before them.
fn each_width() -> Vec<String> {
    let mut texts = Vec::new();
    for width in 1..=16 {
        let records = |kind, other| format!("S\tp\nS\ta\t{width}\n{kind}\tb\t{other}\nV\tv\n");
        for (kind, others) in [("S", 1..=16), ("K", 1..=6)] {
            for other in others {
                let records = records(kind, other);
                for formula in ["a==b", "b==a", "p==a", "b==b"] {
                    texts.push(format!("{records}{}", edge(formula, "1")));
                }
                for n in 0..=17 {
                    texts.push(format!("{records}{}", edge(&format!("b[{n}]"), "p")));
                }
            }
        }
        for n in (0..=40).chain([255, 256, 257, 65_535, 65_536, 65_537]) {
            let formula = format!("a[{n}]");
            texts.push(format!("{}{}", records("S", 1), edge(&formula, "b")));
        }
    }
    for before in 0..=46 {
        let bits: String = repeat_n("S\tq", before)
            .enumerate()
            .map(|(at, record)| format!("{record}{at}\n"))
            .collect();
        let constants = "K\tj\t2\nK\tk\t4\n";
        let records = format!("{bits}S\ta\t16\n{constants}V\tv\n");
        texts.push(format!("{records}{}", edge("a[15]&k[3]", "a==a|k==k")));
    }
    texts
}
