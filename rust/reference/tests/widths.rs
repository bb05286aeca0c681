//! No. 3 of document 02, "signals wider than one wire": worked cases, numbered as they were
//! decided, written with blanks for tabs and commas for line ends; then what the cases leave
//! to be shown: numbers that wrap, faults in both formulas, sums past 16 bits.

mod common;

use common::{netlist, page};
use reference::{formula_of_gates, read, sheet, write, Graph, Outputs};

/// Of the worked cases: an edge after it is line 8.
const HEAD: &str = "S a 4,S b 4,S c 2,S p,K k 4,K j 2,V v";

fn text(notation: &str) -> Vec<u8> {
    format!("{}\n", notation.replace(' ', "\t").replace(',', "\n")).into_bytes()
}

/// With an edge of these formulas after the head.
fn edge(formulas: &str) -> Vec<u8> {
    text(&format!("{HEAD},E v v t {formulas}"))
}

fn refused(graph: &[u8]) -> (u8, u32) {
    let shown = graph.escape_ascii();
    match netlist(graph) {
        Ok(_) => panic!("accepted: {shown}"),
        Err(refusal) => refusal,
    }
}

/// M, I, L and gates.
fn sizes(graph: &[u8]) -> [usize; 4] {
    let (gates, net) = netlist(graph).expect("an accepted graph");
    let parsed = Graph::parse(graph).unwrap();
    assert_eq!(gates, formula_of_gates(&parsed, Outputs::Accept));
    assert_eq!(gates, usize::from(net[4]));
    [net[0], net[1], net[2], net[4]].map(usize::from)
}

fn gates(graph: &[u8]) -> usize {
    sizes(graph)[3]
}

/// The AIGER file of a graph, which is read back to the same numbers.
fn file(graph: &[u8]) -> Vec<u8> {
    let (_, net) = netlist(graph).unwrap();
    let (mut file, mut back) = (vec![0; 65_536], vec![0; 8_194]);
    let length = write(&net, &mut file).unwrap();
    file.truncate(length);
    let numbers = read(&file, &mut back).unwrap();
    assert_eq!(back[..numbers], net[..numbers]);
    file
}

/// A file written with commas for line ends.
fn lines(file: &str) -> Vec<u8> {
    format!("{}\n", file.replace(',', "\n")).into_bytes()
}

/// Cases 1 to 8.
#[test]
fn accepted_formulas() {
    let sixteen = format!("{}a==b 1", "!".repeat(16));
    for (case, formulas, due) in [
        (1, "a[0] 1", 8),
        (2, "p[0] p", 8),
        (3, "a==b 1", 23),
        (4, "!a==b 1", 23),
        (5, "a==b=p 1", 26),
        (6, "a==b&c==j k==a", 46),
        (7, "a[3]=b[3] a==a", 26),
        (8, &sixteen, 23),
    ] {
        let variables = 12 + 8 + due;
        assert_eq!(
            sizes(&edge(formulas)),
            [variables, 12, 8, due],
            "case {case}"
        );
    }
}

/// Cases 9 to 22, all at the edge's line.
#[test]
fn refused_formulas() {
    let seventeen = format!("{}p a", "!".repeat(17));
    for (case, formulas, number) in [
        (9, "a[0]==b 1", 7),
        (10, "a==b==k 1", 7),
        (11, "a==1 1", 7),
        (12, "a[00] 1", 7),
        (13, "a[4] 1", 19),
        (14, "a[99999999999999999999] 1", 19),
        (15, "p[1] 1", 19),
        (16, "a 1", 19),
        (17, "a=b 1", 19),
        (18, "a==c 1", 19),
        (19, "a[4]&z 1", 9),
        (20, "a==c z", 9),
        (21, "a (", 7),
        (22, &seventeen, 8),
    ] {
        assert_eq!(refused(&edge(formulas)), (number, 8), "case {case}");
    }
}

/// Cases 23 to 33.
#[test]
fn records() {
    let most = "S x 16,S y 16,S z 16";
    for (case, graph, due) in [
        (23, "S x 17,V v", (2, 1)),
        (23, "S x 0,V v", (2, 1)),
        (23, "S x 01,V v", (2, 1)),
        (23, "S x ,V v", (2, 1)),
        (24, "V v 1", (2, 1)),
        (25, "K x 7,V v", (4, 1)),
        (26, "K x 17,V v", (2, 1)),
        (27, "K x 6,K y,V v", (4, 2)),
        (29, &format!("{most},S w 16,V v"), (4, 4)),
        (30, &format!("{most},S x 16,V v"), (4, 4)),
        (31, &format!("{most},S x 15,V v"), (5, 4)),
        (32, "K x 2,S y 17,V v", (2, 2)),
        (33, "K x 2,S y 16,V v", (3, 2)),
    ] {
        assert_eq!(refused(&text(graph)), due, "case {case}: {graph}");
    }
    let graph = text(&format!("{most},S w 15,V v"));
    assert_eq!(sizes(&graph), [64, 64, 0, 0], "case 28");
}

/// Case 34: three gates a bit, then the two joins.
#[test]
fn file_of_an_equality() {
    let due = "aag 28 7 2 1 19,2,4,6,8,10,12,14,16 50,18 57,56,20 16 3,22 18 3,24 21 3,\
        26 10 4,28 11 5,30 29 27,32 12 6,34 13 7,36 35 33,38 14 8,40 15 9,42 41 39,44 37 31,\
        46 44 43,48 46 25,50 48 1,52 48 0,54 46 22,56 55 53";
    assert_eq!(file(&text("S a 3,S b 3,V v,E v v t a==b 1")), lines(due));
}

/// Case 35.
#[test]
fn page_of_an_equality() {
    let graph = text("S a 2,K k 2,V v,E v v t a==k k[1]");
    let due = "R\t1\nR\t2\nsum\t4\t2\trejected\n";
    assert_eq!(page(&graph, b"100\n110\n101\n111\n"), due);
    let input = [b"wide\n", &graph[..], b"T\n100\n110\n101\n111\n"].concat();
    let rows = [
        "wide                             4",
        "       1       2",
        "         2 500000         0",
    ];
    let due: String = rows.iter().map(|row| format!("{row:<80}\n")).collect();
    assert_eq!(sheet(&input), due.as_bytes());
    // A line has a byte for each bit, not for each record.
    for cycle in ["10", "1000"] {
        let input = [b"wide\n", &graph[..], b"T\n", cycle.as_bytes(), b"\n"].concat();
        assert_eq!(sheet(&input), b"refused\t15\t1\n", "{cycle}");
    }
}

/// Case 36: the order of the latches.
#[test]
fn file_of_constant_bits() {
    let due = "aag 13 1 4 1 8,2,4 4 4,6 6 6,8 20,10 27,26,12 8 3,14 10 3,16 13 3,18 17 6,\
        20 18 4,22 18 5,24 14 6,26 25 23";
    assert_eq!(file(&text("K k 2,V v,E v v t k[1] k[0]")), lines(due));
}

/// Numbers which, cut to 8, 16, 32 or 64 bits, would be good.
#[test]
fn numbers_that_wrap() {
    let wrapping = |small: u128| {
        [8, 16, 32, 64]
            .into_iter()
            .flat_map(move |bits| [1, 2, 3].map(|times| (times << bits) + small))
            .map(|number: u128| number.to_string())
            .chain([format!("1{}", "0".repeat(200))])
    };
    for small in 0..=17 {
        for number in wrapping(small) {
            for kind in ["S", "K"] {
                let graph = text(&format!("{kind} x {number},V v"));
                assert_eq!(refused(&graph), (2, 1), "{number}");
            }
            assert_eq!(refused(&edge(&format!("a[{number}] 1"))), (19, 8));
            assert_eq!(refused(&edge(&format!("p[{number}] 1"))), (19, 8));
            assert_eq!(refused(&edge(&format!("p k[{number}]"))), (19, 8));
            assert_eq!(refused(&edge(&format!("z[{number}] 1"))), (9, 8));
            assert_eq!(refused(&edge(&format!("a[0{number}] 1"))), (7, 8));
        }
    }
    // The longest index that a formula holds, and one of a byte more.
    let longest = |bytes: usize| format!("a[{}] 1", "9".repeat(bytes - 3));
    assert_eq!(refused(&edge(&longest(255))), (19, 8));
    assert_eq!(refused(&edge(&longest(256))), (7, 8));
}

/// Every width, and every bit of it and the next ones.
#[test]
fn each_width() {
    for width in 1..=16 {
        let records = format!("S p,S a {width},S b {width},V v");
        let graph = |formulas: &str| text(&format!("{records},E v v t {formulas}"));
        let equal = sizes(&graph("a==b 1"));
        assert_eq!(equal[1..], [2 + 2 * width, 2, 8 + 4 * width - 1]);
        for n in 0..=40 {
            let bit = graph(&format!("a[{n}] b[{n}]"));
            match n < width {
                true => assert_eq!(gates(&bit), 8),
                false => assert_eq!(refused(&bit), (19, 5)),
            }
        }
        let bare = graph("a 1");
        match width {
            1 => assert_eq!(gates(&bare), 8),
            _ => assert_eq!(refused(&bare), (19, 5)),
        }
        for other in 1..=16 {
            let graph = text(&format!("S a {width},S b {other},V v,E v v t a==b 1"));
            match other == width {
                true => assert_eq!(gates(&graph), 8 + 4 * width - 1),
                false => assert_eq!(refused(&graph), (19, 4)),
            }
        }
    }
    for width in 1..=6 {
        let graph = text(&format!("S a {width},K k {width},V v,E v v t a==k k==k"));
        let due = 8 + 2 * (4 * width - 1);
        assert_eq!(sizes(&graph)[1..], [1 + width, width + 2, due]);
    }
}

/// Each pair of formulas: the lower number decides, 19 as the last.
#[test]
fn faults_in_both_formulas() {
    let seventeen = "!".repeat(17);
    let deep = [format!("{seventeen}p"), format!("{seventeen}a==c")];
    let formulas: Vec<(&str, u8)> = [
        (
            7,
            &["a[", "a[01]", "a==", "a==b==b", "p[0]==p", "a]", "[0]"][..],
        ),
        (8, &[&deep[0], &deep[1]]),
        (
            9,
            &["z", "z[99]", "z==a", "a==z", "a&z", "a[4]&z", "z|a==c"],
        ),
        (
            19,
            &["a", "!a", "a=b", "a&p", "a[4]", "p[1]", "a==c", "p==a"],
        ),
        (99, &["1", "p", "a[3]", "k[0]", "a==b", "j==c", "p==p"]),
    ]
    .into_iter()
    .flat_map(|(number, formulas)| formulas.iter().map(move |formula| (*formula, number)))
    .collect();
    for (antecedent, one) in &formulas {
        for (consequent, other) in &formulas {
            let graph = edge(&format!("{antecedent} {consequent}"));
            let shown = graph.escape_ascii();
            match *one.min(other) {
                99 => assert!(netlist(&graph).is_ok(), "{shown}"),
                number => assert_eq!(refused(&graph), (number, 8), "{shown}"),
            }
        }
    }
    // An unknown vertex comes before both, a faulty line before the next, and lines before M.
    assert_eq!(refused(&text("S a 2,V v,E v w t a 1")), (6, 3));
    assert_eq!(refused(&text("S a 2,V v,E v v t a 1,E v v t ( 1")), (19, 3));
    let over = format!("S a 16,V v{}", ",E v v t a==a a==a".repeat(64));
    assert_eq!(refused(&text(&over)), (11, 0));
    assert_eq!(refused(&text(&format!("{over},E v v t a 1"))), (19, 67));
}

/// `x&y&z` of equalities of one bit has as many gates, but from width 3 on in another order.
#[test]
fn joins_after_the_bits() {
    for width in 1..=16 {
        let records = format!("S a {width},S b {width},V v");
        let written: Vec<String> = (0..width).map(|n| format!("(a[{n}]=b[{n}])")).collect();
        let built = |formula: &str| netlist(&text(&format!("{records},E v v t {formula} 1")));
        let (equal, chain) = (built("a==b").unwrap(), built(&written.join("&")).unwrap());
        assert_eq!(equal.0, chain.0);
        assert_eq!(equal.1 == chain.1, width < 3, "{width}");
    }
}

/// M is told from the whole sum, not from its lowest 16 bits.
#[test]
fn sums_past_sixteen_bits() {
    // 51 comparisons of 63 gates and 50 `&`: the dearest formula.
    let dearest = vec!["a==a"; 51].join("&");
    assert_eq!(dearest.len(), 254);
    let edges = |count: usize| format!(",E v v t {dearest} {dearest}").repeat(count);
    let graph = text(&format!("S a 16,V v{}", edges(62)));
    assert!((32_000..=32_768).contains(&graph.len()));
    let parsed = Graph::parse(&graph).unwrap();
    assert_eq!(
        formula_of_gates(&parsed, Outputs::Accept),
        62 * (2 * 3_263 + 10) - 2
    );
    assert_eq!(refused(&graph), (11, 0));
    // So many more than 65,536 times some number that the rest alone would do.
    for times in 1..=6 {
        for rest in [1, 5, 100, 4_095] {
            let graph = with_variables(65_536 * times + rest);
            assert_eq!(refused(&graph), (11, 0), "{times}, {rest}");
        }
    }
    assert_eq!(refused(&with_variables(4_096)), (11, 0));
    assert_eq!(sizes(&with_variables(4_095))[0], 4_095);
}

/// A graph whose circuit would have this many variables, by comparisons of width 16, of which
/// each costs 63 gates and its `&`.
fn with_variables(due: usize) -> Vec<u8> {
    let edges = 63;
    // Inputs, latches, and an edge's ten gates less two of the vertex.
    let mut left = due - (17 + 2 * edges + 10 * edges - 2);
    let mut formula = || {
        let comparisons = (left / 64).min(50);
        left -= 64 * comparisons;
        let ones = match comparisons < 25 && left < 64 {
            true => left,
            false => 0,
        };
        left -= ones;
        format!("1{}{}", "&a==a".repeat(comparisons), "&1".repeat(ones))
    };
    let mut graph = String::from("S a 16,V v");
    for _ in 0..edges {
        graph += &format!(",E v v t {} {}", formula(), formula());
    }
    let graph = text(&graph);
    let parsed = Graph::parse(&graph).unwrap();
    let variables = 17 + 2 * edges + formula_of_gates(&parsed, Outputs::Accept);
    assert_eq!((left, variables), (0, due));
    graph
}

/// Each bit by itself: which byte of a cycle it is, and which setting.
#[test]
fn lowest_bit_first() {
    let records = "S p,S a 3,S q,S b 2,V v";
    for (formula, byte) in [
        ("p", 1),
        ("a[0]", 2),
        ("a[1]", 3),
        ("a[2]", 4),
        ("q[0]", 5),
        ("b[0]", 6),
        ("b[1]", 7),
    ] {
        let graph = text(&format!("{records},E v v t 1 {formula}"));
        for set in 1..=7 {
            let mut cycle = *b"10000000\n";
            cycle[set] = b'1';
            let due = match set == byte {
                true => "sum\t1\t0\taccepted\n",
                false => "R\t1\nsum\t1\t1\trejected\n",
            };
            assert_eq!(page(&graph, &cycle), due, "{formula}, {set}");
        }
    }
    // The constant is what `a` has; its bit is then that byte of the cycle.
    for n in 0..3 {
        let graph = text(&format!("S a 3,K j,K k 3,V v,E v v t a==k k[{n}]"));
        for value in 0..8u8 {
            let bit = |at: u8| char::from(b'0' + (value >> at & 1));
            let cycle = format!("1{}{}{}\n", bit(0), bit(1), bit(2));
            let due = match value >> n & 1 {
                1 => "sum\t1\t0\taccepted\n",
                _ => "R\t1\nsum\t1\t1\trejected\n",
            };
            assert_eq!(page(&graph, cycle.as_bytes()), due, "{n}, {value}");
        }
    }
}
