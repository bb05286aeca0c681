//! Graph texts: random ones, ones at the limits, and damaged ones.
//!
//! For No. 5 of document 02: of the graphs half have no `M` line, a quarter `terminal`, a
//! quarter `strong`; and under each of the three, in every third graph no edge is marked, in
//! others a few, about half, or all. Damaged texts have `M` lines on any line: good ones on
//! another line than the first, also after one, and wrong ones as `WRONG_MODES` lists them.
//!
//! For No. 3: half of the graphs have names of several bits, many of them of one width, and
//! formulas with single bits and comparisons; the bits of all names are at their limits or
//! one over where the other counts are. In damaged texts a name has another width than its
//! formulas take it for, or a wrong one (`WRONG_WIDTHS`), and formulas have bits beyond the
//! width, wide names where one bit is due, and terms of wrong form (`WRONG_TERMS`).

use crate::damage::{change_fields, damage};
use crate::random::Random;
use reference::{formula_of_gates, Graph, Outputs};

const MAX_GRAPH_BYTES: usize = 32_768;
const MAX_WIDTH: usize = 16;
const MEANINGFUL: &[u8] = b"MSKVEt-\t\n\r012367abpq_!&^|=()[] \0\xff";
pub const MODES: [&str; 2] = ["M\tterminal\n", "M\tstrong\n"];
/// Another word, none, an empty one, a field too many, lower and upper case, bytes too few
/// or too many, another separator.
pub const WRONG_MODES: [&str; 20] = [
    "M\n",
    "M\t\n",
    "M\tweak\n",
    "M\tt\n",
    "M\t-\n",
    "M\tM\n",
    "M\tStrong\n",
    "M\tTERMINAL\n",
    "m\tstrong\n",
    "m\tterminal\n",
    "M\tstron\n",
    "M\tterminals\n",
    "M\tstrong\t\n",
    "M\tterminal\tx\n",
    "M\tterminal\tstrong\n",
    "M\t\tstrong\n",
    "\tM\tstrong\n",
    "M terminal\n",
    "M\tstrong \n",
    "M\tterminal\r\n",
];

/// Out of range, with a leading zero, a sign or another byte, of fields too many, or good if
/// cut to 8, 16, 32 or 64 bits.
pub const WRONG_WIDTHS: [&str; 29] = [
    "",
    "0",
    "00",
    "01",
    "016",
    "17",
    "18",
    "20",
    "99",
    "100",
    "256",
    "257",
    "272",
    "65537",
    "65552",
    "4294967298",
    "18446744073709551617",
    "18446744073709551632",
    "340282366920938463463374607431768211457",
    "+1",
    "-1",
    "1 ",
    " 1",
    "1\r",
    "x",
    "a",
    "1\t",
    "\t1",
    "1\t1",
];
/// Of wrong form; `a` and `b` stand for names.
pub const WRONG_TERMS: [&str; 38] = [
    "a[]",
    "a[",
    "a]",
    "a[0",
    "a0]",
    "[0]",
    "a[00]",
    "a[01]",
    "a[0a]",
    "a[1_]",
    "a[b]",
    "a[+0]",
    "a[-1]",
    "a[ 0]",
    "a[0 ]",
    "a [0]",
    "a[0][0]",
    "a[[0]]",
    "a[(0)]",
    "a(0)",
    "a[0)",
    "a(0]",
    "a[0]b",
    "1[0]",
    "(a)[0]",
    "a[0]==b",
    "a==b[0]",
    "(a)==b",
    "a==(b)",
    "a==!b",
    "a==1",
    "0==a",
    "a==b==a",
    "a===b",
    "a==",
    "==a",
    "a= =b",
    "(a==b)[0]",
];

/// A graph text of any kind.
pub fn any(random: &mut Random) -> Vec<u8> {
    if random.once_in(200) {
        return near_size_limit(random);
    }
    if random.once_in(100) {
        return near_variable_limit(random);
    }
    if random.once_in(300) {
        return past_sixteen_bits(random);
    }
    if random.once_in(100) {
        return without_vertices(random);
    }
    let mut text = undamaged(random);
    if random.coin() {
        for _ in 0..random.within(1..=3) {
            match random.below(9) {
                0 | 1 => damage(random, &mut text, MEANINGFUL),
                2 => change_mode(random, &mut text),
                3 => change_width(random, &mut text),
                _ => change_record(random, &mut text),
            }
        }
    }
    text
}

/// Mostly an accepted graph, of small size.
pub fn small(random: &mut Random) -> Vec<u8> {
    Plan::small(random).text(random)
}

/// Mostly an accepted graph, of any size.
pub fn undamaged(random: &mut Random) -> Vec<u8> {
    let plan = match random.below(8) {
        0..=3 => Plan::small(random),
        4 | 5 => Plan::medium(random),
        6 => Plan::large(random),
        _ => Plan::at_limits(random),
    };
    plan.text(random)
}

/// No `M` line, or a good one.
fn mode(random: &mut Random) -> &'static str {
    match random.coin() {
        true => "",
        false => random.pick(&MODES),
    }
}

/// The marks of which a graph's edges have one each.
fn marks(random: &mut Random) -> &'static [&'static str] {
    match random.below(6) {
        0 | 1 => &["-"],
        2 => &["-", "-", "-", "-", "-", "-", "-", "t"],
        3 => &["t"],
        _ => &["t", "-"],
    }
}

/// How many bits and records of each kind, and how heavy the formulas are.
struct Plan {
    /// The bits of all signals, and of all constants.
    signals: usize,
    constants: usize,
    /// The most bits of one name.
    widest: usize,
    vertices: usize,
    edges: usize,
    /// The most operators in one formula.
    operators: usize,
    long_names: bool,
}

impl Plan {
    fn small(random: &mut Random) -> Plan {
        Plan {
            signals: random.within(0..=6),
            constants: random.within(0..=4),
            widest: random.pick(&[1, 1, 2, 3]),
            vertices: random.within(1..=3),
            edges: random.within(0..=6),
            operators: random.within(0..=3),
            long_names: false,
        }
    }

    fn medium(random: &mut Random) -> Plan {
        Plan {
            signals: random.within(0..=24),
            constants: random.within(0..=6),
            widest: random.pick(&[1, 1, 4, 9]),
            vertices: random.within(1..=12),
            edges: random.within(0..=30),
            operators: random.within(0..=8),
            long_names: random.coin(),
        }
    }

    fn large(random: &mut Random) -> Plan {
        Plan {
            signals: random.within(0..=63),
            constants: random.within(0..=6),
            widest: random.pick(&[1, 1, 8, MAX_WIDTH]),
            vertices: random.within(1..=64),
            edges: random.within(0..=128),
            operators: random.pick(&[0, 1, 4, 12, 40, 90]),
            long_names: random.once_in(4),
        }
    }

    /// Each count at its limit or, now and then, one over.
    fn at_limits(random: &mut Random) -> Plan {
        let mut count = |low: usize, limit: usize| match random.below(8) {
            0..=3 => limit,
            4 => limit + usize::from(random.once_in(2)),
            _ => random.within(low..=limit),
        };
        let (signals, constants) = (count(0, 63), count(0, 6));
        let (vertices, edges) = (count(1, 64), count(0, 128));
        Plan {
            signals,
            constants,
            widest: random.pick(&[1, 1, 6, MAX_WIDTH]),
            vertices,
            edges,
            operators: 1,
            long_names: false,
        }
    }

    fn text(&self, random: &mut Random) -> Vec<u8> {
        let mut widths = widths(random, self.signals, self.widest);
        let signals = widths.len();
        widths.extend(self::widths(random, self.constants, self.widest));
        let mut atoms = names(random, widths.len(), self.long_names);
        let mut vertices = names(random, self.vertices, self.long_names);
        if random.once_in(40) {
            repeat_one(random, &mut atoms);
            repeat_one(random, &mut vertices);
        }
        let atoms: Vec<Named> = (atoms.into_iter().zip(widths))
            .map(|(name, width)| Named { name, width })
            .collect();
        let mut text = String::from(mode(random));
        for (index, atom) in atoms.iter().enumerate() {
            let kind = if index < signals { 'S' } else { 'K' };
            text += &format!("{kind}\t{}{}\n", atom.name, width_field(random, atom.width));
        }
        for name in &vertices {
            text += &format!("V\t{name}\n");
        }
        let marks = marks(random);
        for _ in 0..self.edges {
            let mark = random.pick(marks);
            text += &self.edge(random, &atoms, &vertices, mark);
        }
        text.into_bytes()
    }

    fn edge(
        &self,
        random: &mut Random,
        atoms: &[Named],
        vertices: &[String],
        mark: &str,
    ) -> String {
        let from = &vertices[random.below(vertices.len())];
        let to = &vertices[random.below(vertices.len())];
        let mut field = |plain: &str| match random.below(3) {
            // Antecedents that hold let paths grow long.
            0 => plain.to_string(),
            _ => formula(random, atoms, self.operators),
        };
        let (antecedent, consequent) = (field("1"), field("0"));
        format!("E\t{from}\t{to}\t{mark}\t{antecedent}\t{consequent}\n")
    }
}

/// A signal or a constant.
struct Named {
    name: String,
    width: usize,
}

/// Widths of so many bits together, at most `widest` each; half of them are one width, so
/// that there are names to compare.
fn widths(random: &mut Random, bits: usize, widest: usize) -> Vec<usize> {
    let usual = random.within(1..=widest);
    let (mut widths, mut left) = (Vec::new(), bits);
    while left > 0 {
        let width = match random.coin() {
            true => usual,
            false => random.within(1..=widest),
        };
        widths.push(width.min(left));
        left -= width.min(left);
    }
    widths
}

/// "Absent means 1."
fn width_field(random: &mut Random, width: usize) -> String {
    match width == 1 && !random.once_in(8) {
        true => String::new(),
        false => format!("\t{width}"),
    }
}

/// Distinct names: no digit stands before the index, or each is one letter.
fn names(random: &mut Random, count: usize, long: bool) -> Vec<String> {
    const LETTERS: &[u8; 52] = b"abcdefghijklmnopqrstuvwxyzABCDEFGHIJKLMNOPQRSTUVWXYZ";
    if count <= LETTERS.len() && !long && random.coin() {
        return LETTERS[..count]
            .iter()
            .map(|letter| char::from(*letter).to_string())
            .collect();
    }
    (0..count)
        .map(|index| {
            let index = index.to_string();
            let most = 14 - index.len();
            let filling = if long { most } else { random.within(0..=most) };
            let mut name = String::from(char::from(random.pick(LETTERS)));
            for _ in 0..filling {
                name.push(char::from(random.pick(b"abcxyzABCXYZ_")));
            }
            name + &index
        })
        .collect()
}

/// Gives one name, if there is one, to another place, or to its own.
fn repeat_one(random: &mut Random, names: &mut [String]) {
    if !names.is_empty() {
        let (from, to) = (random.below(names.len()), random.below(names.len()));
        names[to] = names[from].clone();
    }
}

/// A formula with at most so many operators, nearly always of the right form.
fn formula(random: &mut Random, atoms: &[Named], operators: usize) -> String {
    let operators = random.within(0..=operators);
    let depth = if random.once_in(2_000) { 17 } else { 16 };
    let text = operand(random, atoms, operators, depth);
    match text.len() > 255 && !random.once_in(100) {
        true => operand(random, atoms, operators.min(3), 3),
        false => text,
    }
}

/// With `room` levels of `(` and `!` left.
fn operand(random: &mut Random, atoms: &[Named], operators: usize, room: usize) -> String {
    if room > 0 && random.once_in(5) {
        let inner = operand(random, atoms, operators, room - 1);
        // A `!` stands over the first operand only, but no level is lost by that.
        return match random.coin() {
            true => format!("!{inner}"),
            false => format!("({inner})"),
        };
    }
    if operators == 0 {
        return leaf(random, atoms);
    }
    let on_the_left = random.below(operators);
    let left = operand(random, atoms, on_the_left, room);
    let right = operand(random, atoms, operators - 1 - on_the_left, room);
    let operator = random.pick(&['&', '|', '^', '=']);
    format!("{left}{operator}{right}")
}

/// A name, one bit of it, or it and a name of its width.
fn leaf(random: &mut Random, atoms: &[Named]) -> String {
    if atoms.is_empty() || random.once_in(12) {
        return random.pick(&["0", "1"]).to_string();
    }
    let Named { name, width } = &atoms[random.below(atoms.len())];
    let comparison_rarity = if *width > 1 { 3 } else { 16 };
    if random.once_in(comparison_rarity) {
        let alike: Vec<&Named> = atoms.iter().filter(|atom| atom.width == *width).collect();
        return format!("{name}=={}", random.pick(&alike).name);
    }
    match *width == 1 && !random.once_in(8) {
        true => name.clone(),
        false => format!("{name}[{}]", random.below(*width)),
    }
}

/// Gives one signal or constant another width, right or wrong, or none; now and then a vertex.
fn change_width(random: &mut Random, text: &mut Vec<u8>) {
    let kinds = if random.once_in(8) { "V" } else { "SK" };
    let mut lines: Vec<Vec<u8>> = text
        .split_inclusive(|byte| *byte == b'\n')
        .map(<[u8]>::to_vec)
        .collect();
    let named: Vec<usize> = (0..lines.len())
        .filter(|line| lines[*line].len() > 2 && kinds.as_bytes().contains(&lines[*line][0]))
        .collect();
    if named.is_empty() {
        return;
    }
    let line = &mut lines[random.pick(&named)];
    let fields: Vec<&[u8]> = line[..line.len() - 1]
        .split(|byte| *byte == b'\t')
        .collect();
    let bare = fields[..fields.len().min(2)].join(&b'\t');
    let width = match random.below(4) {
        0 => String::new(),
        1 => format!("\t{}", random.pick(&WRONG_WIDTHS)),
        _ => format!("\t{}", random.within(1..=MAX_WIDTH + 1)),
    };
    *line = [&bare, width.as_bytes(), b"\n"].concat();
    *text = lines.concat();
}

/// Puts an `M` line in: half of them good, which then is 3 but on line 1; on line 1, where
/// another may follow, on line 2, at the end, where its LF may be missing, or on any line. Or
/// leaves nothing but an `M` line.
fn change_mode(random: &mut Random, text: &mut Vec<u8>) {
    let line = match random.coin() {
        true => random.pick(&MODES),
        false => random.pick(&WRONG_MODES),
    };
    let mut lines: Vec<&[u8]> = text.split_inclusive(|byte| *byte == b'\n').collect();
    let place = match random.below(6) {
        0 | 1 => 0,
        2 => lines.len().min(1),
        3 => lines.len(),
        4 => {
            lines.clear();
            0
        }
        _ => random.within(0..=lines.len()),
    };
    lines.insert(place, line.as_bytes());
    let is_last = place + 1 == lines.len();
    *text = lines.concat();
    if is_last && random.coin() {
        text.pop();
    }
}

/// Changes one record's fields in ways that its shape or meaning may not bear;
/// with two faults in one line the lower number must decide.
fn change_record(random: &mut Random, text: &mut Vec<u8>) {
    let names = names_in(text);
    change_fields(random, text, b'\t', |random, fields| {
        for _ in 0..random.within(1..=2) {
            change_field(random, fields, &names);
        }
    });
}

/// The names of a text's signals and constants.
fn names_in(text: &[u8]) -> Vec<String> {
    let text = String::from_utf8_lossy(text);
    let fields = text.lines().map(|line| line.split('\t'));
    fields
        .filter_map(|mut fields| match fields.next() {
            Some("S" | "K") => fields.next().map(String::from),
            _ => None,
        })
        .collect()
}

fn change_field(random: &mut Random, fields: &mut Vec<Vec<u8>>, names: &[String]) {
    let field = match fields.len() {
        0 => return,
        // Mostly the formulas of an edge.
        6 if !random.once_in(3) => random.within(4..=5),
        count => random.below(count),
    };
    match random.below(10) {
        0 => drop(fields.remove(field)),
        1 => fields.insert(field, fields[field].clone()),
        2 => fields[0] = vec![random.pick(b"MSKVETmsk")],
        3..=5 if field >= 4 => fields[field] = with_term(random, &fields[field], names),
        _ => fields[field] = wrong_field(random, &fields[field]),
    }
}

/// A formula that has a term of any kind before it, after it or instead of it.
fn with_term(random: &mut Random, field: &[u8], names: &[String]) -> Vec<u8> {
    let (plain, term) = (String::from_utf8_lossy(field), any_term(random, names));
    let operator = random.pick(&["&", "|", "^", "="]);
    let text = match random.below(3) {
        0 => format!("{plain}{operator}{term}"),
        1 => format!("{term}{operator}{plain}"),
        _ => term,
    };
    text.into_bytes()
}

/// A name, a bit of a name or two names, of which any may have another width, or be unknown;
/// or a term of wrong form.
fn any_term(random: &mut Random, names: &[String]) -> String {
    let mut name = || match names.is_empty() || random.once_in(10) {
        true => String::from("unknown"),
        false => names[random.below(names.len())].clone(),
    };
    let (one, other) = (name(), name());
    match random.below(6) {
        0 => one,
        1 | 2 => format!("{one}[{}]", any_index(random)),
        3 => format!("{one}=={other}"),
        4 => format!("{one}={other}"),
        _ => {
            let part = |byte: char| match byte {
                'a' => one.clone(),
                'b' => other.clone(),
                _ => byte.to_string(),
            };
            random.pick(&WRONG_TERMS).chars().map(part).collect()
        }
    }
}

/// About the widths, or past what 8, 16, 32 or 64 bits hold.
fn any_index(random: &mut Random) -> String {
    let small = random.below(MAX_WIDTH + 2) as u128;
    match random.below(8) {
        0 | 1 => (small + (1 << random.pick(&[8, 16, 32, 64, 72]))).to_string(),
        2 => "9".repeat(random.within(1..=240)),
        _ => small.to_string(),
    }
}

/// A field that is wrong in most places, or only unknown there.
fn wrong_field(random: &mut Random, field: &[u8]) -> Vec<u8> {
    let plain = String::from_utf8_lossy(field);
    let deep = random.within(15..=18);
    let text = match random.below(16) {
        0 => String::new(),
        1 => "10".into(),
        2 => "unknown".into(),
        3 => "a".into(),
        4 => "fifteen_bytes_x".into(),
        5 => "sixteen_bytes_xx".into(),
        6 => "!".repeat(deep) + &plain,
        7 => "(".repeat(deep) + &plain + &")".repeat(deep),
        8 => "!(".repeat(deep / 2) + "unknown" + &")".repeat(deep / 2),
        9 => format!("{plain}&"),
        10 => format!("({plain}"),
        11 => format!("{plain})"),
        12 => format!("{plain}={plain}"),
        13 => exact_formula(random.within(254..=257)),
        14 => "(".repeat(127) + "1" + &")".repeat(127),
        _ => format!("{plain} "),
    };
    text.into_bytes()
}

/// A formula of this many bytes.
fn exact_formula(length: usize) -> String {
    let operators = (length - 1) / 2;
    let ones = String::from("1") + &"&1".repeat(operators);
    match length % 2 {
        0 => format!("!{ones}"),
        _ => ones,
    }
}

/// Signals and constants only, or nothing at all.
fn without_vertices(random: &mut Random) -> Vec<u8> {
    let plan = Plan {
        vertices: 0,
        edges: 0,
        ..Plan::small(random)
    };
    plan.text(random)
}

/// An accepted graph of 32,767 or 32,768 bytes, or one of a byte more.
fn near_size_limit(random: &mut Random) -> Vec<u8> {
    let size = random.within(MAX_GRAPH_BYTES - 1..=MAX_GRAPH_BYTES + 1);
    let name = "fifteen_bytes_x";
    let mut text = format!("{}S\t{name}\nV\t{name}\n", mode(random));
    let mark = random.pick(&["t", "-"]);
    let edge = |antecedent: &str, consequent: &str| {
        format!("E\t{name}\t{name}\t{mark}\t{antecedent}\t{consequent}\n")
    };
    let bare = edge("", "").len();
    while size - text.len() > bare + 500 {
        let mut long = || {
            let repeated = vec![name; random.within(9..=12)];
            repeated.join(random.pick(&["&", "|"]))
        };
        text += &edge(&long(), &long());
    }
    let left = size - text.len() - bare;
    let antecedent = exact_formula(left.min(256) - 1);
    let consequent = exact_formula(left - antecedent.len());
    text += &edge(&antecedent, &consequent);
    text.into_bytes()
}

/// A graph whose M is about 4,095, with or without checked, by operators added to a random
/// graph; so M also tells how many edges were taken for terminal.
fn near_variable_limit(random: &mut Random) -> Vec<u8> {
    let plan = Plan {
        signals: random.within(0..=63),
        constants: random.within(0..=6),
        widest: random.pick(&[1, 1, 2, 4]),
        vertices: random.within(1..=64),
        edges: random.within(0..=100),
        operators: 2,
        long_names: false,
    };
    let text = plan.text(random);
    let fillers = 14;
    let outputs = random.pick(&[Outputs::Accept, Outputs::AcceptAndChecked]);
    let Some(variables) = variables(&with_fillers(&text, fillers, 0), outputs) else {
        return text;
    };
    let due = random.within(4_092..=4_098);
    with_fillers(&text, fillers, due.saturating_sub(variables))
}

/// The text with self-loops on its first vertex that hold so many operators.
pub fn with_fillers(text: &[u8], fillers: usize, operators: usize) -> Vec<u8> {
    let mut text = String::from_utf8_lossy(text).into_owned();
    let start = text
        .lines()
        .find_map(|line| line.strip_prefix("V\t"))
        .unwrap_or("none")
        .to_string();
    let mut left = operators;
    let mut filled = || {
        let here = left.min(127);
        left -= here;
        exact_formula(1 + 2 * here)
    };
    for _ in 0..fillers {
        text += &format!("E\t{start}\t{start}\t-\t{}\t{}\n", filled(), filled());
    }
    text.into_bytes()
}

/// A graph whose M is over 65,536 or a multiple of it by so little that the rest alone would
/// do: comparisons of width 16, of which each costs 63 gates and its `&`.
fn past_sixteen_bits(random: &mut Random) -> Vec<u8> {
    let due = 65_536 * random.within(1..=6) + random.within(1..=4_095);
    let edges = 63;
    let mut left = due - (17 + 2 * edges + 10 * edges - 2);
    let mut formula = || {
        let comparisons = (left / 64).min(50);
        left -= 64 * comparisons;
        let ones = match comparisons < 25 && left < 64 {
            true => left,
            false => 0,
        };
        left -= ones;
        format!("1{}{}", "&a==a".repeat(comparisons), "&1".repeat(ones))
    };
    let mut text = String::from("S\ta\t16\nV\tv\n");
    for _ in 0..edges {
        text += &format!("E\tv\tv\tt\t{}\t{}\n", formula(), formula());
    }
    text.into_bytes()
}

/// M of a graph that is accepted but for its M and the buffer.
pub fn variables(text: &[u8], outputs: Outputs) -> Option<usize> {
    let graph = Graph::parse(text).ok()?;
    let latches = graph.constant_bits + 2 * graph.edges.len();
    Some(1 + graph.signal_bits + latches + formula_of_gates(&graph, outputs))
}
