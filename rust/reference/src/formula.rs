//! Formulas: `! & ^ | =`, brackets, `0`, `1`, names, `name[n]` and `left==right`.

use crate::operand::{Operand, Term};

pub const MAX_FORMULA_BYTES: usize = 255;
pub const MAX_NAME_BYTES: usize = 15;
pub const MAX_DEPTH: usize = 16;

#[derive(Clone, Copy, Debug, PartialEq, Eq)]
pub enum Operator {
    And,
    Xor,
    Or,
    Alike,
}

/// "`!` binds tightest, then `&`, `^`, `|`, and `=` loosest": here loosest first.
const BY_STRENGTH: [Operator; 4] = [Operator::Alike, Operator::Or, Operator::Xor, Operator::And];

impl Operator {
    fn byte(self) -> u8 {
        match self {
            Operator::And => b'&',
            Operator::Xor => b'^',
            Operator::Or => b'|',
            Operator::Alike => b'=',
        }
    }

    /// What the operator adds to F: "1 for each `&` or `|`, 3 for each `^` or `=`".
    pub fn gates(self) -> usize {
        match self {
            Operator::And | Operator::Or => 1,
            Operator::Xor | Operator::Alike => 3,
        }
    }

    /// "`&` both, `|` at least one, `^` just one, `=` both alike."
    pub fn judge(self, left: bool, right: bool) -> bool {
        match self {
            Operator::And => left && right,
            Operator::Xor => left != right,
            Operator::Or => left || right,
            Operator::Alike => left == right,
        }
    }
}

/// A formula over operands of some kind: as read, or what they stand for.
#[derive(Clone, Debug, PartialEq, Eq)]
pub enum Formula<Leaf> {
    Bit(bool),
    Operand(Leaf),
    Not(Box<Formula<Leaf>>),
    Two(Operator, Box<Formula<Leaf>>, Box<Formula<Leaf>>),
}

impl<Leaf: Copy> Formula<Leaf> {
    /// The formula with each operand changed, or the first fault that an operand has.
    pub fn try_map<To, Fault>(
        &self,
        change: &impl Fn(&Leaf) -> Result<To, Fault>,
    ) -> Result<Formula<To>, Fault> {
        Ok(match self {
            Formula::Bit(bit) => Formula::Bit(*bit),
            Formula::Operand(operand) => Formula::Operand(change(operand)?),
            Formula::Not(inner) => Formula::Not(Box::new(inner.try_map(change)?)),
            Formula::Two(operator, left, right) => Formula::Two(
                *operator,
                Box::new(left.try_map(change)?),
                Box::new(right.try_map(change)?),
            ),
        })
    }

    pub fn judge(&self, value: &impl Fn(Leaf) -> bool) -> bool {
        match self {
            Formula::Bit(bit) => *bit,
            Formula::Operand(operand) => value(*operand),
            Formula::Not(inner) => !inner.judge(value),
            Formula::Two(operator, left, right) => {
                operator.judge(left.judge(value), right.judge(value))
            }
        }
    }

    /// The operands, left to right.
    pub fn operands(&self) -> Vec<Leaf> {
        match self {
            Formula::Bit(_) => Vec::new(),
            Formula::Operand(operand) => vec![*operand],
            Formula::Not(inner) => inner.operands(),
            Formula::Two(_, left, right) => [left.operands(), right.operands()].concat(),
        }
    }
}

impl Formula<Operand> {
    /// This formula's share of F.
    pub fn gates(&self) -> usize {
        match self {
            Formula::Bit(_) => 0,
            Formula::Operand(operand) => operand.gates(),
            Formula::Not(inner) => inner.gates(),
            Formula::Two(operator, left, right) => operator.gates() + left.gates() + right.gates(),
        }
    }

    /// How many operators it has by the bound, where `==` counts as its gates; without `!`.
    pub fn operators(&self) -> usize {
        match self {
            Formula::Bit(_) => 0,
            Formula::Operand(operand) => operand.gates(),
            Formula::Not(inner) => inner.operators(),
            Formula::Two(_, left, right) => 1 + left.operators() + right.operators(),
        }
    }
}

/// A formula as it stands in the text, and its depth.
#[derive(Clone, Debug, PartialEq, Eq)]
pub struct Parsed<'a> {
    pub formula: Formula<Term<&'a [u8]>>,
    pub depth: usize,
}

/// `None` if the bytes are "not of the grammar or length".
pub fn parse(bytes: &[u8]) -> Option<Parsed<'_>> {
    if bytes.len() > MAX_FORMULA_BYTES {
        return None;
    }
    let mut reader = Reader {
        rest: bytes,
        open: 0,
        depth: 0,
    };
    let formula = reader.whole()?;
    reader.rest.is_empty().then_some(Parsed {
        formula,
        depth: reader.depth,
    })
}

struct Reader<'a> {
    rest: &'a [u8],
    /// How many `(` and `!` are open here.
    open: usize,
    /// "The most `(` and `!` open over any one place."
    depth: usize,
}

impl<'a> Reader<'a> {
    fn whole(&mut self) -> Option<Formula<Term<&'a [u8]>>> {
        self.chain(&BY_STRENGTH)
    }

    /// Operands parted by the loosest operator given; "equal operators group to the left".
    fn chain(&mut self, operators: &[Operator]) -> Option<Formula<Term<&'a [u8]>>> {
        let Some((operator, tighter)) = operators.split_first() else {
            return self.operand();
        };
        let mut left = self.chain(tighter)?;
        while self.take(&[operator.byte()]) {
            let right = self.chain(tighter)?;
            left = Formula::Two(*operator, Box::new(left), Box::new(right));
        }
        Some(left)
    }

    fn operand(&mut self) -> Option<Formula<Term<&'a [u8]>>> {
        if self.take(b"!") {
            return self.under(|reader| Some(Formula::Not(Box::new(reader.operand()?))));
        }
        if self.take(b"(") {
            // "Within brackets stands a whole formula again."
            let inner = self.under(Self::whole)?;
            return self.take(b")").then_some(inner);
        }
        match self.word()? {
            b"0" => Some(Formula::Bit(false)),
            b"1" => Some(Formula::Bit(true)),
            name if is_name(name) => Some(Formula::Operand(self.term(name)?)),
            _ => None,
        }
    }

    /// "`name[n]` is one bit and `left==right` compares two names of equal width and stands as
    /// one operand"; "n has no leading zero". Widths are no matter of form.
    fn term(&mut self, name: &'a [u8]) -> Option<Term<&'a [u8]>> {
        if self.take(b"[") {
            let n = number(self.word()?)?;
            return self.take(b"]").then_some(Term::BitOf(name, n));
        }
        if self.take(b"==") {
            let right = self.word()?;
            return is_name(right).then_some(Term::Equal(name, right));
        }
        Some(Term::Name(name))
    }

    /// Reads what a `(` or `!` just taken stands over.
    fn under<T>(&mut self, read: impl FnOnce(&mut Self) -> Option<T>) -> Option<T> {
        self.open += 1;
        self.depth = self.depth.max(self.open);
        let inner = read(self);
        self.open -= 1;
        inner
    }

    fn take(&mut self, bytes: &[u8]) -> bool {
        match self.rest.strip_prefix(bytes) {
            Some(rest) => {
                self.rest = rest;
                true
            }
            None => false,
        }
    }

    /// The longest run of name bytes here. Two operands never touch, so a digit
    /// beside another name byte (`10`, `1p`) is one word, and of wrong form.
    fn word(&mut self) -> Option<&'a [u8]> {
        let end = self.rest.iter().position(|byte| !is_name_byte(*byte));
        let (word, rest) = self.rest.split_at(end.unwrap_or(self.rest.len()));
        self.rest = rest;
        (!word.is_empty()).then_some(word)
    }
}

/// "Letters, digits or `_`."
pub fn is_name_byte(byte: u8) -> bool {
    byte.is_ascii_alphanumeric() || byte == b'_'
}

/// The number that these digits write, which have no leading zero; `None` for other bytes. A
/// number that is too large for a `usize` is the largest there is, past every width too.
pub fn number(digits: &[u8]) -> Option<usize> {
    let is_number = digits.iter().all(u8::is_ascii_digit);
    match digits {
        [] | [b'0', _, ..] => None,
        _ => is_number.then(|| {
            digits.iter().fold(0usize, |so_far, digit| {
                so_far
                    .saturating_mul(10)
                    .saturating_add(usize::from(digit - b'0'))
            })
        }),
    }
}

/// "A name is a letter, then letters, digits or `_`, 1 to 15 bytes."
pub fn is_name(bytes: &[u8]) -> bool {
    bytes.first().is_some_and(u8::is_ascii_alphabetic)
        && bytes.len() <= MAX_NAME_BYTES
        && bytes.iter().all(|byte| is_name_byte(*byte))
}

#[cfg(test)]
mod tests {
    use super::*;

    /// The formula's value where each name is a letter of `true_names` or false.
    fn value(formula: &str, true_names: &str) -> bool {
        let parsed = parse(formula.as_bytes()).expect(formula);
        let is_true = |name: &[u8]| true_names.as_bytes().contains(&name[0]);
        parsed.formula.judge(&|term| match term {
            Term::Name(name) | Term::BitOf(name, _) => is_true(name),
            Term::Equal(left, right) => is_true(left) == is_true(right),
        })
    }

    fn depth(formula: &str) -> usize {
        parse(formula.as_bytes()).expect(formula).depth
    }

    #[test]
    fn documents_examples() {
        assert!(value("p|q&r", "p"));
        assert!(!value("p=q=r", ""));
        assert_eq!(parse(b"10"), None);
    }

    #[test]
    fn binding_strength() {
        // Each row: a formula, and the same with its grouping written out.
        let rows = [
            ("!p&q", "(!p)&q"),
            ("!p=q", "(!p)=q"),
            ("p^q&r", "p^(q&r)"),
            ("p&q^r", "(p&q)^r"),
            ("p|q^r", "p|(q^r)"),
            ("p^q|r", "(p^q)|r"),
            ("p=q|r", "p=(q|r)"),
            ("p|q=r", "(p|q)=r"),
            ("p=q=r", "(p=q)=r"),
            ("p^q^r", "(p^q)^r"),
            ("p|q=r^p&!q", "(p|q)=(r^(p&(!q)))"),
            ("!p==q", "!(p==q)"),
            ("!p[0]", "!(p[0])"),
            ("p=q==r", "p=(q==r)"),
            ("p==q=r", "(p==q)=r"),
            ("p==q=r==s", "(p==q)=(r==s)"),
            ("p==q&r==s", "(p==q)&(r==s)"),
            ("p&q==r|s", "(p&(q==r))|s"),
            ("p[1]=q[2]=r", "((p[1])=(q[2]))=r"),
        ];
        for (formula, grouped) in rows {
            let plain = parse(formula.as_bytes()).unwrap().formula;
            let grouped = parse(grouped.as_bytes()).unwrap().formula;
            assert_eq!(plain, grouped, "{formula}");
        }
    }

    #[test]
    fn wrong_forms() {
        let wrong = [
            "",
            "10",
            "1p",
            "01",
            "2",
            "_p",
            "p q",
            "p&",
            "&p",
            "p!",
            "!",
            "()",
            "(p",
            "p)",
            ")p(",
            "p&&q",
            "p(q)",
            "(p)q",
            "(p)(q)",
            "p\r",
            "p\t",
            "p-q",
            "a2345678901234_6",
            "1(p)",
            // One bit of a name.
            "p[",
            "p]",
            "p[]",
            "p[0",
            "p0]",
            "[0]",
            "[0]p",
            "p[00]",
            "p[01]",
            "p[0a]",
            "p[1_]",
            "p[q]",
            "p[+0]",
            "p[-1]",
            "p[ 0]",
            "p[0 ]",
            "p [0]",
            "p[0][0]",
            "p[[0]]",
            "p[(0)]",
            "p(0)",
            "p[0)",
            "p(0]",
            "p[0]q",
            "q(p[0])",
            "0[0]",
            "1[0]",
            "(p)[0]",
            "!p[0",
            "p![0]",
            "p[0]!",
            "a2345678901234_6[0]",
            // Two names compared.
            "==",
            "p==",
            "==p",
            "p===q",
            "p====q",
            "p= =q",
            "p==q==r",
            "p==q[0]",
            "p[0]==q",
            "p[0]==q[0]",
            "(p)==q",
            "p==(q)",
            "p==!q",
            "p==0",
            "1==p",
            "0==0",
            "(p==q)[0]",
            "(p=)=q",
            "p=(=q)",
            "p==q r",
            "p==&q",
            "p&==q",
            "p=!=q",
            "a2345678901234_6==p",
            "p==a2345678901234_6",
        ];
        for formula in wrong {
            assert_eq!(parse(formula.as_bytes()), None, "{formula:?}");
        }
        for formula in [
            "a2345678901234_",
            "a2345678901234_[12345678901234567890]",
            "a2345678901234_==b2345678901234_",
        ] {
            assert!(parse(formula.as_bytes()).is_some(), "{formula:?}");
        }
    }

    #[test]
    fn terms() {
        let term = |formula: &'static str| match parse(formula.as_bytes()).unwrap().formula {
            Formula::Operand(term) => term,
            other => panic!("{other:?}"),
        };
        assert_eq!(term("p"), Term::Name(&b"p"[..]));
        assert_eq!(term("p[0]"), Term::BitOf(&b"p"[..], 0));
        assert_eq!(term("p_1[10]"), Term::BitOf(&b"p_1"[..], 10));
        assert_eq!(term("p[256]"), Term::BitOf(&b"p"[..], 256));
        let past_64_bits = "p[18446744073709551616]";
        assert_eq!(term(past_64_bits), Term::BitOf(&b"p"[..], usize::MAX));
        assert_eq!(term("p==q2"), Term::Equal(&b"p"[..], &b"q2"[..]));
        assert_eq!(term("p==p"), Term::Equal(&b"p"[..], &b"p"[..]));
    }

    #[test]
    fn numbers() {
        for (digits, due) in [
            ("0", Some(0)),
            ("7", Some(7)),
            ("16", Some(16)),
            ("4294967297", Some(4_294_967_297)),
            ("18446744073709551615", Some(usize::MAX)),
            ("18446744073709551617", Some(usize::MAX)),
            ("99999999999999999999999", Some(usize::MAX)),
            ("", None),
            ("00", None),
            ("01", None),
            ("1a", None),
            ("a", None),
            ("-1", None),
            ("+1", None),
            ("1 ", None),
        ] {
            assert_eq!(number(digits.as_bytes()), due, "{digits:?}");
        }
    }

    #[test]
    fn length_limit() {
        let ones = |count: usize| vec!["1"; count].join("&");
        assert_eq!(ones(128).len(), MAX_FORMULA_BYTES);
        assert!(parse(ones(128).as_bytes()).is_some());
        assert_eq!(parse(format!("!{}", ones(128)).as_bytes()), None);
        for longest in [
            format!("a[{}]", "1".repeat(252)),
            format!("p{}", "|a==b1".repeat(42)) + "&1",
        ] {
            assert_eq!(longest.len(), MAX_FORMULA_BYTES, "{longest}");
            assert!(parse(longest.as_bytes()).is_some(), "{longest}");
            assert_eq!(parse(format!("!{longest}").as_bytes()), None);
        }
    }

    #[test]
    fn depths() {
        assert_eq!(depth("p&q"), 0);
        assert_eq!(depth("!p&!q"), 1);
        assert_eq!(depth("!(p&!q)|(((r)))"), 3);
        assert_eq!(depth("p[3]&q==r"), 0);
        assert_eq!(depth("!p==q"), 1);
        assert_eq!(depth("!(!p[0]|q==r)"), 3);
        assert_eq!(depth(&format!("{}p", "!".repeat(17))), 17);
        assert_eq!(
            depth(&format!("{}p{}", "(".repeat(127), ")".repeat(127))),
            127
        );
    }
}
