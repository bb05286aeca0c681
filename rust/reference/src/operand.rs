//! What stands as one operand in a formula: a name, one bit of a name, or two names compared.

use crate::refusal::Cause;

/// As it stands in the text, over names of some kind: their bytes, or what they stand for.
#[derive(Clone, Copy, Debug, PartialEq, Eq)]
pub enum Term<Name> {
    Name(Name),
    /// `name[n]`.
    BitOf(Name, usize),
    /// `left==right`.
    Equal(Name, Name),
}

impl<Name: Copy> Term<Name> {
    /// The term with its names looked up; 9 if one is unknown.
    pub fn look_up<To>(&self, known: &impl Fn(Name) -> Option<To>) -> Result<Term<To>, Cause> {
        let known = |name| known(name).ok_or(Cause::UnknownName);
        Ok(match self {
            Term::Name(name) => Term::Name(known(*name)?),
            Term::BitOf(name, n) => Term::BitOf(known(*name)?, *n),
            Term::Equal(left, right) => Term::Equal(known(*left)?, known(*right)?),
        })
    }
}

impl Term<Run> {
    /// "Unequal widths, a bit beyond the width, or a wide name where one bit is due is 19."
    pub fn operand(&self) -> Result<Operand, Cause> {
        match *self {
            Term::Name(name) if name.width == 1 => Ok(Operand::Bit(name.bit(0))),
            Term::BitOf(name, n) if n < name.width => Ok(Operand::Bit(name.bit(n))),
            Term::Equal(left, right) if left.width == right.width => {
                Ok(Operand::Equal(left, right))
            }
            _ => Err(Cause::WrongWidth),
        }
    }
}

/// One bit: its place among the bits of all signals, or of all constants.
#[derive(Clone, Copy, Debug, PartialEq, Eq)]
pub enum Atom {
    Signal(usize),
    Constant(usize),
}

/// "A name then stands for a run of inputs or latches, lowest bit first": where it begins,
/// and its width.
#[derive(Clone, Copy, Debug, PartialEq, Eq)]
pub struct Run {
    pub first: Atom,
    pub width: usize,
}

impl Run {
    pub fn bit(self, n: usize) -> Atom {
        match self.first {
            Atom::Signal(first) => Atom::Signal(first + n),
            Atom::Constant(first) => Atom::Constant(first + n),
        }
    }
}

/// What an operand stands for.
#[derive(Clone, Copy, Debug, PartialEq, Eq)]
pub enum Operand {
    Bit(Atom),
    /// Two runs of equal width.
    Equal(Run, Run),
}

impl Operand {
    pub fn judge(self, value: &impl Fn(Atom) -> bool) -> bool {
        match self {
            Operand::Bit(atom) => value(atom),
            Operand::Equal(left, right) => {
                (0..left.width).all(|n| value(left.bit(n)) == value(right.bit(n)))
            }
        }
    }

    /// "`==` costs 3 gates a bit, bit 0 first, made as for `=`, then width − 1 more that join
    /// them in bit order; it enters F thus and counts as that many operators in the bound."
    pub fn gates(self) -> usize {
        match self {
            Operand::Bit(_) => 0,
            Operand::Equal(left, _) => 3 * left.width + (left.width - 1),
        }
    }
}

#[cfg(test)]
mod tests {
    use super::*;

    const WIDE: Run = Run {
        first: Atom::Signal(3),
        width: 4,
    };
    const NARROW: Run = Run {
        first: Atom::Constant(2),
        width: 1,
    };

    #[test]
    fn widths_of_terms() {
        for n in 0..4 {
            let bit = Operand::Bit(Atom::Signal(3 + n));
            assert_eq!(Term::BitOf(WIDE, n).operand(), Ok(bit));
        }
        let bit = Operand::Bit(Atom::Constant(2));
        assert_eq!(Term::Name(NARROW).operand(), Ok(bit));
        assert_eq!(Term::BitOf(NARROW, 0).operand(), Ok(bit));
        for same in [WIDE, NARROW] {
            let equal = Operand::Equal(same, same);
            assert_eq!(Term::Equal(same, same).operand(), Ok(equal));
        }
        for wrong in [
            Term::Name(WIDE),
            Term::BitOf(WIDE, 4),
            Term::BitOf(WIDE, usize::MAX),
            Term::BitOf(NARROW, 1),
            Term::Equal(WIDE, NARROW),
            Term::Equal(NARROW, WIDE),
        ] {
            assert_eq!(wrong.operand(), Err(Cause::WrongWidth), "{wrong:?}");
        }
    }

    #[test]
    fn names_are_looked_up_before_widths() {
        let known = |name: &str| (name == "a").then_some(WIDE);
        assert_eq!(Term::BitOf("a", 9).look_up(&known).map(drop), Ok(()));
        for unknown in [
            Term::Name("z"),
            Term::BitOf("z", 9),
            Term::Equal("z", "a"),
            Term::Equal("a", "z"),
        ] {
            let refused = unknown.look_up(&known).map(drop);
            assert_eq!(refused, Err(Cause::UnknownName), "{unknown:?}");
        }
    }

    /// All values of two names of width 3.
    #[test]
    fn equal_where_all_bits_are_alike() {
        let run = |first| Run { first, width: 3 };
        let operand = Operand::Equal(run(Atom::Signal(1)), run(Atom::Constant(2)));
        for left in 0..8 {
            for right in 0..8 {
                let value = |atom| match atom {
                    Atom::Signal(place) => (left >> (place - 1)) & 1 == 1,
                    Atom::Constant(place) => (right >> (place - 2)) & 1 == 1,
                };
                assert_eq!(operand.judge(&value), left == right, "{left}, {right}");
            }
        }
    }
}
