//! The ordered sum of 01: terms, patterns, their order, and the numbers degree, weight and spread.

use std::collections::BTreeMap;

/// The variables are the first so many letters. Sizes that depend on it are derived from it.
pub const VARIABLES: usize = 8;
pub const LARGEST_DEGREE: u32 = 60;
pub const LARGEST_WEIGHT: u128 = 1 << 62;
pub const LARGEST_SPREAD: usize = 128;
/// No sum has more terms than a spread may have patterns.
pub const MOST_TERMS: usize = LARGEST_SPREAD;

/// The letters of the variables.
pub const FIRST_LETTER: u8 = b'a';
pub const LAST_LETTER: u8 = FIRST_LETTER + VARIABLES as u8 - 1;

/// In a word each exponent has so many bits.
pub const EXPONENT_BITS: usize = 8;
const _: () = assert!(EXPONENT_BITS * VARIABLES <= u64::BITS as usize, "a pattern fits a word");

/// What one more power of a variable adds to a word: the last variable has the lowest bits.
pub const fn unit_of(variable: usize) -> u64 {
    1 << (EXPONENT_BITS * (VARIABLES - 1 - variable))
}

/// An exponent for each variable, a first. The degree stands before them so that the derived comparison is 01's term
/// order: of two patterns the greater one (larger total degree, then larger power of a, of b, ..) stands first in a sum.
#[derive(Debug, Clone, Copy, PartialEq, Eq, PartialOrd, Ord)]
pub struct Pattern {
    degree: u32,
    exponents: [u8; VARIABLES],
}

impl Pattern {
    pub fn new(exponents: [u8; VARIABLES]) -> Pattern {
        let degree = exponents.iter().map(|&exponent| u32::from(exponent)).sum();
        Pattern { degree, exponents }
    }

    pub fn empty() -> Pattern {
        Pattern::new([0; VARIABLES])
    }

    pub fn letter(variable: usize) -> Pattern {
        Pattern::empty().with(variable, 1)
    }

    pub fn from_word(word: u64) -> Pattern {
        Pattern::new(std::array::from_fn(|variable| (word / unit_of(variable) % (1 << EXPONENT_BITS)) as u8))
    }

    pub fn word(&self) -> u64 {
        (0..VARIABLES).map(|variable| u64::from(self.exponents[variable]) * unit_of(variable)).sum()
    }

    pub fn degree(&self) -> u32 {
        self.degree
    }

    pub fn exponent(&self, variable: usize) -> u8 {
        self.exponents[variable]
    }

    /// The same pattern with another power of one variable.
    pub fn with(&self, variable: usize, exponent: u8) -> Pattern {
        let mut exponents = self.exponents;
        exponents[variable] = exponent;
        Pattern::new(exponents)
    }

    /// Only called where the degree of the product was found to be allowed, so no byte overflows.
    pub fn product(&self, other: &Pattern) -> Pattern {
        let mut exponents = self.exponents;
        for (mine, theirs) in exponents.iter_mut().zip(other.exponents) {
            *mine += theirs;
        }
        Pattern::new(exponents)
    }
}

#[derive(Debug, Clone, Copy, PartialEq, Eq)]
pub struct Term {
    pub coefficient: i64,
    pub pattern: Pattern,
}

/// Terms in 01's order, no pattern twice, no coefficient 0.
#[derive(Debug, Clone, PartialEq, Eq, Default)]
pub struct Sum {
    pub terms: Vec<Term>,
}

impl Sum {
    pub fn zero() -> Sum {
        Sum { terms: Vec::new() }
    }

    pub fn one_term(coefficient: i64, pattern: Pattern) -> Sum {
        if coefficient == 0 {
            return Sum::zero();
        }
        Sum { terms: vec![Term { coefficient, pattern }] }
    }

    pub fn degree(&self) -> u32 {
        self.terms.iter().map(|term| term.pattern.degree()).max().unwrap_or(0)
    }

    pub fn weight(&self) -> u128 {
        self.terms.iter().map(|term| u128::from(term.coefficient.unsigned_abs())).sum()
    }
}

/// Patterns met so far with what their coefficients add up to. A pattern that has cancelled to 0 is kept here, because
/// the spread counts it; only `ordered` drops it.
#[derive(Default)]
pub struct Gathered {
    totals: BTreeMap<Pattern, i128>,
}

impl Gathered {
    pub fn add(&mut self, pattern: Pattern, coefficient: i128) {
        *self.totals.entry(pattern).or_insert(0) += coefficient;
    }

    pub fn spread(&self) -> usize {
        self.totals.len()
    }

    pub fn too_wide(&self) -> bool {
        self.spread() > LARGEST_SPREAD
    }

    /// The ordered sum. Weights were judged before, so each coefficient fits 64 bits.
    pub fn ordered(&self) -> Sum {
        let mut sum = Sum::zero();
        for (&pattern, &total) in self.totals.iter().rev() {
            if total != 0 {
                let coefficient = i64::try_from(total).expect("the weight was judged before");
                sum.terms.push(Term { coefficient, pattern });
            }
        }
        sum
    }
}

/// The sum of two ordered sums; None if its spread is too large.
pub fn sum_of(left: &Sum, right: &Sum) -> Option<Sum> {
    let mut gathered = Gathered::default();
    for term in left.terms.iter().chain(&right.terms) {
        gathered.add(term.pattern, i128::from(term.coefficient));
    }
    (!gathered.too_wide()).then(|| gathered.ordered())
}

/// The product of two ordered sums; None if its spread is too large.
pub fn product_of(left: &Sum, right: &Sum) -> Option<Sum> {
    let mut gathered = Gathered::default();
    for mine in &left.terms {
        for theirs in &right.terms {
            let coefficient = i128::from(mine.coefficient) * i128::from(theirs.coefficient);
            gathered.add(mine.pattern.product(&theirs.pattern), coefficient);
        }
        // The spread never falls, so the rest need not be looked at.
        if gathered.too_wide() {
            return None;
        }
    }
    Some(gathered.ordered())
}

/// base^exponent by multiplying by the base again and again; None if a step's spread is too large.
pub fn power_of(base: &Sum, exponent: u32) -> Option<Sum> {
    if exponent == 0 {
        return Some(Sum::one_term(1, Pattern::empty()));
    }
    let mut power = base.clone();
    for _ in 1..exponent {
        power = product_of(&power, base)?;
    }
    Some(power)
}

/// weight^exponent (0^0 = 1); None if it is above 2^62. A base of 2 or more only grows, so stopping early is exact.
pub fn raised_weight(weight: u128, exponent: u32) -> Option<u128> {
    let mut raised = 1u128;
    for _ in 0..exponent {
        raised *= weight;
        if raised > LARGEST_WEIGHT {
            return None;
        }
    }
    Some(raised)
}
