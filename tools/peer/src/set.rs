//! The set: a polynomial zonotope with generators and a box of radii around it, in whole units of
//! 1/4096 of the user's unit (document 01: grains).

use std::ops::Add;

use run_file::{SetBody, Term, MAX_EXPONENT, MAX_IDENTIFIER, SPAN_LIMIT};

/// Whether the term's product of powers is never negative because each power is even.
pub fn is_even(term: &Term) -> bool {
    term.exponents.iter().all(|e| e % 2 == 0)
}

#[derive(Clone, Debug, Default, PartialEq, Eq)]
pub struct Set {
    pub identifiers: Vec<i128>,
    pub centre: Vec<i128>,
    pub terms: Vec<Term>,
    pub generators: Vec<Vec<i128>>,
    /// Half the width of the surrounding box in each coordinate (document 01: the skirt), in its parts.
    pub radius_parts: Vec<RadiusParts>,
}

/// Where a coordinate's radius comes from (document 02, A.4): it is the sum of these.
#[derive(Clone, Copy, Debug, Default, PartialEq, Eq)]
pub struct RadiusParts {
    /// What the last step or hull made of the radii and generators before it, and of half-widths.
    pub carried: i128,
    /// What its roundings may have lost.
    pub rounded: i128,
    /// What folding has added since then.
    pub folded: i128,
    /// What set bodies and disturbances have added since then.
    pub given: i128,
}

impl RadiusParts {
    pub fn radius(&self) -> i128 {
        self.carried + self.rounded + self.folded + self.given
    }

    fn is_in_range(&self) -> bool {
        [self.carried, self.rounded, self.folded, self.given].iter().all(|part| *part >= 0)
    }
}

/// Like parts are added.
impl Add for RadiusParts {
    type Output = RadiusParts;

    fn add(self, other: RadiusParts) -> RadiusParts {
        RadiusParts {
            carried: self.carried + other.carried,
            rounded: self.rounded + other.rounded,
            folded: self.folded + other.folded,
            given: self.given + other.given,
        }
    }
}

/// The set that a body states.
impl From<&SetBody> for Set {
    fn from(body: &SetBody) -> Set {
        Set {
            identifiers: body.identifiers.clone(),
            centre: body.centre.clone(),
            terms: body.terms.clone(),
            generators: body.generators.clone(),
            radius_parts: all_given(body.radii.iter().copied()),
        }
    }
}

/// The parts of radii that a body states.
pub fn all_given(radii: impl IntoIterator<Item = i128>) -> Vec<RadiusParts> {
    radii.into_iter().map(|given| RadiusParts { given, ..RadiusParts::default() }).collect()
}

impl Set {
    pub fn dimension(&self) -> usize {
        self.centre.len()
    }

    /// The largest distance from 0 that coordinate `i` could have if every part pulled one way.
    pub fn span(&self, i: usize) -> i128 {
        let terms: i128 = self.terms.iter().map(|t| t.coefficients[i].abs()).sum();
        self.centre[i].abs() + terms + self.independent_part(i)
    }

    /// How far generators and radius reach in coordinate `i`.
    pub fn independent_part(&self, i: usize) -> i128 {
        self.generators.iter().map(|g| g[i].abs()).sum::<i128>() + self.radius_parts[i].radius()
    }

    pub fn radii(&self) -> Vec<i128> {
        self.radius_parts.iter().map(RadiusParts::radius).collect()
    }

    pub fn is_too_wide(&self) -> bool {
        (0..self.dimension()).any(|i| self.span(i) > SPAN_LIMIT)
    }

    /// Identifiers, exponents and radii of a body within their ranges.
    pub fn is_in_range(&self) -> bool {
        let identifiers = self.identifiers.iter().all(|id| (1..=MAX_IDENTIFIER).contains(id));
        let exponents = self.terms.iter().all(|t| t.exponents.iter().all(|e| *e <= MAX_EXPONENT));
        identifiers && exponents && self.radius_parts.iter().all(RadiusParts::is_in_range)
    }

    /// The ordering and zero rules, and no factor that occurs in no term.
    pub fn keeps_rules(&self) -> bool {
        let zero = |numbers: &[i128]| numbers.iter().all(|v| *v == 0);
        self.identifiers.windows(2).all(|w| w[0] < w[1])
            && self.terms.windows(2).all(|w| w[0].exponents < w[1].exponents)
            && self.terms.iter().all(|t| t.exponents.iter().any(|e| *e > 0) && !zero(&t.coefficients))
            && self.generators.iter().all(|g| !zero(g))
            && (0..self.identifiers.len()).all(|k| self.uses_factor(k))
    }

    pub fn uses_factor(&self, k: usize) -> bool {
        self.terms.iter().any(|t| t.exponents[k] > 0)
    }
}
