//! Radii by document 01's rule of one number for each coordinate, held against the sum of the four parts that document
//! 02, A.4, has in its place; from what a field makes before finishing, and from what is not there any more after it.

use std::collections::BTreeMap;

use crate::common::{totals_line, unrounded};
use crate::radii::{parts, Parts};
use peer::run::{Accepted, Run, FIRST_MARK};
use peer::set::{all_given, Set};
use peer::step::round;
use run_file::{Field, HalfWidths, RangedStep, SetBody, Step, Term, MAX_DIMENSION, SQUARE_UNIT, UNIT};
use trials::generate::VALID;

/// After each field the radius by document 01's rule of one number is the sum of the parts, and each part is what its
/// operation says; and the last line but one has the totals.
#[test]
fn radii_are_the_sums_of_their_parts_in_generated_runs() {
    let mut folding = BTreeMap::new();
    for kind in &VALID {
        for seed in 0..if kind.long { 1 } else { 12 } {
            let bytes = kind.file(seed);
            let mut before = Before { set: Set::default(), parts: Vec::new(), mark: FIRST_MARK };
            let mut totals = [0; MAX_DIMENSION];
            for item in Run::new(&bytes) {
                let field = item.expect("accepted");
                let context = format!("{} {seed}, field {}", kind.name, field.number);
                let mut expected = before.unfinished(&field.field);
                let folded = expected.folded(&field);
                for (i, added) in folded.iter().enumerate() {
                    expected.radii[i] += added;
                    expected.parts[i][2] += added;
                    totals[i] += added;
                }
                assert_eq!(field.set.radii(), expected.radii, "{context}");
                assert_eq!(parts(&field.set), expected.parts, "{context}");
                assert_eq!(field.folded, folded, "{context}");
                *folding.entry(field.field.tag() as u8).or_insert(0) +=
                    usize::from(folded.iter().any(|added| *added > 0));
                let set = Set { radius_parts: all_given(expected.radii), ..field.set };
                before = Before { set, parts: expected.parts, mark: field.mark };
            }
            let line = totals.iter().fold("folded".to_string(), |line, total| format!("{line} {total}"));
            assert_eq!(totals_line(&bytes), line, "{} {seed}", kind.name);
        }
    }
    assert!([2, 4, 5, 6, 8, 9].iter().all(|tag| folding[tag] > 20), "{folding:?}");
}

/// What a field makes of a set before finishing: terms, equal ones added, by the powers of the identifiers that occur;
/// and the radii, by document 01's rule of one number each and in parts.
struct Unfinished {
    terms: BTreeMap<Powers, Vec<i128>>,
    generators: Vec<Vec<i128>>,
    radii: Vec<i128>,
    parts: Parts,
}

type Powers = BTreeMap<i128, u32>;

/// What the last field left, with radii as the rule has them, each as one number that is given.
struct Before {
    set: Set,
    parts: Parts,
    mark: i128,
}

impl Before {
    fn unfinished(&self, field: &Field) -> Unfinished {
        match field {
            Field::Start(body) => Before { set: Set::from(body), parts: given(&body.radii), mark: 0 }.unchanged(),
            Field::Disturbance(radii) => self.unchanged().widened(radii),
            Field::Reduce(_) | Field::Check(_) => self.unchanged(),
            Field::Tied(body) => self.sum(body, &body.identifiers),
            Field::Independent(body) => self.sum(body, &(self.mark..).take(body.identifiers.len()).collect::<Vec<_>>()),
            Field::Step(step) => self.image(step, &step.exactly()),
            Field::Ranged(RangedStep { step, half_widths }) => self.image(step, half_widths),
            Field::Hull(body) => self.hull(&Set::from(body)),
        }
    }

    fn unchanged(&self) -> Unfinished {
        let set = &self.set;
        let terms = set.terms.iter().map(|t| (powers(&set.identifiers, &t.exponents), t.coefficients.clone()));
        let (generators, parts) = (set.generators.clone(), self.parts.clone());
        Unfinished { terms: collected(terms), generators, radii: set.radii(), parts }
    }

    fn sum(&self, body: &SetBody, identifiers: &[i128]) -> Unfinished {
        let mut sum = self.unchanged().widened(&body.radii);
        let added = body.terms.iter().map(|t| (powers(identifiers, &t.exponents), t.coefficients.clone()));
        sum.terms = collected(sum.terms.into_iter().chain(added));
        sum.generators.extend(body.generators.clone());
        sum
    }

    fn image(&self, step: &Step, half_widths: &HalfWidths) -> Unfinished {
        let set = &self.set;
        let (h, q) = (set.terms.len(), set.generators.len());
        let numbers = unrounded(step, set);
        let rounded = |place: usize| numbers.iter().map(|row| round(row[place])).collect::<Vec<i128>>();
        let mut products: Vec<Vec<u32>> = set.terms.iter().map(|t| t.exponents.clone()).collect();
        for (place, g) in set.terms.iter().enumerate() {
            let times = |h: &Term| g.exponents.iter().zip(&h.exponents).map(|(d, e)| d + e).collect();
            products.extend(set.terms[place..].iter().map(times));
        }
        // The centre comes first, and the generators between the terms and the pairs.
        let places = (1..1 + h).chain(1 + h + q..);
        let terms = products.iter().zip(places).map(|(e, place)| (powers(&set.identifiers, e), rounded(place)));
        let inexact = |i: usize| numbers[i].iter().filter(|v| *v % SQUARE_UNIT != 0).count();
        let radius = |i: usize| (self.carried(step, half_widths, i), inexact(i).div_ceil(2) as i128);
        let generators = (1 + h..1 + h + q).map(rounded).collect();
        Unfinished::begun(collected(terms), generators, (0..numbers.len()).map(radius).collect())
    }

    /// S over 16,777,216, rounded up; d·r + r·d + r·r of S as (d + r)·(d + r) - d·d.
    fn carried(&self, step: &Step, half_widths: &HalfWidths, i: usize) -> i128 {
        let (set, (a, q), (da, dq)) =
            (&self.set, (&step.matrix[i], &step.forms[i]), (&half_widths.matrix[i], &half_widths.forms[i]));
        let d = |j: usize| set.terms.iter().map(|t| t.coefficients[j].abs()).sum::<i128>();
        let all = |j: usize| set.span(j) - set.centre[j].abs();
        let n = set.dimension();
        let mut s = 0;
        for j in 0..n {
            let slope: i128 = UNIT * a[j] + (0..n).map(|l| (q[j][l] + q[l][j]) * set.centre[l]).sum::<i128>();
            s += slope.abs() * set.radii()[j] + UNIT * da[j] * set.span(j);
            for l in 0..n {
                s += q[j][l].abs() * (all(j) * all(l) - d(j) * d(l)) + dq[j][l] * set.span(j) * set.span(l);
            }
        }
        -(-s).div_euclid(SQUARE_UNIT)
    }

    /// Each odd number is halved twice, and so are the centres, whose sum and difference are odd together.
    fn hull(&self, body: &Set) -> Unfinished {
        let set = &self.set;
        let half = |v: i128| round(v * (SQUARE_UNIT / 2));
        let blended = |powers: &Powers| [powers.clone(), [(self.mark, 1)].into()].into_iter().flatten().collect();
        let difference = set.centre.iter().zip(&body.centre).map(|(x, y)| half(x - y)).collect();
        let mut terms: Vec<(Powers, Vec<i128>)> = vec![(blended(&Powers::new()), difference)];
        for (one, sign) in [(set, 1), (body, -1)] {
            for term in &one.terms {
                let powers = powers(&one.identifiers, &term.exponents);
                terms.push((blended(&powers), term.coefficients.iter().map(|g| half(sign * g)).collect()));
                terms.push((powers, term.coefficients.iter().map(|g| half(*g)).collect()));
            }
        }
        let radius = |i: usize| {
            let numbers = set.terms.iter().chain(&body.terms).map(|t| t.coefficients[i]);
            let odd = numbers.chain([set.centre[i] + body.centre[i]]).filter(|v| v % 2 != 0).count();
            (set.independent_part(i).max(body.independent_part(i)), odd as i128)
        };
        Unfinished::begun(collected(terms), Vec::new(), (0..set.dimension()).map(radius).collect())
    }
}

impl Unfinished {
    /// What a step or hull leaves, with what each radius carries and what its roundings lose.
    fn begun(
        terms: BTreeMap<Powers, Vec<i128>>,
        generators: Vec<Vec<i128>>,
        carried_and_rounded: Vec<(i128, i128)>,
    ) -> Unfinished {
        let radii = carried_and_rounded.iter().map(|(carried, rounded)| carried + rounded).collect();
        let parts = carried_and_rounded.iter().map(|(carried, rounded)| [*carried, *rounded, 0, 0]).collect();
        Unfinished { terms, generators, radii, parts }
    }

    fn widened(mut self, radii: &[i128]) -> Unfinished {
        for (i, radius) in radii.iter().enumerate() {
            self.radii[i] += radius;
            self.parts[i][3] += radius;
        }
        self
    }

    /// What the terms and generators add that aren't there after the field.
    fn folded(&self, after: &Accepted) -> Vec<i128> {
        let set = &after.set;
        let kept: Vec<Powers> = set.terms.iter().map(|t| powers(&set.identifiers, &t.exponents)).collect();
        let mut folded = vec![0; set.dimension()];
        let mut add = |numbers: &[i128], added: fn(i128) -> i128| {
            folded.iter_mut().zip(numbers).for_each(|(folded, g)| *folded += added(g.abs()));
        };
        for (powers, coefficients) in self.terms.iter().filter(|(powers, _)| !kept.contains(powers)) {
            let even = powers.values().all(|e| e % 2 == 0);
            add(coefficients, if even { |size| (size + 1) / 2 } else { |size| size });
        }
        for (_, generator) in self.generators.iter().enumerate().filter(|(place, _)| !after.kept.contains(place)) {
            add(generator, |size| size);
        }
        folded
    }
}

fn given(radii: &[i128]) -> Parts {
    radii.iter().map(|radius| [0, 0, 0, *radius]).collect()
}

fn powers(identifiers: &[i128], exponents: &[u32]) -> Powers {
    identifiers.iter().copied().zip(exponents.iter().copied()).filter(|(_, e)| *e > 0).collect()
}

fn collected(terms: impl IntoIterator<Item = (Powers, Vec<i128>)>) -> BTreeMap<Powers, Vec<i128>> {
    let mut sums: BTreeMap<Powers, Vec<i128>> = BTreeMap::new();
    for (powers, coefficients) in terms {
        let sum = sums.entry(powers).or_insert(vec![0; coefficients.len()]);
        sum.iter_mut().zip(&coefficients).for_each(|(sum, g)| *sum += g);
    }
    sums
}
