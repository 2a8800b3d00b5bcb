//! A set's block, which a start set, the sums and the hull share.

use peer::run::Cause;
use peer::set::Set;
use run_file::{SetBody, Term, MAX_EXPONENT, MAX_FACTORS, MAX_GENERATORS, MAX_IDENTIFIER, MAX_TERMS, SPAN_LIMIT};

use super::{labelled, words, Block, Labels};
use crate::fault::{reach, Fault, Names};
use crate::line::{several, single, vector, Line, Mistake};
use crate::number::{Form, BYTE, IDENTIFIER, WORD};

impl Block for SetBody {
    const PARTS: Labels = &["identifiers", "centre", "term", "generator", "radii"];
    const COUNTED: Labels = &["coordinates", "identifiers", "terms", "generators"];

    fn text(&self, form: Form) -> (String, Vec<String>) {
        let numbers = |label: &str, numbers: &[i128]| labelled(label, &words(numbers, form));
        let term = |term: &Term| numbers(&format!("{} :", labelled("term", &term.exponents)), &term.coefficients);
        let mut lines = vec![labelled("identifiers", &self.identifiers), numbers("centre", &self.centre)];
        lines.extend(self.terms.iter().map(term));
        lines.extend(self.generators.iter().map(|generator| numbers("generator", generator)));
        lines.push(numbers("radii", &self.radii));
        (self.dimension().to_string(), lines)
    }

    fn read(head: &Line, parts: &[Line]) -> Result<SetBody, Mistake> {
        let n = head.dimension()?;
        let identifiers = match single(parts, "identifiers")? {
            Some(part) if part.words.len() > MAX_FACTORS => {
                return part.mistake(format!("a set has at most {MAX_FACTORS} identifiers"))
            }
            Some(part) => part.numbers(&part.words, IDENTIFIER)?,
            None => Vec::new(),
        };
        let term = |part: &Line| {
            let (exponents, coefficients) = part.halves()?;
            if exponents.len() != identifiers.len() {
                let (given, wanted) = (exponents.len(), identifiers.len());
                return part.mistake(format!("a term has an exponent for each identifier, here {wanted}, not {given}"));
            }
            let exponents = part.numbers(exponents, BYTE)?.into_iter().map(|e| e as u32).collect();
            Ok(Term { exponents, coefficients: part.exactly(coefficients, n, WORD)? })
        };
        let terms = several(parts, "term", MAX_TERMS, term)?;
        Ok(SetBody {
            centre: vector(parts, "centre", n)?,
            terms,
            generators: several(parts, "generator", MAX_GENERATORS, |part| part.exactly(&part.words, n, WORD))?,
            radii: vector(parts, "radii", n)?,
            identifiers,
        })
    }

    fn fault(&self, cause: Cause, names: &Names) -> Option<Fault> {
        match cause {
            Cause::Range => self.out_of_range(),
            Cause::Rule => self.broken_rule(names),
            Cause::Span => {
                let set = Set::from(self);
                let wide = (0..self.dimension()).find(|i| set.span(*i) > SPAN_LIMIT)?;
                let parts = "centre, terms, generators and radius together";
                Some(Fault::of_field(format!("{}: {parts}", reach(wide, set.span(wide)))))
            }
            _ => None,
        }
    }
}

/// Where a body has what 6 or 7 refuses.
trait Faults {
    fn out_of_range(&self) -> Option<Fault>;
    fn broken_rule(&self, names: &Names) -> Option<Fault>;
}

impl Faults for SetBody {
    fn out_of_range(&self) -> Option<Fault> {
        if let Some(id) = self.identifiers.iter().find(|id| !(1..=MAX_IDENTIFIER).contains(id)) {
            return Some(Fault::of("identifiers", 0, format!("identifier {id} is not from 1 to {MAX_IDENTIFIER}")));
        }
        let high = |term: &Term| term.exponents.iter().copied().find(|e| *e > MAX_EXPONENT);
        if let Some((t, e)) = self.terms.iter().enumerate().find_map(|(t, term)| Some((t, high(term)?))) {
            return Some(Fault::of("term", t, format!("the exponent {e} is above {MAX_EXPONENT}")));
        }
        let i = self.radii.iter().position(|r| *r < 0)?;
        Some(Fault::of("radii", 0, format!("the radius of coordinate {} is below 0", i + 1)))
    }

    fn broken_rule(&self, names: &Names) -> Option<Fault> {
        let zero = |numbers: &[i128]| numbers.iter().all(|v| *v == 0);
        if let Some(pair) = self.identifiers.windows(2).find(|pair| pair[0] >= pair[1]) {
            let what = if pair[0] == pair[1] {
                format!("identifier {} stands there twice", pair[0])
            } else {
                format!("identifier {} must come before {}", pair[1], pair[0])
            };
            return Some(Fault::of("identifiers", 0, what));
        }
        for (t, term) in self.terms.iter().enumerate() {
            if term.exponents.iter().all(|e| *e == 0) {
                let what = "this term's exponents are all 0: what no factor moves belongs in the centre";
                return Some(Fault::of("term", t, what.to_string()));
            }
            if zero(&term.coefficients) {
                return Some(Fault::of("term", t, "this term's coefficients are all 0: leave it out".to_string()));
            }
            if t > 0 && self.terms[t - 1].exponents >= term.exponents {
                let before = names.part("term", t - 1);
                let what = if self.terms[t - 1].exponents == term.exponents {
                    format!("this term's exponents are those of {before}: write one term with both coefficients added")
                } else {
                    format!("this term's exponents must come after those of {before}")
                };
                return Some(Fault::of("term", t, what));
            }
        }
        if let Some(g) = self.generators.iter().position(|generator| zero(generator)) {
            return Some(Fault::of("generator", g, "this generator's numbers are all 0: leave it out".to_string()));
        }
        let used = |k: usize| self.terms.iter().any(|term| term.exponents[k] > 0);
        let k = (0..self.identifiers.len()).find(|k| !used(*k))?;
        Some(Fault::of("identifiers", 0, format!("identifier {} is in no term: leave it out", self.identifiers[k])))
    }
}
