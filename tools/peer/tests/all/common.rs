//! What several test files use: run files from plans and from bytes, what a step rounds, mirror images, and programs.

use std::io::Write;
use std::process::{Command, Stdio};

use peer::run::{Accepted, Outcome, Run};
use peer::set::Set;
use peer::step::dot;
use peer::text::motion;
use plan::encode::encode;
use run_file::{whole, Field, Halfspace, Matrix, RangedStep, SetBody, Step, Term, HEADER, SQUARE_UNIT, UNIT};

/// The run file of a plan whose numbers are the file's own: the line that says so is put before it.
pub fn encoded(plan: &str) -> Vec<u8> {
    match encode(&format!("grains\n{plan}")) {
        Ok(encoded) => encoded.bytes,
        Err(mistake) => panic!("{mistake:?} in\n{plan}"),
    }
}

/// A program's exit status, standard output and standard error.
pub type Answer = (i32, Vec<u8>, String);

pub fn answer(program: &str, words: &[&str], input: &[u8]) -> Answer {
    let mut command = Command::new(program);
    command.args(words).stdin(Stdio::piped()).stdout(Stdio::piped()).stderr(Stdio::piped());
    let mut child = command.spawn().expect("it starts");
    child.stdin.take().expect("an input").write_all(input).expect("it reads");
    let output = child.wait_with_output().expect("it ends");
    (output.status.code().expect("a status"), output.stdout, String::from_utf8_lossy(&output.stderr).into_owned())
}

/// The last line that `motion` prints for these bytes.
pub fn last_line(bytes: &[u8]) -> String {
    motion(bytes).lines().last().unwrap_or("").to_string()
}

/// The line before the last, which has the totals of folding where there is no refusal.
pub fn totals_line(bytes: &[u8]) -> String {
    motion(bytes).lines().nth_back(1).unwrap_or("").to_string()
}

/// The lines of `sets` for the radius of a set in one coordinate.
pub fn radius_lines(carried: i128, rounded: i128, folded: i128, given: i128) -> String {
    format!("  carried {carried}\n  rounded {rounded}\n  folded {folded}\n  given {given}\n")
}

/// The fields of a plan, all of which a run accepts.
pub fn accepted(plan: &str) -> Vec<Accepted> {
    Run::new(&encoded(plan)).map(|item| item.expect("accepted")).collect()
}

/// The bytes of an empty disturbance for n coordinates.
pub fn empty(n: usize) -> Vec<u8> {
    [vec![3, 1 + 4 * n as u8, 0, n as u8], vec![0; 4 * n]].concat()
}

/// The whole fields of a file, and what is left of it.
pub fn whole_fields(mut rest: &[u8]) -> (Vec<&[u8]>, &[u8]) {
    let mut fields = Vec::new();
    while let Some((_, body)) = whole(rest) {
        let (field, after) = rest.split_at(HEADER + body.len());
        fields.push(field);
        rest = after;
    }
    (fields, rest)
}

/// Every number that a step of this set rounds, by coordinate, in 1/16,777,216: of the centre, of terms and generators,
/// of pairs.
pub fn unrounded(step: &Step, set: &Set) -> Vec<Vec<i128>> {
    let k = &set.centre;
    let terms: Vec<&Vec<i128>> = set.terms.iter().map(|term| &term.coefficients).collect();
    let of_coordinate = |((c, row), form): ((&i128, &Vec<i128>), &Matrix)| {
        let q = |x: &[i128], y: &[i128]| form.iter().zip(x).map(|(row, x)| x * dot(row, y)).sum::<i128>();
        let mut numbers = vec![SQUARE_UNIT * c + UNIT * dot(row, k) + q(k, k)];
        numbers.extend(terms.iter().copied().chain(&set.generators).map(|g| UNIT * dot(row, g) + q(k, g) + q(g, k)));
        for (place, g) in terms.iter().enumerate() {
            numbers.push(q(g, g));
            numbers.extend(terms[place + 1..].iter().map(|h| q(g, h) + q(h, g)));
        }
        numbers
    };
    step.constant.iter().zip(&step.matrix).zip(&step.forms).map(of_coordinate).collect()
}

/// The field with every centre, term, generator, c, Q and halfspace normal negated.
pub fn mirrored(field: &Field) -> Field {
    let mirrored_step = |step: &Step| Step {
        constant: negated(&step.constant),
        matrix: step.matrix.clone(),
        forms: step.forms.iter().map(|form| form.iter().map(|row| negated(row)).collect()).collect(),
    };
    match field {
        Field::Start(body) => Field::Start(mirrored_body(body)),
        Field::Independent(body) => Field::Independent(mirrored_body(body)),
        Field::Tied(body) => Field::Tied(mirrored_body(body)),
        Field::Hull(body) => Field::Hull(mirrored_body(body)),
        Field::Step(step) => Field::Step(mirrored_step(step)),
        Field::Ranged(RangedStep { step, half_widths }) => {
            Field::Ranged(RangedStep { step: mirrored_step(step), half_widths: half_widths.clone() })
        }
        Field::Check(region) => {
            let mirrored = |h: &Halfspace| Halfspace { normal: negated(&h.normal), bound: h.bound };
            Field::Check(region.iter().map(mirrored).collect())
        }
        Field::Disturbance(_) | Field::Reduce(_) => field.clone(),
    }
}

/// That each field, set and box of the one run is the mirror image of the other's, and each verdict, and what folding
/// added, the same.
pub fn assert_mirrored(run: &[Accepted], other: &[Accepted]) {
    assert_eq!(run.len(), other.len());
    for (one, other) in run.iter().zip(other) {
        let outcome = match &one.outcome {
            Outcome::Box(ends) => Outcome::Box(ends.iter().map(|(low, high)| (-high, -low)).collect()),
            Outcome::Verdict { safe } => Outcome::Verdict { safe: *safe },
        };
        assert_eq!((mirrored(&one.field), outcome), (other.field.clone(), other.outcome.clone()));
        assert_eq!((mirrored_set(&one.set), one.mark), (other.set.clone(), other.mark));
        assert_eq!(one.folded, other.folded);
    }
}

fn mirrored_set(set: &Set) -> Set {
    Set {
        centre: negated(&set.centre),
        terms: set.terms.iter().map(mirrored_term).collect(),
        generators: set.generators.iter().map(|generator| negated(generator)).collect(),
        ..set.clone()
    }
}

fn mirrored_body(body: &SetBody) -> SetBody {
    SetBody {
        centre: negated(&body.centre),
        terms: body.terms.iter().map(mirrored_term).collect(),
        generators: body.generators.iter().map(|generator| negated(generator)).collect(),
        ..body.clone()
    }
}

fn mirrored_term(term: &Term) -> Term {
    Term { coefficients: negated(&term.coefficients), ..term.clone() }
}

fn negated(numbers: &[i128]) -> Vec<i128> {
    numbers.iter().map(|v| -v).collect()
}

/// A set of one coordinate with `count` factors from `first` on, each in a term of its own.
pub fn factors(kind: &str, first: usize, count: usize) -> String {
    let identifiers: Vec<String> = (first..first + count).map(|id| id.to_string()).collect();
    let mut plan = format!("{kind} 1\nidentifiers {}\n", identifiers.join(" "));
    for k in (0..count).rev() {
        let exponents: Vec<&str> = (0..count).map(|j| if j == k { "1" } else { "0" }).collect();
        plan += &format!("term {} : 7\n", exponents.join(" "));
    }
    plan
}
