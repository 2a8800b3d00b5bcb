//! Run files to measure programs with: always the same bytes, 4,096 fields after the start, accepted to the end.

use std::collections::BTreeSet;

use run_file::{
    Field, HalfWidths, Halfspace, RangedStep, Reduction, SetBody, Step, Term, MAX_DIMENSION, MAX_FACTORS, MAX_FIELDS,
    MAX_GENERATORS, MAX_HALFSPACES, MAX_TERMS, SQUARE_UNIT, UNIT,
};

use crate::random::Random;

pub struct Workload {
    pub name: &'static str,
    pub about: &'static str,
    make: fn() -> Vec<Field>,
}

pub static WORKLOADS: [Workload; 14] = [
    workload(
        "oscillator",
        "a damped spring that stiffens, 2 coordinates, up to 12 terms; pushed and checked now and then",
        oscillator,
    ),
    workload(
        "dense",
        "6 coordinates, 12 factors, 40 terms, 24 generators; small dense forms, most products round to 0",
        dense,
    ),
    workload("linear", "the same without forms: the steps are linear", linear),
    workload(
        "hardest",
        "a step in four has 40 terms, 24 generators and forms with every entry; its set is made anew after it",
        hardest,
    ),
    workload(
        "sums",
        "4 coordinates: tied and independent sums, reductions and checks of 8 halfspaces; a step in eight",
        sums,
    ),
    workload("hulls", "4 coordinates: half of the fields are hulls with 40 terms; of up to 161 terms 40 stay", hulls),
    workload("ranges", "the dense steps, on smaller numbers, with every entry known within a half-width", ranges),
    workload("terms-2", "steps on 2 terms in 4 coordinates whose products all fold", || steps_on(2, 4)),
    workload("terms-5", "the same on 5 terms", || steps_on(5, 4)),
    workload("terms-10", "the same on 10 terms", || steps_on(10, 4)),
    workload("terms-20", "the same on 20 terms", || steps_on(20, 4)),
    workload("terms-40", "the same on 40 terms", || steps_on(40, 4)),
    workload("across-2", "steps on 20 terms in 2 coordinates", || steps_on(20, 2)),
    workload("across-6", "steps on 20 terms in 6 coordinates", || steps_on(20, 6)),
];

const fn workload(name: &'static str, about: &'static str, make: fn() -> Vec<Field>) -> Workload {
    Workload { name, about, make }
}

impl Workload {
    pub fn file(&self) -> Vec<u8> {
        (self.make)().iter().flat_map(Field::encode).collect()
    }
}

/// The start set, then the fields that `next` makes for the places 0, 1 and so on.
fn run(start: SetBody, mut next: impl FnMut(usize) -> Field) -> Vec<Field> {
    let mut fields = vec![Field::Start(start)];
    fields.extend((0..MAX_FIELDS).map(&mut next));
    fields
}

/// x' = 0.95 x + 0.03 v and v' = -0.08 x + 0.86 v - 0.02 x² + 0.01, in the user's unit.
fn oscillator() -> Vec<Field> {
    let push = |x: i128, v: i128| SetBody {
        identifiers: vec![1, 2],
        centre: vec![0, 0],
        terms: vec![
            Term { exponents: vec![0, 1], coefficients: vec![0, v] },
            Term { exponents: vec![1, 0], coefficients: vec![x, 0] },
        ],
        generators: Vec::new(),
        radii: vec![0, 0],
    };
    let step = Step {
        constant: vec![0, 41],
        matrix: vec![vec![3_891, 123], vec![-328, 3_523]],
        forms: vec![vec![vec![0, 0], vec![0, 0]], vec![vec![-82, 0], vec![0, 0]]],
    };
    run(push(4_096, 4_096), |place| match place % 16 {
        5 => Field::Disturbance(vec![2, 3]),
        11 => Field::Reduce(Reduction { terms: 8, generators: 4 }),
        13 => Field::Tied(push(600, 900)),
        15 => Field::Check(vec![Halfspace { normal: vec![UNIT, 0], bound: -3 * SQUARE_UNIT }]),
        _ => Field::Step(step.clone()),
    })
}

/// Sets of the largest size on the same rows of exponents, each with its own numbers.
struct Largest {
    random: Random,
    rows: BTreeSet<Vec<u32>>,
    limit: i128,
    small: i128,
}

impl Largest {
    fn new(seed: u64, limit: i128, small: i128) -> Largest {
        let mut random = Random::new(seed);
        let rows = exponent_rows(&mut random, MAX_FACTORS, MAX_TERMS, 3);
        Largest { random, rows, limit, small }
    }

    fn next(&mut self) -> SetBody {
        set(&mut self.random, MAX_DIMENSION, &self.rows, self.limit, MAX_GENERATORS, self.small)
    }
}

fn dense() -> Vec<Field> {
    turned(800, 300, |random| forms(random, MAX_DIMENSION, 2), Field::Step)
}

fn linear() -> Vec<Field> {
    turned(800, 300, |_| vec![vec![vec![0; MAX_DIMENSION]; MAX_DIMENSION]; MAX_DIMENSION], Field::Step)
}

/// Sets as large as in the dense run would become too wide, even with half-widths of 1.
fn ranges() -> Vec<Field> {
    let n = MAX_DIMENSION;
    let half_widths = HalfWidths { matrix: vec![vec![1; n]; n], forms: vec![vec![vec![1; n]; n]; n] };
    let ranged = |step| Field::Ranged(RangedStep { step, half_widths: half_widths.clone() });
    turned(400, 150, |random| forms(random, MAX_DIMENSION, 2), ranged)
}

/// Steps that turn and shrink the largest sets, in fields that `field` makes; after seven of them a set is added.
fn turned(
    limit: i128,
    small: i128,
    forms: fn(&mut Random) -> Vec<Vec<Vec<i128>>>,
    field: impl Fn(Step) -> Field,
) -> Vec<Field> {
    let n = MAX_DIMENSION;
    let mut sets = Largest::new(1, limit, small);
    let start = sets.next();
    run(start, |place| match place % 8 {
        7 => Field::Tied(sets.next()),
        _ => {
            let random = &mut sets.random;
            let mut matrix: Vec<Vec<i128>> = (0..n).map(|_| numbers(random, n, 60)).collect();
            (0..n).for_each(|i| matrix[i][(i + 1) % n] = 3_200);
            field(Step { constant: numbers(random, n, 100), matrix, forms: forms(random) })
        }
    })
}

fn hardest() -> Vec<Field> {
    let n = MAX_DIMENSION;
    let mut sets = Largest::new(2, 200, 20);
    let start = sets.next();
    run(start, |place| match place % 4 {
        0 => Field::Step(Step {
            constant: numbers(&mut sets.random, n, 1_000),
            matrix: (0..n).map(|_| numbers(&mut sets.random, n, 2_000)).collect(),
            forms: forms(&mut sets.random, n, 4_096),
        }),
        3 => Field::Tied(sets.next()),
        other => emptied(other, n),
    })
}

fn sums() -> Vec<Field> {
    let mut random = Random::new(3);
    let n = 4;
    let body = |random: &mut Random| {
        let rows = exponent_rows(random, 6, 30, 3);
        set(random, n, &rows, 400, 12, 40)
    };
    let start = body(&mut random);
    run(start, |place| match place % 8 {
        0 | 4 => Field::Tied(body(&mut random)),
        2 => {
            let rows = exponent_rows(&mut random, 2, 3, 2);
            Field::Independent(set(&mut random, n, &rows, 3, 2, 3))
        }
        5 => Field::Reduce(Reduction { terms: 24, generators: 12 }),
        7 => {
            let matrix = (0..n).map(|i| (0..n).map(|j| if i == j { 1_400 } else { 120 }).collect()).collect();
            Field::Step(Step { constant: vec![0; n], matrix, forms: vec![vec![vec![0; n]; n]; n] })
        }
        _ => {
            let halfspace =
                |_| Halfspace { normal: numbers(&mut random, n, UNIT), bound: -random.between(0, 4) * SQUARE_UNIT };
            Field::Check((0..MAX_HALFSPACES).map(halfspace).collect())
        }
    })
}

/// Of eight fields four are hulls; the last two fold all factors and shrink what is left.
fn hulls() -> Vec<Field> {
    let mut random = Random::new(5);
    let n = 4;
    let body = |random: &mut Random| {
        let rows = exponent_rows(random, 6, MAX_TERMS, 3);
        set(random, n, &rows, 400, 12, 40)
    };
    let shrunk = |by: i128| {
        let matrix = (0..n).map(|i| (0..n).map(|j| if i == j { by } else { 60 }).collect()).collect();
        Field::Step(Step { constant: vec![0; n], matrix, forms: vec![vec![vec![0; n]; n]; n] })
    };
    let start = body(&mut random);
    run(start, |place| match place % 8 {
        2 => shrunk(3_000),
        5 => Field::Check(vec![Halfspace { normal: numbers(&mut random, n, UNIT), bound: -SQUARE_UNIT }]),
        6 => emptied(1, n),
        7 => shrunk(800),
        _ => Field::Hull(body(&mut random)),
    })
}

/// Each term has the first factor to a power of 32 or more, so that the product of two has one above 63 and folds;
/// after each nine steps the set is made anew.
fn steps_on(terms: usize, n: usize) -> Vec<Field> {
    let mut random = Random::new(4);
    let rows: BTreeSet<Vec<u32>> = exponent_rows(&mut random, terms.min(5), terms, 3)
        .into_iter()
        .map(|row| [vec![random.between(32, 63) as u32], row].concat())
        .collect();
    let fresh = |random: &mut Random| set(random, n, &rows, 6_000, 0, 0);
    let start = fresh(&mut random);
    run(start, |place| match place % 12 {
        11 => Field::Tied(fresh(&mut random)),
        at @ (9 | 10) => emptied(at - 8, n),
        _ => {
            let mut matrix: Vec<Vec<i128>> = (0..n).map(|_| numbers(&mut random, n, 20)).collect();
            (0..n).for_each(|i| matrix[i][i] = 3_800);
            Field::Step(Step { constant: vec![0; n], matrix, forms: forms(&mut random, n, 2) })
        }
    })
}

/// Two fields that leave nothing of a set but zeros: all is folded into the radii, and a step forgets those.
fn emptied(which: usize, n: usize) -> Field {
    match which {
        1 => Field::Reduce(Reduction { terms: 0, generators: 0 }),
        _ => {
            Field::Step(Step { constant: vec![0; n], matrix: vec![vec![0; n]; n], forms: vec![vec![vec![0; n]; n]; n] })
        }
    }
}

/// A set with terms of these exponents and so many generators, all numbers other than 0 and within a limit.
fn set(
    random: &mut Random,
    n: usize,
    rows: &BTreeSet<Vec<u32>>,
    limit: i128,
    generators: usize,
    small: i128,
) -> SetBody {
    let factors = rows.first().map_or(0, Vec::len);
    let term =
        |random: &mut Random, row: &Vec<u32>| Term { exponents: row.clone(), coefficients: numbers(random, n, limit) };
    SetBody {
        identifiers: (1..).take(factors).collect(),
        centre: vec![0; n],
        terms: rows.iter().map(|row| term(random, row)).collect(),
        generators: (0..generators).map(|_| numbers(random, n, small)).collect(),
        radii: vec![0; n],
    }
}

/// So many different rows of exponents up to `highest`, among them each factor alone.
fn exponent_rows(random: &mut Random, factors: usize, count: usize, highest: i128) -> BTreeSet<Vec<u32>> {
    let mut rows: BTreeSet<Vec<u32>> =
        (0..factors).map(|k| (0..factors).map(|j| u32::from(j == k)).collect()).collect();
    while rows.len() < count {
        let row: Vec<u32> =
            (0..factors).map(|_| if random.once_in(3) { random.between(0, highest) as u32 } else { 0 }).collect();
        if row.iter().any(|e| *e > 0) {
            rows.insert(row);
        }
    }
    rows
}

fn forms(random: &mut Random, n: usize, limit: i128) -> Vec<Vec<Vec<i128>>> {
    (0..n).map(|_| (0..n).map(|_| numbers(random, n, limit)).collect()).collect()
}

/// Numbers from 1 to the limit, either sign.
fn numbers(random: &mut Random, count: usize, limit: i128) -> Vec<i128> {
    (0..count).map(|_| random.between(1, limit) * if random.once_in(2) { 1 } else { -1 }).collect()
}
