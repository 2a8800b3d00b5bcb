//! Valid runs: fields that the state reached so far accepts.

use peer::run::{apply, State};
use peer::set::Set;
use run_file::{
    Field, Reduction, SetBody, MAX_DIMENSION, MAX_FACTORS, MAX_FIELDS, MAX_GENERATORS, MAX_TERMS, SPAN_LIMIT,
};

use super::parts::{body, fill_span, radii, ranged, region, step, Shape};
use crate::random::Random;

/// How often each kind of field comes, and what its parts are like.
pub struct Profile {
    fields: usize,
    steps: usize,
    disturbances: usize,
    independent: usize,
    tied: usize,
    reductions: usize,
    checks: usize,
    hulls: usize,
    ranges: usize,
    dimension: usize,
    factors: usize,
    terms: usize,
    generators: usize,
    lowest_exponent: u32,
    highest_exponent: u32,
    with_radii: bool,
    span: i128,
}

pub const MIXED: Profile = Profile {
    fields: 24,
    steps: 4,
    disturbances: 2,
    independent: 2,
    tied: 2,
    reductions: 1,
    checks: 2,
    hulls: 2,
    ranges: 2,
    dimension: 4,
    factors: 4,
    terms: 8,
    generators: 5,
    lowest_exponent: 1,
    highest_exponent: 6,
    with_radii: true,
    span: 60_000,
};
/// With nothing but terms a wrong coefficient can't hide in a wide set.
pub const SHARP: Profile = Profile {
    fields: 8,
    disturbances: 0,
    reductions: 0,
    ranges: 0,
    factors: 3,
    terms: 5,
    generators: 0,
    with_radii: false,
    span: 400_000,
    ..MIXED
};
pub const TERMS: Profile =
    Profile { fields: 12, steps: 6, factors: 6, terms: 40, span: 400_000, highest_exponent: 3, ..MIXED };
pub const EXPONENTS: Profile =
    Profile { fields: 10, steps: 6, lowest_exponent: 20, highest_exponent: 63, terms: 12, span: 400_000, ..MIXED };
pub const GENERATORS: Profile = Profile { fields: 14, independent: 4, tied: 4, generators: 24, ..MIXED };
pub const REDUCTIONS: Profile = Profile { reductions: 8, terms: 20, generators: 12, ..MIXED };
pub const DIMENSIONS: Profile = Profile { steps: 12, dimension: MAX_DIMENSION, ..MIXED };
pub const SUMS: Profile = Profile { fields: 60, independent: 16, reductions: 3, dimension: 2, ..MIXED };
pub const HULLS: Profile = Profile { fields: 12, hulls: 12, span: 4_000, ..MIXED };
pub const RANGES: Profile = Profile { fields: 16, ranges: 12, ..MIXED };
pub const WIDE: Profile = Profile { span: SPAN_LIMIT, ..MIXED };
pub const LONG: Profile = Profile { fields: MAX_FIELDS, dimension: 3, factors: 2, terms: 3, generators: 2, ..MIXED };

/// How a field of a kind is made.
type Make<'a> = &'a dyn Fn(&mut Random) -> Field;

/// A run file in the making, and where it has led.
pub struct Builder {
    pub bytes: Vec<u8>,
    pub state: State,
}

impl Builder {
    pub fn empty() -> Builder {
        Builder { bytes: Vec::new(), state: State::empty() }
    }

    /// The current set; one of no coordinates if there is none.
    pub fn set(&self) -> Set {
        self.state.set.clone().unwrap_or_default()
    }

    /// Writes the field if it is accepted.
    pub fn add(&mut self, field: &Field) -> bool {
        match apply(field, &self.state) {
            Ok((finished, mark)) => {
                self.state = State { set: Some(finished.set), mark };
                self.bytes.extend(field.encode());
                true
            }
            Err(_) => false,
        }
    }
}

/// A run of as many fields as the profile says; where that isn't the most there can be, of half as many or more.
pub fn run(random: &mut Random, profile: &Profile) -> Vec<u8> {
    let fields = match profile.fields {
        MAX_FIELDS => MAX_FIELDS,
        fields => fields / 2 + random.below(fields / 2 + 1),
    };
    prefix(random, profile, fields).bytes
}

/// A start set and so many fields after it.
pub fn prefix(random: &mut Random, profile: &Profile, fields: usize) -> Builder {
    let mut builder = Builder::empty();
    builder.add(&Field::Start(start_set(random, profile)));
    for _ in 0..fields {
        lengthen(random, profile, &mut builder);
    }
    builder
}

/// A start set that a run accepts.
pub fn start_set(random: &mut Random, profile: &Profile) -> SetBody {
    let dimension = 1 + random.below(profile.dimension);
    loop {
        let body = shaped_body(random, profile, dimension, MAX_FACTORS, SPAN_LIMIT);
        if Builder::empty().add(&Field::Start(body.clone())) {
            return body;
        }
    }
}

/// Writes one more field.
pub fn lengthen(random: &mut Random, profile: &Profile, builder: &mut Builder) {
    while !next_field(random, profile, &builder.state).is_some_and(|field| builder.add(&field)) {}
}

/// A field that the state probably accepts; now and then a check, which it certainly does.
pub fn next_field(random: &mut Random, profile: &Profile, state: &State) -> Option<Field> {
    let set = state.set.as_ref()?;
    let n = set.dimension();
    let room = SPAN_LIMIT - (0..n).map(|i| set.span(i)).max()?;
    let kinds: [(usize, Make); 8] = [
        (profile.steps, &|random| {
            let m = 1 + random.below(profile.dimension);
            Field::Step(step(random, set, m, profile.span))
        }),
        (profile.disturbances, &|random| {
            let limit = room.min(profile.span / 16);
            Field::Disturbance(radii(random, n, limit))
        }),
        (profile.independent, &|random| {
            let factors = MAX_FACTORS - set.identifiers.len();
            Field::Independent(shaped_body(random, profile, n, factors, room))
        }),
        (profile.tied, &|random| Field::Tied(shaped_body(random, profile, n, MAX_FACTORS, room))),
        (profile.reductions, &|random| {
            let few = random.once_in(2);
            let mut limit = |most: usize| random.below(if few { 6 } else { most + 1 });
            Field::Reduce(Reduction { terms: limit(MAX_TERMS), generators: limit(MAX_GENERATORS) })
        }),
        (profile.hulls, &|random| {
            let factors = MAX_FACTORS.saturating_sub(set.identifiers.len() + 1);
            Field::Hull(shaped_body(random, profile, n, factors, SPAN_LIMIT))
        }),
        (profile.ranges, &|random| {
            let m = 1 + random.below(profile.dimension);
            Field::Ranged(ranged(random, set, m, profile.span))
        }),
        (profile.checks, &|random| Field::Check(region(random, set))),
    ];
    let mut chosen = random.below(kinds.iter().map(|(chances, _)| chances).sum());
    let mut kind = 0;
    while chosen >= kinds[kind].0 {
        chosen -= kinds[kind].0;
        kind += 1;
    }
    Some(kinds[kind].1(random))
}

fn shaped_body(random: &mut Random, profile: &Profile, dimension: usize, factors: usize, room: i128) -> SetBody {
    let mut at_most = |limit: usize| limit - random.below(limit / 2 + 1);
    let shape = Shape {
        dimension,
        factors: at_most(profile.factors).min(factors),
        terms: at_most(profile.terms),
        generators: at_most(profile.generators),
        lowest_exponent: profile.lowest_exponent,
        highest_exponent: profile.highest_exponent,
        with_radii: profile.with_radii,
        span: (profile.span / 4).min(room),
    };
    let mut set = body(random, &shape);
    if profile.span == SPAN_LIMIT && room == SPAN_LIMIT {
        fill_span(random, &mut set);
    }
    set
}
