//! Runs that accepted empty disturbances: the rewritten files give the same answers.

use crate::common::{empty, totals_line};
use peer::bounds::{bounding_box, is_safe};
use peer::finish::Finished;
use peer::rewrite::{is_empty_disturbance, rewrite};
use peer::run::{apply, read_field, Accepted, Cause, Outcome, Run, State};
use peer::set::{all_given, Set};
use peer::sums::add;
use peer::text::labelled;
use run_file::{Field, DISTURBANCE_LIMIT, MAX_DIMENSION};
use trials::generate::{STORED, VALID};

/// What a field leaves, with disturbances as they were: radii in range are added, also where they are all 0.
fn apply_before(field: &Field, state: &State) -> Result<(Finished, i128), Cause> {
    match (field, &state.set) {
        (Field::Disturbance(radii), Some(set)) => {
            if radii.len() != set.dimension() {
                return Err(Cause::Dimension);
            }
            if radii.iter().any(|radius| !(0..=DISTURBANCE_LIMIT).contains(radius)) {
                return Err(Cause::Range);
            }
            let radius_parts = add(&set.radius_parts, &all_given(radii.clone()));
            let disturbed = Set { radius_parts, ..set.clone() };
            if disturbed.is_too_wide() {
                return Err(Cause::ResultSpan);
            }
            Ok((Finished::as_it_is(disturbed), state.mark))
        }
        _ => apply(field, state),
    }
}

/// The run as it was before empty disturbances were refused; an error where it met a refusal.
fn run_before(input: &[u8]) -> Result<Vec<Accepted>, Cause> {
    let mut run = Vec::new();
    let mut state = State::empty();
    let mut place = 0;
    while run.is_empty() || place < input.len() {
        let number = run.len();
        let (field, length) = read_field(&input[place..], number)?;
        let (Finished { set, kept, folds, folded }, mark) = apply_before(&field, &state)?;
        let outcome = match &field {
            Field::Check(region) => Outcome::Verdict { safe: is_safe(&set, region) },
            _ => Outcome::Box(bounding_box(&set)),
        };
        state = State { set: Some(set.clone()), mark };
        place += length;
        run.push(Accepted { number, field, outcome, set, mark, kept, folds, folded });
    }
    Ok(run)
}

/// All that an accepted field has but its number.
fn but_its_number(accepted: &Accepted) -> impl PartialEq + std::fmt::Debug + '_ {
    let Accepted { number: _, field, outcome, set, mark, kept, folds, folded } = accepted;
    (field, outcome, set, mark, kept, (folds.by_exponent, folds.by_size, folds.generators), folded)
}

/// How many fields went from a file that the run before accepts, where all that is promised holds; none for another file.
fn kept_answers(file: &[u8]) -> Option<usize> {
    let before = run_before(file).ok()?;
    let rewritten = rewrite(file);
    let after: Vec<Accepted> = Run::new(&rewritten).map(|item| item.expect("accepted")).collect();
    let empty = |accepted: &&Accepted| is_empty_disturbance(accepted.field.tag() as u8, &accepted.field.encode_body());
    let others: Vec<&Accepted> = before.iter().filter(|accepted| !empty(accepted)).collect();
    assert_eq!(after.len(), others.len());
    for (number, (new, old)) in after.iter().zip(others).enumerate() {
        assert_eq!(new.number, number);
        assert!(old.number >= number);
        assert_eq!(but_its_number(new), but_its_number(old));
    }
    let mut totals = [0; MAX_DIMENSION];
    for accepted in &before {
        totals.iter_mut().zip(&accepted.folded).for_each(|(total, added)| *total += added);
    }
    assert_eq!(totals_line(&rewritten), labelled("folded", &totals));
    Some(before.len() - after.len())
}

#[test]
fn runs_that_accepted_empty_disturbances_keep_their_answers() {
    let mut gone = 0;
    for kind in STORED.iter().filter(|kind| ["unfilled", "unfilled-4097"].contains(&kind.name)) {
        for seed in 0..if kind.long { 2 } else { 120 } {
            gone += kept_answers(&kind.file(seed)).expect("accepted before");
        }
    }
    assert!(gone > 1_000, "{gone}");
    for kind in &VALID {
        for seed in 0..if kind.long { 1 } else { 8 } {
            assert_eq!(kept_answers(&kind.file(seed)), Some(0), "{} {seed}", kind.name);
        }
    }
}

/// An empty disturbance after each field of a valid run in turn, and after all of them.
#[test]
fn a_valid_run_with_empty_disturbances_put_in_comes_back() {
    for kind in VALID.iter().filter(|kind| !kind.long) {
        for seed in 0..4 {
            let file = kind.file(seed);
            let run = run_before(&file).expect("accepted");
            let with = |picked: &dyn Fn(usize) -> bool| -> Vec<u8> {
                let bytes = |accepted: &Accepted| match picked(accepted.number) {
                    true => [accepted.field.encode(), empty(accepted.set.dimension())].concat(),
                    false => accepted.field.encode(),
                };
                run.iter().flat_map(bytes).collect()
            };
            for place in 0..run.len() {
                let one_more = with(&|number| number == place);
                assert!(rewrite(&one_more) == file, "{} {seed}", kind.name);
            }
            let doubled = with(&|_| true);
            assert!(rewrite(&doubled) == file, "{} {seed}", kind.name);
            assert_eq!(kept_answers(&doubled), Some(run.len()), "{} {seed}", kind.name);
        }
    }
}
