//! The workloads: accepted to their end, and as demanding as they are said to be.

use peer::run::{Accepted, Outcome, Run};
use run_file::{Field, RangedStep, Tag, MAX_FIELDS, MAX_TERMS};
use trials::workload::{Workload, WORKLOADS};

/// For each step, how many factors, terms and generators it is made on, and how many terms it folds.
type Steps = Vec<[usize; 4]>;

fn accepted(name: &str) -> Vec<Accepted> {
    let workload: &Workload = WORKLOADS.iter().find(|workload| workload.name == name).expect("a workload");
    Run::new(&workload.file()).map(|item| item.expect("accepted")).collect()
}

fn steps(name: &str) -> Steps {
    let fields = accepted(name);
    assert_eq!(fields.len(), 1 + MAX_FIELDS, "{name}");
    let pairs = fields.windows(2).filter(|pair| [Tag::Step, Tag::Ranged].contains(&pair[1].field.tag()));
    pairs
        .map(|pair| {
            let (set, folds) = (&pair[0].set, pair[1].folds);
            [set.identifiers.len(), set.terms.len(), set.generators.len(), folds.by_exponent + folds.by_size]
        })
        .collect()
}

#[test]
fn oscillator_steps_are_small_and_many() {
    let steps = steps("oscillator");
    assert!(steps.len() == 3 * MAX_FIELDS / 4 && steps.iter().all(|s| s[0] == 2 && (2..=12).contains(&s[1])));
}

#[test]
fn dense_linear_ranged_and_hardest_steps_are_on_full_sets() {
    let full = |steps: &Steps| steps.iter().filter(|s| s[..3] == [12, 40, 24]).count();
    for name in ["dense", "linear", "ranges"] {
        assert_eq!(full(&steps(name)), 7 * MAX_FIELDS / 8, "{name}");
    }
    let hardest = steps("hardest");
    assert_eq!(full(&hardest), MAX_FIELDS / 4);
    assert!(hardest.iter().filter(|s| s[3] > 800).count() == MAX_FIELDS / 4, "all but a few products fold");
}

#[test]
fn sums_have_every_kind_of_field_and_both_verdicts() {
    let fields = accepted("sums");
    let count = |tag| fields.iter().filter(|field| field.field.tag() as u8 == tag).count();
    assert_eq!([2, 4, 5, 6, 7].map(count), [512, 512, 1024, 512, 1536]);
    let safe = fields.iter().filter(|field| field.outcome == Outcome::Verdict { safe: true }).count();
    assert!((500..1_000).contains(&safe), "{safe}");
}

#[test]
fn hulls_are_half_of_the_fields_and_most_have_161_terms() {
    let fields = accepted("hulls");
    assert_eq!(fields.len(), 1 + MAX_FIELDS);
    let hulls: Vec<&[Accepted]> = fields.windows(2).filter(|pair| pair[1].field.tag() == Tag::Hull).collect();
    assert_eq!(hulls.len(), MAX_FIELDS / 2);
    let full = |pair: &&&[Accepted]| pair[0].set.terms.len() == MAX_TERMS && pair[1].folds.by_size > 60;
    assert!(4 * hulls.iter().filter(full).count() >= 3 * hulls.len());
}

#[test]
fn ranges_have_no_plain_step_and_no_entry_without_a_half_width() {
    let fields = accepted("ranges");
    assert_eq!(fields.iter().filter(|field| field.field.tag() == Tag::Step).count(), 0);
    let widths = |field: &Accepted| match &field.field {
        Field::Ranged(RangedStep { half_widths, .. }) => {
            Some(half_widths.matrix.iter().chain(half_widths.forms.iter().flatten()).flatten().all(|width| *width > 0))
        }
        _ => None,
    };
    assert_eq!(fields.iter().filter_map(widths).collect::<Vec<bool>>(), [true].repeat(7 * MAX_FIELDS / 8));
}

/// The steps of a workload on sets of so many terms; some are on none.
fn steps_on(name: &str, terms: usize) -> Steps {
    let (on_terms, on_none): (Steps, Steps) = steps(name).iter().partition(|s| s[1] > 0);
    assert!(on_terms.iter().all(|s| s[1] == terms) && 8 * on_none.len() < on_terms.len(), "{name}");
    on_terms
}

#[test]
fn growth_is_measured_on_sets_of_so_many_terms() {
    for terms in [2, 5, 10, 20, 40] {
        let steps = steps_on(&format!("terms-{terms}"), terms);
        let folded: usize = steps.iter().map(|s| s[3]).sum();
        assert!(10 * folded > 9 * steps.len() * terms * (terms + 1) / 2, "{terms}: nearly every product folds");
    }
    steps_on("across-2", 20);
    steps_on("across-6", 20);
}
