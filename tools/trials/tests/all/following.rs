//! Sampled motions stay where the run says; and where it says something wrong, that is caught.

use crate::common::{accepted, encoded};
use peer::finish::Finished;
use peer::run::{Accepted, Outcome, Run, FIRST_MARK};
use peer::set::{RadiusParts, Set};
use peer::step::image;
use peer::sums::tied_sum;
use run_file::{Field, RangedStep, Term};
use trials::follow::{follow, Escape, Manner, Motion};
use trials::generate::VALID;

#[test]
fn no_motion_escapes_from_generated_runs() {
    for kind in &VALID {
        for seed in 0..if kind.long { 1 } else { 12 } {
            let report = follow(&kind.file(seed), 8, seed);
            assert!(!report.escaped, "{} {seed}\n{}", kind.name, report.text);
        }
    }
}

/// Follows one motion and gives its first escape from what `answer` makes of each field.
fn first_escape(bytes: &[u8], manner: Manner, answer: impl Fn(&mut Accepted)) -> Option<(usize, Escape)> {
    let mut motion = Motion::new(manner, 1);
    for item in Run::new(bytes) {
        let mut accepted = item.expect("accepted");
        answer(&mut accepted);
        motion.accept(&accepted);
        if let Some(escape) = motion.escape(&accepted.set, &accepted.outcome, &accepted.field) {
            return Some((accepted.number, escape));
        }
    }
    None
}

fn set_radius(set: &mut Set, i: usize, radius: i128) {
    set.radius_parts[i] = RadiusParts { given: radius, ..RadiusParts::default() };
}

fn plan() -> Vec<u8> {
    encoded(
        "start 2\nidentifiers 1\nterm 1 : 900 700\ngenerator 30 -20\nradii 5 6\n\
         step 2 from 2\nA 3000 500 / -500 2000\nQ 1 : 10 0 / 0 0\n\
         check 2\nhalfspace 4096 0 : 0",
    )
}

#[test]
fn right_answers_are_not_faulted() {
    for manner in [Manner::High, Manner::Low, Manner::Ends, Manner::Any] {
        assert_eq!(first_escape(&plan(), manner, |_| ()), None);
    }
}

#[test]
fn a_narrowed_box_is_caught() {
    let narrowed = first_escape(&plan(), Manner::High, |accepted| {
        if let (1, Outcome::Box(ends)) = (accepted.number, &mut accepted.outcome) {
            ends[0].1 -= 20;
        }
    });
    assert_eq!(narrowed, Some((1, Escape::Box(1))));
}

#[test]
fn a_narrowed_set_is_caught() {
    let narrowed = first_escape(&plan(), Manner::High, |accepted| set_radius(&mut accepted.set, 1, 1));
    assert_eq!(narrowed, Some((0, Escape::Set)));
}

/// The box alone would not show this one: the coefficient has the wrong sign.
#[test]
fn a_set_at_other_factor_values_is_caught() {
    let turned = first_escape(&plan(), Manner::High, |accepted| {
        accepted.set.terms[0].coefficients.iter_mut().for_each(|g| *g = -*g);
    });
    assert_eq!(turned, Some((0, Escape::Set)));
}

#[test]
fn a_wrong_generator_is_caught() {
    let turned = first_escape(&plan(), Manner::High, |accepted| accepted.set.generators[0][0] *= -1);
    assert_eq!(turned, Some((0, Escape::Set)));
}

#[test]
fn a_wrong_verdict_is_caught() {
    let wrong = first_escape(&plan(), Manner::Low, |accepted| {
        if let Outcome::Verdict { safe } = &mut accepted.outcome {
            *safe = true;
        }
    });
    assert_eq!(wrong, Some((2, Escape::Safe)));
}

/// An independent sum that keeps the body's identifiers cancels what does not cancel.
#[test]
fn an_independent_sum_done_as_a_tied_one_is_caught() {
    let bytes = encoded("start 1\nidentifiers 1\nterm 1 : 9\nindependent 1\nidentifiers 1\nterm 1 : -9");
    let escapes = (0..8).filter(|seed| {
        let mut motion = Motion::new(Manner::Any, *seed);
        let mut before = None;
        Run::new(&bytes).any(|item| {
            let mut accepted = item.expect("accepted");
            if let (Field::Independent(body), Some(set)) = (&accepted.field, &before) {
                let Finished { set, kept, .. } = tied_sum(set, &Set::from(body)).expect("few factors");
                (accepted.set, accepted.kept) = (set, kept);
            }
            before = Some(accepted.set.clone());
            motion.accept(&accepted);
            motion.escape(&accepted.set, &accepted.outcome, &accepted.field).is_some()
        })
    });
    assert!(escapes.count() > 4);
}

/// From 10 and a body's 20 the one end leaves the motion where it is and the other takes it to the body's point.
#[test]
fn a_hull_takes_a_motion_as_far_as_it_picks() {
    let place = |manner| {
        let mut motion = Motion::new(manner, 1);
        for field in accepted("start 1\ncentre 10\nhull 1\ncentre 20") {
            motion.accept(&field);
        }
        motion.place[0].approximately()
    };
    assert_eq!((place(Manner::High), place(Manner::Low)), (10.0, 20.0));
}

/// The first escape from what `wrong` makes of the set that the hull of the plan leaves.
fn wrong_hull(plan: &str, manner: Manner, wrong: impl Fn(&mut Set)) -> Option<(usize, Escape)> {
    assert_eq!(first_escape(&encoded(plan), manner, |_| ()), None);
    first_escape(&encoded(plan), manner, |accepted| {
        if let Field::Hull(_) = accepted.field {
            wrong(&mut accepted.set);
        }
    })
}

#[test]
fn a_hull_blended_the_other_way_is_caught() {
    let plan = "start 1\ncentre 10\nhull 1\ncentre 20";
    let turned = wrong_hull(plan, Manner::Low, |set| set.terms[0].coefficients[0] *= -1);
    assert_eq!(turned, Some((1, Escape::Set)));
}

/// The generator's number is the current set's own and can't stand for the body's radius.
#[test]
fn a_hull_with_the_smaller_independent_part_is_caught() {
    let plan = "start 1\ngenerator 3\nhull 1\nradii 9";
    assert_eq!(wrong_hull(plan, Manner::Low, |set| set_radius(set, 0, 3)), Some((1, Escape::Set)));
}

/// a/2 is taken for 0, twice: a motion at 1 is 1 away from all that is left.
#[test]
fn a_hull_whose_roundings_are_not_counted_is_caught() {
    let plan = "start 1\nidentifiers 1\nterm 1 : 1\nhull 1";
    assert_eq!(wrong_hull(plan, Manner::High, |set| set_radius(set, 0, 0)), Some((1, Escape::Set)));
}

/// With the number of the hull's factor given again, the sum's own factor would take the hull's value.
#[test]
fn a_hulls_factor_given_again_is_caught() {
    let plan = "start 1\nhull 1\ncentre 20\nindependent 1\nidentifiers 1\nterm 1 : 20";
    let escapes = (1..9).filter(|seed| {
        let mut motion = Motion::new(Manner::Any, *seed);
        accepted(plan).into_iter().any(|mut field| {
            if field.number == 2 {
                let sum: i128 = field.set.terms.iter().map(|term| term.coefficients[0]).sum();
                field.set.terms = vec![Term { exponents: vec![1], coefficients: vec![sum] }];
                field.set.identifiers = vec![FIRST_MARK];
            }
            motion.accept(&field);
            motion.escape(&field.set, &field.outcome, &field.field).is_some()
        })
    });
    assert!(escapes.count() > 2);
}

/// Where one motion is after each field of the plan, in units of 1.0.
fn places(plan: &str, manner: Manner, seed: u64) -> Vec<f64> {
    let mut motion = Motion::new(manner, seed);
    let place = |field: Accepted| {
        motion.accept(&field);
        motion.place[0].approximately() / 4096.0
    };
    accepted(plan).into_iter().map(place).collect()
}

/// From 1 to 1 1/2 or 1/2 with an entry of 1 ± 1/2; from -1 the higher end of the coefficient leads down.
#[test]
fn a_ranged_step_takes_a_motion_as_far_as_it_picks() {
    let place = |centre: &str, manner| {
        places(&format!("start 1\ncentre {centre}\nranged 1 from 1\nA 4096\nA+- 2048"), manner, 1)[1]
    };
    assert_eq!((place("4096", Manner::High), place("4096", Manner::Low)), (1.5, 0.5));
    assert_eq!((place("-4096", Manner::High), place("-4096", Manner::Low)), (-0.5, -1.5));
    let place =
        |manner| places("start 1\ncentre 8192\nranged 1 from 1\nc 4096\nQ 1 : -2048\nQ+- 1 : 1024", manner, 1)[1];
    assert_eq!((place(Manner::High), place(Manner::Low)), (0.0, -2.0));
}

/// Coefficients at both ends and between them, and others in the second field than in the first.
#[test]
fn coefficients_are_picked_anew_in_each_field() {
    let plan = "start 1\ncentre 4096\nranged 1 from 1\nA 4096\nA+- 2048\nranged 1 from 1\nA 4096\nA+- 2048";
    let picked = |manner| {
        let coefficients = (0..40).map(|seed| places(plan, manner, seed));
        coefficients.map(|places| (places[1] / places[0], places[2] / places[1])).collect::<Vec<_>>()
    };
    let ends = picked(Manner::Ends);
    assert!(ends.iter().all(|(first, second)| [first, second].iter().all(|c| [0.5, 1.5].contains(*c))));
    for pair in [(0.5, 0.5), (0.5, 1.5), (1.5, 0.5), (1.5, 1.5)] {
        assert!(ends.contains(&pair), "{pair:?}");
    }
    let any = picked(Manner::Any);
    assert!(any.iter().all(|(first, second)| [first, second].iter().all(|c| (0.5..=1.5).contains(*c))));
    assert!(any.iter().any(|(c, _)| *c == 0.5) && any.iter().any(|(c, _)| *c == 1.5));
    assert!(any.iter().filter(|(c, _)| 0.5 < *c && *c < 1.5).count() > 10);
    assert!(any.iter().filter(|(first, second)| first != second).count() > 20);
}

/// The first escape from what a ranged step leaves if its radius has only so much, in units of 1.0.
fn narrow_ranged(plan: &str, manner: Manner, radius: i128) -> Option<(usize, Escape)> {
    assert_eq!(first_escape(&encoded(plan), manner, |_| ()), None);
    first_escape(&encoded(plan), manner, |accepted| {
        if let Field::Ranged(_) = accepted.field {
            set_radius(&mut accepted.set, 0, radius * 4096);
        }
    })
}

/// Each of centre, term, generator and radius reaches 1; the gain is 4, and 3 is what is left if one does not count.
#[test]
fn a_gain_without_a_part_of_the_span_is_caught() {
    let start = "start 1\nidentifiers 1\ncentre 4096\nterm 1 : 4096\ngenerator 4096\nradii 4096\n";
    let plan = format!("{start}ranged 1 from 1\nA+- 4096");
    assert_eq!(accepted(&plan)[1].set.radii(), [4 * 4096]);
    assert_eq!(narrow_ranged(&plan, Manner::High, 3), Some((1, Escape::Set)));
    let turned = plan.replace("centre 4096", "centre -4096");
    assert_eq!(narrow_ranged(&turned, Manner::Low, 3), Some((1, Escape::Set)));
}

/// Radii of 1 and 2 and half-widths of 1: all four products are 9.
#[test]
fn a_gain_without_one_of_the_products_is_caught() {
    let plan = "start 2\nradii 4096 8192\nranged 1 from 2\nQ+- 1 : 4096 4096 / 4096 4096";
    assert_eq!(accepted(plan)[1].set.radii(), [9 * 4096]);
    for without in [1, 2, 4] {
        assert_eq!(narrow_ranged(plan, Manner::High, 9 - without), Some((1, Escape::Set)));
    }
}

/// An unsafe region that only a motion with a coefficient at its end reaches.
#[test]
fn a_verdict_that_takes_the_entries_for_exact_is_caught() {
    let plan = "start 1\ncentre 4096\nranged 1 from 1\nA 4096\nA+- 2048\ncheck 1\nhalfspace 4096 : 8388608";
    assert_eq!(first_escape(&encoded(plan), Manner::Low, |_| ()), None);
    let wrong = first_escape(&encoded(plan), Manner::Low, |accepted| {
        if let Outcome::Verdict { safe } = &mut accepted.outcome {
            *safe = true;
        }
    });
    assert_eq!(wrong, Some((2, Escape::Safe)));
}

/// Taken for plain steps, the ranged steps of most generated files lose a motion.
#[test]
fn generated_ranges_show_a_missing_gain() {
    let ranges = VALID.iter().find(|kind| kind.name == "ranges").expect("a kind");
    let caught = (0..20).filter(|seed: &u64| {
        [Manner::High, Manner::Low, Manner::Ends].into_iter().any(|manner| {
            let mut before = Set::default();
            let mut motion = Motion::new(manner, *seed);
            Run::new(&ranges.file(*seed)).any(|item| {
                let mut accepted = item.expect("accepted");
                let set = accepted.set.clone();
                if let Field::Ranged(RangedStep { step, .. }) = &accepted.field {
                    accepted.set = image(step, &step.exactly(), &before).set;
                }
                before = set;
                motion.accept(&accepted);
                motion.escape(&accepted.set, &accepted.outcome, &accepted.field).is_some()
            })
        })
    });
    let caught = caught.count();
    assert!(caught > 10, "{caught}");
}

#[test]
fn a_motion_whose_numbers_grow_too_long_is_said_to_stop() {
    let start = "start 1\nidentifiers 1\nterm 1 : 4095\n";
    let steps = |count| encoded(&format!("{start}repeat {count} {{\nstep 1 from 1\nA 1001\nQ 1 : 1003\n}}"));
    let stop = "motion 0 (High): followed to field 9, over 8192 bits long there\n";
    let end = |whole, last| format!("no escape among 1 motions, {whole} of them followed to the last field, {last}\n");
    assert_eq!(follow(&steps(12), 1, 1).text, format!("{stop}{}", end(0, 12)));
    assert_eq!(follow(&steps(9), 1, 1).text, end(1, 9));
}

#[test]
fn a_refused_field_ends_the_following() {
    let text = follow(&encoded("start 1\ncentre 5\ndisturbance 2"), 4, 1).text;
    let end = "no escape among 4 motions, 4 of them followed to the last field, 0\n";
    assert_eq!(text, format!("field 1 is refused with 5\n{end}"));
    assert_eq!(follow(&[], 4, 1).text, "field 0 is refused with 1\nno field to follow\n");
}
