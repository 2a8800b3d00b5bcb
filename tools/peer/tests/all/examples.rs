//! The examples: each plan's run file and what `motion` prints for it stand beside it.

use std::path::{Path, PathBuf};

use crate::common::{assert_mirrored, totals_line, unrounded};
use peer::laser::laser;
use peer::rewrite::rewrite;
use peer::run::{Accepted, Cause, Outcome, Refusal, Run};
use peer::set::is_even;
use peer::text::motion;
use plan::encode::encode;
use plan::log::{log, show_log};
use run_file::{Field, HalfWidths, Matrix, RangedStep, Tag, Term, SQUARE_UNIT};
use trials::follow::follow;

fn folder() -> PathBuf {
    Path::new(env!("CARGO_MANIFEST_DIR")).join("../../examples")
}

fn text(name: &str) -> String {
    std::fs::read_to_string(folder().join(name)).expect(name)
}

fn bytes(name: &str) -> Vec<u8> {
    std::fs::read(folder().join(name)).expect(name)
}

/// A plan's run file; its numbers are in the user's unit unless it says otherwise.
fn encoded(plan: &str) -> Vec<u8> {
    encode(plan).expect("a plan").bytes
}

fn names() -> Vec<String> {
    let entries = std::fs::read_dir(folder()).expect("examples");
    let names = entries.map(|entry| entry.expect("an entry").file_name().to_string_lossy().into_owned());
    names.filter_map(|name| name.strip_suffix(".plan").map(str::to_string)).collect()
}

#[test]
fn run_files_are_their_plans_and_print_what_is_expected() {
    let names = names();
    assert_eq!(names.len(), 12, "{names:?}");
    for name in names {
        let run = bytes(&format!("{name}.run"));
        assert!(encoded(&text(&format!("{name}.plan"))) == run, "{name}");
        assert!(motion(&run) == text(&format!("{name}.expected")), "{name}");
    }
}

/// The readings of `first` as text, as a log and as held against its boxes.
#[test]
fn the_log_is_its_readings_and_is_held_as_stated() {
    let bytes_of_log = bytes("first.log");
    assert_eq!(log(&text("first.readings")).expect("a text"), bytes_of_log);
    assert_eq!(log(&show_log(&bytes_of_log)).expect("a text"), bytes_of_log);
    let held = text("first.held");
    assert_eq!(laser(&bytes("first.run"), &bytes_of_log), held);
    let lines: Vec<&str> = held.lines().collect();
    assert_eq!((lines.len(), lines[16]), (16 + 1, "7 1 8"));
    assert_eq!((lines[2], lines[14]), ("inside", "outside"), "on the end of field 1, and above the box of field 9");
}

/// What rewriting makes of an example's run file.
fn rewritten(name: &str) -> Vec<u8> {
    rewrite(&bytes(&format!("{name}.run")))
}

#[test]
fn no_motion_escapes() {
    for name in names() {
        let report = follow(&rewritten(&name), 8, 7);
        assert!(
            report.text.starts_with("no escape among 8 motions, 8 of them followed to the last field"),
            "{name}\n{}",
            report.text
        );
    }
}

#[test]
fn rewriting_changes_unfilled_alone() {
    for name in names() {
        let changed = if name == "unfilled" { "rewritten" } else { "run" };
        assert!(rewritten(&name) == bytes(&format!("{name}.{changed}")), "{name}");
    }
}

/// Refused at the first of its empty disturbances; without them as its plan says.
#[test]
fn unfilled_is_accepted_without_its_empty_disturbances() {
    let run = bytes("unfilled.run");
    let items: Vec<_> = Run::new(&run).collect();
    assert!(matches!(items.last(), Some(Err(Refusal { field: 4, cause: Cause::EmptyDisturbance, place: 176 }))));
    assert_eq!(run.len() - rewritten("unfilled").len(), 3 * 12);
    assert_eq!(tally(&rewritten("unfilled")), (3, 2, vec![true; 2]));
    let after: Vec<_> = Run::new(&rewritten("unfilled")).map(|item| item.expect("accepted")).collect();
    assert!(after.len() == 10 && after[9].field.tag() == Tag::Check);
    let plan = text("unfilled.plan");
    assert_eq!(plan.matches("radii 0 0\n").count(), 2, "the third is left out at the end");
    let filled = plan.replace("radii 0 0\n", "radii 0 1/4096\n") + "radii 1/4096 0";
    assert!(Run::new(&encoded(&filled)).all(|item| item.is_ok()), "with radii it is accepted too");
}

/// How many steps, plain or ranged, and disturbances, and the verdicts in order.
fn tally(run: &[u8]) -> (usize, usize, Vec<bool>) {
    let accepted: Vec<_> = Run::new(run).map(|item| item.expect("accepted")).collect();
    let count = |tag| accepted.iter().filter(|a| a.field.tag() == tag).count();
    let verdict = |outcome: &Outcome| match outcome {
        Outcome::Verdict { safe } => Some(*safe),
        Outcome::Box(_) => None,
    };
    (
        count(Tag::Step) + count(Tag::Ranged),
        count(Tag::Disturbance),
        accepted.iter().filter_map(|a| verdict(&a.outcome)).collect(),
    )
}

#[test]
fn absorber_is_safe_and_the_softer_one_is_not_shown_to_be() {
    let (steps, disturbances, verdicts) = tally(&bytes("absorber.run"));
    assert_eq!((steps, disturbances), (512, 512));
    assert!(verdicts.len() == 96 && verdicts.iter().all(|safe| *safe));
    let (steps, disturbances, verdicts) = tally(&bytes("absorber-soft.run"));
    assert_eq!((steps, disturbances), (512, 512));
    assert!(verdicts.len() == 96 && !verdicts[0] && verdicts[1..].iter().all(|safe| *safe));
}

/// After each hull the region between the two outcomes is the one that isn't safe any more.
#[test]
fn latch_is_safe_whether_it_holds_or_not() {
    let run = bytes("latch.run");
    let accepted: Vec<_> = Run::new(&run).map(|item| item.expect("accepted")).collect();
    let tags: Vec<u8> = accepted.iter().map(|a| a.field.tag() as u8).filter(|tag| [7, 8].contains(tag)).collect();
    assert_eq!(tags, [7, 8, 7, 7, 7].repeat(4));
    let (steps, disturbances, verdicts) = tally(&bytes("latch.run"));
    assert_eq!((steps, disturbances), (52, 52));
    assert_eq!(verdicts, [true, false, true, true].repeat(4));
}

/// Safe within 5 per cent; with half-widths twice as large the outer end stop can't be ruled out after the first
/// transient.
#[test]
fn suspension_is_safe_within_its_range_and_not_shown_to_be_within_twice_that() {
    let run = bytes("suspension.run");
    let (steps, disturbances, verdicts) = tally(&run);
    assert_eq!((steps, disturbances), (64, 64));
    assert_eq!(verdicts, [true; 8]);
    let twice = with_twice_the_half_widths(&run);
    assert!(twice != run);
    assert_eq!(tally(&twice).2, [vec![false], vec![true; 7]].concat());
}

fn with_twice_the_half_widths(run: &[u8]) -> Vec<u8> {
    let twice = |matrix: &Matrix| matrix.iter().map(|row| row.iter().map(|width| 2 * width).collect()).collect();
    let field = |accepted: Accepted| match accepted.field {
        Field::Ranged(RangedStep { step, half_widths: HalfWidths { matrix, forms } }) => {
            let half_widths = HalfWidths { matrix: twice(&matrix), forms: forms.iter().map(twice).collect() };
            Field::Ranged(RangedStep { step, half_widths })
        }
        other => other,
    };
    Run::new(run).flat_map(|item| field(item.expect("accepted")).encode()).collect()
}

/// What a rule that prefers one direction would not mirror is there: exact halves with an even and with an odd neighbour
/// below, and even powers with odd coefficients below 0 that a reduction folds.
#[test]
fn right_is_the_mirror_image_of_left() {
    let run = |name: &str| Run::new(&bytes(name)).map(|item| item.expect("accepted")).collect::<Vec<Accepted>>();
    let (left, right) = (run("left.run"), run("right.run"));
    assert_mirrored(&left, &right);
    assert_eq!(tally(&bytes("left.run")), (4, 2, vec![true; 2]));

    let (mut below_even, mut below_odd, mut odd_folds) = (0, 0, 0);
    for pair in left.windows(2) {
        let (set, after) = (&pair[0].set, &pair[1].set);
        match &pair[1].field {
            Field::Step(step) | Field::Ranged(RangedStep { step, .. }) => {
                let halves =
                    unrounded(step, set).into_iter().flatten().filter(|v| v.rem_euclid(SQUARE_UNIT) == SQUARE_UNIT / 2);
                let (odd, even): (Vec<i128>, Vec<i128>) = halves.partition(|v| v.div_euclid(SQUARE_UNIT) % 2 != 0);
                (below_even, below_odd) = (below_even + even.len(), below_odd + odd.len());
            }
            Field::Reduce(_) => {
                let stays = |term: &Term| after.terms.iter().any(|kept| kept.coefficients == term.coefficients);
                let folded = set.terms.iter().filter(|term| is_even(term) && !stays(term));
                odd_folds += folded.filter(|term| term.coefficients.iter().any(|g| *g < 0 && g % 2 != 0)).count();
            }
            _ => {}
        }
    }
    assert!(below_even > 1 && below_odd > 1 && odd_folds > 1, "{below_even} {below_odd} {odd_folds}");
}

/// What the reductions of `left` cost, and what larger limits gain.
#[test]
fn left_is_narrower_where_less_is_folded() {
    let travel = |accepted: &Accepted| match &accepted.outcome {
        Outcome::Box(ends) => ends[0],
        Outcome::Verdict { .. } => panic!("a check"),
    };
    let plan = text("left.plan");
    let roomier = plan.replace("\nreduce 4 0", "\nreduce 8 0");
    let run = |plan: &str| Run::new(&encoded(plan)).map(|item| item.expect("accepted")).collect::<Vec<Accepted>>();
    let folded: Vec<i128> = run(&plan).iter().map(|field| field.folded[0]).filter(|added| *added > 0).collect();
    assert_eq!(folded, [94, 1079, 258]);
    assert_eq!((travel(&run(&plan)[12]), travel(&run(&roomier)[12])), ((-4766, 28_670), (-4766 + 260, 28_670 - 260)));
    assert_eq!(totals_line(&encoded(&plan)), "folded 1431 4397 0 0 0 0");
    assert_eq!(totals_line(&encoded(&roomier)), "folded 224 719 0 0 0 0");
}

/// The linear part x'' = -share·x - 1.397·x' solved over one sample, the unit of time, by the exponential's series;
/// the share is that of the nominal stiffness.
fn solved(share: f64) -> [[f64; 2]; 2] {
    let rate = [[0.0, 1.0], [-share, -1.397]];
    let times = |a: [[f64; 2]; 2], b: [[f64; 2]; 2]| {
        std::array::from_fn(|i| std::array::from_fn(|j| a[i][0] * b[0][j] + a[i][1] * b[1][j]))
    };
    let (mut power, mut sum) = ([[1.0, 0.0], [0.0, 1.0]], [[1.0, 0.0], [0.0, 1.0]]);
    for k in 1..30 {
        power = times(power, rate).map(|row: [f64; 2]| row.map(|v| v / f64::from(k)));
        sum = std::array::from_fn(|i| std::array::from_fn(|j| sum[i][j] + power[i][j]));
    }
    sum
}

#[test]
fn suspension_has_the_step_of_every_stiffness_within_5_per_cent() {
    let run = bytes("suspension.run");
    let ranged = Run::new(&run).find_map(|item| match item.expect("accepted").field {
        Field::Ranged(ranged) => Some(ranged),
        _ => None,
    });
    let RangedStep { step, half_widths } = ranged.expect("a ranged step");
    let within = |v: f64, entry: i128, width: i128| (4096.0 * v - entry as f64).abs() <= width as f64;
    for percent in 95..=105 {
        let solved = solved(f64::from(percent) / 100.0);
        // The force -share·x²/200, held over the sample, moves travel and speed as a shift of the working point would.
        let quadratic = [(solved[0][0] - 1.0) / 200.0, solved[1][0] / 200.0];
        for i in 0..2 {
            let entries = solved[i].iter().zip(&step.matrix[i]).zip(&half_widths.matrix[i]);
            for ((v, entry), width) in entries {
                assert!(within(*v, *entry, *width), "{percent} per cent, A: {v} and {entry}");
            }
            assert!(within(quadratic[i], step.forms[i][0][0], half_widths.forms[i][0][0]), "{percent} per cent, Q");
        }
    }
}
