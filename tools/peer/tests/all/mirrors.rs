//! Mirror images: both sides of 0 are rounded and folded alike (document 02, A.3).

use crate::common::{assert_mirrored, mirrored, totals_line};
use peer::finish::fold_term;
use peer::run::{Accepted, Run};
use peer::step::round;
use run_file::{Term, SQUARE_UNIT};
use trials::generate::VALID;

#[test]
fn a_number_and_its_negative_round_alike() {
    for eighths in 0..80 {
        for beside in [-1, 0, 1] {
            let v = eighths * SQUARE_UNIT / 8 + beside;
            assert_eq!(round(-v), -round(v), "{v}");
            assert!(2 * (SQUARE_UNIT * round(v) - v).abs() <= SQUARE_UNIT, "{v}");
            assert!(v % SQUARE_UNIT != SQUARE_UNIT / 2 || round(v) % 2 == 0, "{v}");
        }
    }
}

/// From 0 to g, all of which the interval has, and it is at most one longer.
#[test]
fn an_even_term_and_its_negative_fold_alike() {
    for g in 0..9 {
        let folded = |g: i128| {
            let (mut centre, mut radii) = ([0], [0]);
            fold_term(&Term { exponents: vec![2], coefficients: vec![g] }, &mut centre, &mut radii);
            (centre[0], radii[0])
        };
        let (centre, radius) = folded(g);
        assert_eq!(folded(-g), (-centre, radius));
        assert_eq!((centre - radius, centre + radius), (-(g % 2), g));
    }
}

#[test]
fn mirrored_runs_have_mirrored_answers() {
    for kind in VALID.iter().filter(|kind| !kind.long) {
        for seed in 0..20 {
            let run: Vec<Accepted> = Run::new(&kind.file(seed)).map(|item| item.expect("accepted")).collect();
            let bytes: Vec<u8> = run.iter().flat_map(|field| mirrored(&field.field).encode()).collect();
            let image: Vec<Accepted> = Run::new(&bytes).map(|item| item.expect("accepted")).collect();
            assert_mirrored(&run, &image);
            assert_eq!(totals_line(&kind.file(seed)), totals_line(&bytes));
        }
    }
}
