//! The reach of the sorts of logs: they have every reading, word and refusal, and tell wrong programs apart.

use std::collections::BTreeSet;
use std::sync::LazyLock;

use peer::laser::{ends, held, laser, ENTRY};
use peer::run::{Outcome, Run};
use trials::generate::kinds;
use trials::generate::logs::{log, Ends, Sort, SORTS};

const SEEDS: u64 = 24;

/// A run file, what its log is held against, and a log of each sort with what is printed for it.
struct File {
    run: Vec<u8>,
    ends: Vec<Ends>,
    logs: Vec<Log>,
}

struct Log {
    sort: &'static Sort,
    bytes: Vec<u8>,
    printed: String,
}

impl Log {
    /// The place of the refusal.
    fn refused_at(&self) -> Option<usize> {
        let place = self.printed.lines().last().expect("a line").strip_prefix("refused 15 ");
        place.map(|place| place.parse().expect("a place"))
    }
}

/// Of all kinds but the long ones.
static FILES: LazyLock<Vec<File>> = LazyLock::new(|| {
    let runs = (0..SEEDS).flat_map(|seed| kinds().filter(|kind| !kind.long).map(move |kind| kind.file(seed)));
    let file = |(run, seed): (Vec<u8>, u64)| {
        let ends = ends(&run);
        let log = |sort: &'static Sort| {
            let bytes = sort.log(&ends, seed);
            Log { sort, printed: held(&ends, &bytes), bytes }
        };
        File { run, logs: SORTS.iter().map(log).collect(), ends }
    };
    runs.zip(0..).map(file).collect()
});

#[test]
fn right_sorts_are_taken_and_wrong_ones_refused() {
    for File { ends, logs, .. } in FILES.iter() {
        let entries = ends.len();
        for log in logs {
            let last = log.printed.lines().last();
            let place = match log.sort.name {
                "surplus" => Some(ENTRY * entries),
                // Each of these is a surplus one where there should be none.
                "first-byte" | "nan" | "infinite" if entries == 0 => Some(0),
                _ if entries == 0 => None,
                "first-byte" | "nan" | "infinite" => log.refused_at().filter(|place| *place < ENTRY * entries),
                "cut" | "not-there" => Some(log.bytes.len() / ENTRY * ENTRY),
                "empty" => Some(0),
                _ => None,
            };
            assert_eq!(log.refused_at(), place, "{}", log.sort.name);
            assert_eq!(place.is_some(), log.sort.wrong && (entries > 0 || !log.bytes.is_empty()), "{}", log.sort.name);
            match log.sort.name {
                "inside" => assert_eq!(last, Some(format!("{entries} 0 0").as_str())),
                "missing" => assert_eq!(last, Some(format!("0 0 {entries}").as_str())),
                _ => {}
            }
        }
    }
}

#[test]
fn a_log_depends_on_ends_sort_and_seed_alone() {
    let file = FILES.iter().find(|file| file.ends.len() > 10).expect("a file");
    for sort in &SORTS {
        assert_eq!(sort.log(&file.ends, 3), sort.log(&file.ends, 3), "{}", sort.name);
        let different: BTreeSet<Vec<u8>> = (0..10).map(|seed| sort.log(&file.ends, seed)).collect();
        assert_eq!(different.len() > 1, sort.name != "empty", "{}", sort.name);
    }
}

#[test]
fn kinds_and_seeds_have_all_sorts() {
    let names: BTreeSet<&str> = SORTS.iter().map(|sort| sort.name).collect();
    let read_to_the_end: BTreeSet<&str> = ["readings", "ends", "inside", "missing", "surplus"].into();
    assert_eq!(names.len(), SORTS.len());
    let in_two_rounds = (1..=2).flat_map(|seed| kinds().map(move |kind| log(kind, seed, &[]).0.name));
    assert_eq!(in_two_rounds.collect::<BTreeSet<&str>>(), names);
    for kind in kinds() {
        let of_kind: BTreeSet<&str> = (0..100).map(|seed| log(kind, seed, &[]).0.name).collect();
        assert_eq!(of_kind, if kind.long { read_to_the_end.clone() } else { names.clone() }, "{}", kind.name);
    }
}

/// So that a comparison has logs that are longer than what a program may read at once.
#[test]
fn some_logs_are_long() {
    let (kind, seed) = (kinds().find(|kind| kind.name == "most-folded").expect("a kind"), 1);
    let ends = ends(&kind.file(seed));
    let (sort, log) = log(kind, seed, &ends);
    assert!(sort.is_read_to_the_end() && log.len() >= ENTRY * ends.len() && log.len() > 65_536);
}

#[test]
fn each_refusal_is_there() {
    let (mut firsts, mut readings, mut lengths, mut surplus) =
        (BTreeSet::new(), BTreeSet::new(), BTreeSet::new(), BTreeSet::new());
    for (file, log) in FILES.iter().flat_map(|file| file.logs.iter().map(move |log| (file, log))) {
        let Some(place) = log.refused_at() else { continue };
        if place == ENTRY * file.ends.len() {
            surplus.insert(log.bytes.len() - place);
            continue;
        }
        match log.bytes[place..] {
            [1, a, b, c, d, ..] => readings.insert(u32::from_le_bytes([a, b, c, d])),
            [first, _, _, _, _, ..] => firsts.insert(first),
            _ => lengths.insert(log.bytes.len() - place),
        };
    }
    assert!([2, 3, 128, 255].iter().all(|first| firsts.contains(first)) && firsts.len() > 200, "{firsts:?}");
    assert!([0x7f80_0000, 0xff80_0000].iter().all(|infinity| readings.contains(infinity)));
    assert!([0x7f80_0001, 0xff80_0001, 0x7fc0_0000, 0xffc0_0000].iter().all(|nan| readings.contains(nan)));
    assert!(readings.len() > 100, "{}", readings.len());
    assert_eq!(lengths, (0..ENTRY).collect());
    assert_eq!(surplus, (1..=3 * ENTRY).collect());
}

/// Every kind of reading, by where it lies beside the ends, and what may stand behind a 0.
#[test]
fn each_reading_is_there() {
    let overflow = 2f32.powi(116);
    let mut met = BTreeSet::new();
    let mut words = BTreeSet::new();
    for (file, log) in FILES.iter().flat_map(|file| file.logs.iter().map(move |log| (file, log))) {
        words.extend(log.printed.lines().filter(|line| !line.contains(' ')));
        for (entry, (low, high)) in log.bytes.chunks_exact(ENTRY).zip(&file.ends) {
            let reading = f32::from_le_bytes([entry[1], entry[2], entry[3], entry[4]]);
            let [low, high] = [low, high].map(|end| *end as f32 / 4096.0);
            let kinds: &[(&str, bool)] = match entry[0] {
                0 => &[
                    ("missing with zeros", reading.to_bits() == 0),
                    ("missing with a number", reading.is_finite() && reading != 0.0),
                    ("missing with an infinity", reading.is_infinite()),
                    ("missing with a NaN", reading.is_nan()),
                ],
                _ => &[
                    ("the low end", reading == low),
                    ("next below the low end", reading == low.next_down()),
                    ("next above the low end", reading == low.next_up()),
                    ("a grain below", reading == low - 1.0 / 4096.0),
                    ("the high end", reading == high),
                    ("next below the high end", reading == high.next_down()),
                    ("next above the high end", reading == high.next_up()),
                    ("a grain above", reading == high + 1.0 / 4096.0),
                    ("between", low < reading && reading < high),
                    ("below", reading < low),
                    ("above", reading > high),
                    ("zero", reading.to_bits() == 0),
                    ("minus zero", reading.to_bits() == 1 << 31),
                    ("subnormal", reading > 0.0 && reading.is_subnormal()),
                    ("minus subnormal", reading < 0.0 && reading.is_subnormal()),
                    ("subnormal beside an end of 0", reading.is_subnormal() && (low == 0.0 || high == 0.0)),
                    ("an overflow", reading == overflow),
                    ("minus an overflow", reading == -overflow),
                    ("next below an overflow", reading == overflow.next_down()),
                    ("next above minus an overflow", reading == -overflow.next_down()),
                    ("the largest", reading == f32::MAX),
                    ("minus the largest", reading == f32::MIN),
                ],
            };
            met.extend(kinds.iter().filter(|(_, holds)| *holds).map(|(name, _)| *name));
        }
    }
    assert_eq!(words, ["inside", "missing", "outside"].into());
    assert_eq!(met.len(), 4 + 22, "{met:?}");
}

/// How a program may go wrong: which entries it asks for, what it takes, how it compares and what it prints. It reckons
/// in floats.
struct Wrong {
    inside: fn(f32, f32, f32) -> bool,
    takes: fn(u8, f32) -> bool,
    is_missing: fn(u8, f32) -> bool,
    word: fn(usize) -> usize,
    counts: [usize; 3],
    /// By how many bytes a refusal's place is too large.
    late: usize,
    check_has_entry: bool,
    boxes_backwards: bool,
    no_entry_of_refused_run: bool,
    tells_refusal: bool,
    takes_surplus: bool,
    takes_short: bool,
}

const RIGHT: Wrong = Wrong {
    inside: |v, low, high| low <= v && v <= high,
    takes: |first, reading| first == 0 || first == 1 && reading.is_finite(),
    is_missing: |first, _| first == 0,
    word: |word| word,
    counts: [0, 1, 2],
    late: 0,
    check_has_entry: false,
    boxes_backwards: false,
    no_entry_of_refused_run: false,
    tells_refusal: false,
    takes_surplus: false,
    takes_short: false,
};

/// What a run comes to, once for all programs: an answer for each field, and the refusal's line.
struct Answers {
    boxes: Vec<Option<Vec<Ends>>>,
    refusal: Option<String>,
}

impl Answers {
    fn of(run: &[u8]) -> Answers {
        let mut answers = Answers { boxes: Vec::new(), refusal: None };
        for item in Run::new(run) {
            match item.map(|accepted| accepted.outcome) {
                Ok(Outcome::Box(ends)) => answers.boxes.push(Some(ends)),
                Ok(Outcome::Verdict { .. }) => answers.boxes.push(None),
                Err(r) => answers.refusal = Some(format!("{} refused {} {}\n", r.field, r.cause as u8, r.place)),
            }
        }
        answers
    }

    fn ends(&self, wrong: &Wrong) -> Vec<Ends> {
        let (mut all, mut last) = (Vec::new(), Vec::new());
        for field in &self.boxes {
            let asked = match field {
                Some(ends) if wrong.boxes_backwards => ends.iter().rev().copied().collect(),
                Some(ends) => ends.clone(),
                None if wrong.check_has_entry => last,
                None => Vec::new(),
            };
            all.extend(asked);
            last = field.clone().unwrap_or_default();
        }
        let dropped = wrong.no_entry_of_refused_run && self.refusal.is_some();
        if dropped {
            Vec::new()
        } else {
            all
        }
    }
}

fn wrongly(wrong: &Wrong, answers: &Answers, log: &[u8]) -> String {
    let (mut text, mut counts) = (String::new(), [0; 3]);
    let refused = |place: usize| format!("refused 15 {}\n", place + wrong.late);
    let ends = answers.ends(wrong);
    for (i, (low, high)) in ends.iter().enumerate() {
        let place = ENTRY * i;
        let [first, bytes @ ..] = match log.get(place..place + ENTRY) {
            Some(entry) => std::array::from_fn::<u8, ENTRY, _>(|i| entry[i]),
            None if wrong.takes_short => break,
            None => return text + &refused(place),
        };
        let reading = f32::from_le_bytes(bytes);
        if !(wrong.takes)(first, reading) {
            return text + &refused(place);
        }
        let is_inside = (wrong.inside)(4096.0 * reading, *low as f32, *high as f32);
        let word = (wrong.word)(if (wrong.is_missing)(first, reading) { 2 } else { usize::from(!is_inside) });
        text += ["inside\n", "outside\n", "missing\n"][word];
        counts[word] += 1;
    }
    let last = ENTRY * ends.len();
    if last < log.len() && !wrong.takes_surplus {
        return text + &refused(last);
    }
    let told = answers.refusal.as_deref().filter(|_| wrong.tells_refusal).unwrap_or("");
    let [inside, outside, missing] = wrong.counts.map(|place| counts[place]);
    format!("{text}{told}{inside} {outside} {missing}\n")
}

/// So that a comparison notices a wrong program: each differs on several generated files. The one that has nothing wrong
/// agrees on all, so that floats and whole numbers say the same.
#[test]
fn the_logs_tell_wrong_programs_apart() {
    fn flushed(v: f32) -> f32 {
        if v.abs() < 4096.0 * f32::MIN_POSITIVE {
            0.0
        } else {
            v
        }
    }
    let wrong: [(&str, Wrong); 27] = [
        ("the low end is outside", Wrong { inside: |v, low, high| low < v && v <= high, ..RIGHT }),
        ("the high end is outside", Wrong { inside: |v, low, high| low <= v && v < high, ..RIGHT }),
        ("no low end", Wrong { inside: |v, _, high| v <= high, ..RIGHT }),
        ("no high end", Wrong { inside: |v, low, _| low <= v, ..RIGHT }),
        ("not scaled", Wrong { inside: |v, low, high| low <= v / 4096.0 && v / 4096.0 <= high, ..RIGHT }),
        ("cut to a whole number", Wrong { inside: |v, low, high| low <= v.trunc() && v.trunc() <= high, ..RIGHT }),
        ("rounded", Wrong { inside: |v, low, high| low <= v.round() && v.round() <= high, ..RIGHT }),
        ("without its sign", Wrong { inside: |v, low, high| low <= v.abs() && v.abs() <= high, ..RIGHT }),
        ("an overflow is inside", Wrong { inside: |v, l, h| v.is_infinite() || l <= v && v <= h, ..RIGHT }),
        ("-0 is below 0", Wrong { inside: |v, l, h| l <= v && v <= h && v.to_bits() != 1 << 31, ..RIGHT }),
        ("subnormals are 0", Wrong { inside: |v, l, h| l <= flushed(v) && flushed(v) <= h, ..RIGHT }),
        ("missing is outside", Wrong { word: |word| word.min(1), ..RIGHT }),
        ("inside and outside exchanged", Wrong { word: |word| [1, 0, 2][word], ..RIGHT }),
        ("the first two counts exchanged", Wrong { counts: [1, 0, 2], ..RIGHT }),
        ("the last two counts exchanged", Wrong { counts: [0, 2, 1], ..RIGHT }),
        ("an infinity is taken", Wrong { takes: |f, r| f == 0 || f == 1 && !r.is_nan(), ..RIGHT }),
        ("a NaN is taken", Wrong { takes: |f, r| f == 0 || f == 1 && !r.is_infinite(), ..RIGHT }),
        ("a NaN is missing", Wrong { takes: |f, _| f < 2, is_missing: |f, r| f == 0 || r.is_nan(), ..RIGHT }),
        ("any first byte is taken", Wrong { takes: |f, r| f == 0 || r.is_finite(), ..RIGHT }),
        ("a missing one has to be finite", Wrong { takes: |f, r| f < 2 && r.is_finite(), ..RIGHT }),
        ("the byte after the first", Wrong { late: 1, ..RIGHT }),
        ("the byte after the entry", Wrong { late: ENTRY, ..RIGHT }),
        ("a check has entries", Wrong { check_has_entry: true, ..RIGHT }),
        ("coordinates backwards", Wrong { boxes_backwards: true, ..RIGHT }),
        ("no entry of a refused run", Wrong { no_entry_of_refused_run: true, ..RIGHT }),
        ("the run's refusal is told", Wrong { tells_refusal: true, ..RIGHT }),
        ("what is surplus or not there is passed by", Wrong { takes_surplus: true, takes_short: true, ..RIGHT }),
    ];
    let answers: Vec<Answers> = FILES.iter().map(|file| Answers::of(&file.run)).collect();
    let differing = |wrong: &Wrong| {
        let pairs =
            FILES.iter().zip(&answers).flat_map(|(file, answers)| file.logs.iter().map(move |log| (log, answers)));
        pairs.filter(|(log, answers)| wrongly(wrong, answers, &log.bytes) != log.printed).count()
    };
    assert_eq!(differing(&RIGHT), 0);
    for (name, wrong) in wrong {
        let different = differing(&wrong);
        assert!(different > 20, "{name}: {different}");
    }
}

#[test]
fn a_log_is_held_against_the_ends_of_the_run() {
    for file in FILES.iter().step_by(10) {
        let log = &file.logs[0];
        assert_eq!(laser(&file.run, &log.bytes), log.printed);
    }
}
