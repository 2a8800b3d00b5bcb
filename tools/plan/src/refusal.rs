//! What a run would refuse of a file: where, with which number, and why, in words.

use peer::run::{advance, taken_dimension, Cause, Refusal, Run, State, FIRST_MARK};
use run_file::{whole, Field, Tag, MAX_FACTORS, MAX_FIELDS, SPAN_LIMIT};

use crate::block;
use crate::encode::Encoded;
use crate::fault::{reach, words, Fault, Names};

/// The refusal that ends a run, and the two lines that tell it: what is wrong and where, and how `motion` will put it.
pub struct Told {
    pub refusal: Refusal,
    pub lines: String,
}

/// What a run refuses of these bytes, if it refuses anything; with the lines of the plan that they come from.
pub fn refusal(bytes: &[u8], plan: Option<&Encoded>) -> Option<Told> {
    let mut before = Before { state: State { set: None, mark: FIRST_MARK }, shaped: 0, shaped_at: 0 };
    let mut place = 0;
    for item in Run::new(bytes) {
        match item {
            Ok(accepted) => {
                if before.state.set.as_ref().map(|set| set.dimension()) != Some(accepted.set.dimension()) {
                    (before.shaped, before.shaped_at) = (accepted.number, place);
                }
                before.state = State { set: Some(accepted.set), mark: accepted.mark };
                place += accepted.field.encode().len();
            }
            Err(refusal) => return Some(told(bytes, refusal, &before, plan)),
        }
    }
    None
}

/// What stands before a refused field, and the field that gave the set its dimension.
struct Before {
    state: State,
    shaped: usize,
    shaped_at: usize,
}

fn told(bytes: &[u8], refusal: Refusal, before: &Before, plan: Option<&Encoded>) -> Told {
    let names = |field: usize, byte: usize| Names { field, placed: plan.and_then(|plan| plan.at(byte)) };
    let own = names(refusal.field, refusal.place);
    let since = names(before.shaped, before.shaped_at).numbered();
    let fault = fault(&bytes[refusal.place..], &refusal, before, &since, &own);
    let why = fault.map(|fault| own.sentence(&fault, refusal.cause) + "\n").unwrap_or_default();
    Told { refusal, lines: format!("{why}refused: {}\n", in_general(&refusal, &own)) }
}

/// The field, the byte, the number and the cause.
pub fn in_general(refusal: &Refusal, names: &Names) -> String {
    let Refusal { cause, place, .. } = *refusal;
    format!("{}, at byte {place} of the run file, with {}: {}", names.numbered(), cause as u8, words(cause))
}

/// What the field at the front of the bytes has wrong.
fn fault(rest: &[u8], refusal: &Refusal, before: &Before, since: &str, names: &Names) -> Option<Fault> {
    let tag = rest.first().copied().map(Tag::of);
    let what = match refusal.cause {
        Cause::TooManyFields => {
            format!("this is field {}, and at most {MAX_FIELDS} follow the start set", refusal.field)
        }
        Cause::Tag => match tag? {
            Some(Tag::Start) => "a start set stands at the beginning and nowhere else".to_string(),
            Some(tag) => format!("a run begins with a start set and not with a {}", block::name(tag)),
            None => format!("no field has the tag {}", rest[0]),
        },
        Cause::InputEnds if rest.is_empty() => "there is no field".to_string(),
        Cause::InputEnds => "the file ends inside this field".to_string(),
        Cause::Length => {
            let (tag, (_, body)) = (tag??, whole(rest)?);
            match body.len() >= tag.counts().len() {
                true => format!("its body has {} bytes, and its counts give {}", body.len(), tag.length(body)),
                false => format!("its body has {} bytes, too few for its counts", body.len()),
            }
        }
        Cause::Count => {
            let (tag, (_, body)) = (tag??, whole(rest)?);
            let wrong = (0..tag.counts().len()).find(|k| !tag.counts()[*k].contains(&body[*k]))?;
            let limits = &tag.counts()[wrong];
            let name = block::counted(tag)[wrong];
            format!("{} {name}, and there may be {} to {}", body[wrong], limits.start(), limits.end())
        }
        Cause::Dimension => {
            let (field, has) = (field(rest)?, before.state.set.as_ref()?.dimension());
            let (name, takes) = (block::name(field.tag()), taken_dimension(&field)?);
            format!("this {name} is for {takes} coordinates, and the set has {has} since {since}")
        }
        Cause::Range | Cause::Rule | Cause::Span | Cause::EmptyDisturbance => {
            return block::fault(&field(rest)?, refusal.cause, names);
        }
        Cause::Factors => factors(&field(rest)?, before)?,
        Cause::ResultSpan => {
            let set = advance(&field(rest)?, &before.state).ok()?.0.set;
            let wide = (0..set.dimension()).find(|i| set.span(*i) > SPAN_LIMIT)?;
            format!("after this field {}", reach(wide, set.span(wide)))
        }
    };
    Some(Fault::of_field(what))
}

/// How many factors a sum or a hull would have; no other field brings any.
fn factors(field: &Field, before: &Before) -> Option<String> {
    let has = &before.state.set.as_ref()?.identifiers;
    let (body, besides) = match field {
        Field::Independent(body) => return Some(too_many(has.len(), body.identifiers.len(), "")),
        Field::Tied(body) => (body, ""),
        Field::Hull(body) => (body, ", and the hull adds one"),
        _ => return None,
    };
    let new = body.identifiers.iter().filter(|id| !has.contains(id)).count();
    Some(too_many(has.len(), new, besides))
}

fn too_many(has: usize, new: usize, besides: &str) -> String {
    format!("the set has {has} factors and this body {new} others{besides}: at most {MAX_FACTORS} together")
}

/// The field at the front of bytes that are well formed.
fn field(rest: &[u8]) -> Option<Field> {
    let (tag, body) = whole(rest)?;
    Some(Tag::of(tag)?.decode(body))
}
