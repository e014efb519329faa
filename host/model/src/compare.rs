//! One call made twice, by a manager and by the model, and everything that can be seen afterwards compared.

use crate::geometries::Named;
use crate::paper::{self, Call, Lent, Manager, Outcome};

/// A call to judge.
pub struct Asked<Name> {
    pub geometry: Name,
    pub call: Call,
    /// How many bytes of the image, from its first, are compared. Those past the tables that the model touched are in any case.
    pub compared: usize,
}

/// Makes the call on both sides, which start out alike, and says where they differ, if they do.
pub fn judge<Name: Named>(
    manager: Manager<Name>,
    asked: &Asked<Name>,
    ours: Lent<'_>,
    model: Lent<'_>,
) -> Result<Outcome, String> {
    let Asked { geometry, call, compared } = *asked;
    let lent = Lent { image: &mut *ours.image, index: &mut *ours.index, buffer: &mut *ours.buffer };
    let answer = manager(geometry, call, lent);
    let lent = Lent { image: &mut *model.image, index: &mut *model.index, buffer: &mut *model.buffer };
    let outcome = paper::call(geometry.into(), call, lent);
    let mut faults = Vec::new();
    let expected = paper::answered(&outcome);
    if answer != expected {
        faults.push(format!("answered {}, not {}", shown(answer), shown(expected)));
    }
    let first = 0..compared.min(model.image.len());
    let touched = outcome.iter().flat_map(|done| &done.touched);
    for range in touched.filter(|range| range.end > first.end).chain([&first]) {
        let (ours, model) = (&ours.image[range.clone()], &model.image[range.clone()]);
        faults.extend(difference("image", ours, model, range.start));
    }
    faults.extend(difference("index", ours.index, model.index, 0));
    faults.extend(difference("buffer", ours.buffer, model.buffer, 0));
    if faults.is_empty() {
        return Ok(outcome);
    }
    let why = outcome.err().map(|why| format!(" ({why:?})")).unwrap_or_default();
    Err(format!("{call:?} at geometry {geometry:?}{why}: {}", faults.join("; ")))
}

fn shown(answer: u64) -> String {
    let (refusal, value) = paper::apart(answer);
    format!("refusal {refusal} value {value}")
}

fn difference(what: &str, ours: &[u8], model: &[u8], start: usize) -> Option<String> {
    if ours == model {
        return None;
    }
    let at = ours.iter().zip(model).position(|(a, b)| a != b)?;
    Some(format!("{what} byte {} is {}, not {}", start + at, ours[at], model[at]))
}
