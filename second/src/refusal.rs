//! "Refusal numbers and the order of checks": what every refused call answers.

/// A number and a place, nothing else.
#[derive(Clone, Copy, Debug, PartialEq, Eq)]
pub struct Refusal {
    pub number: u32,
    pub place: u32,
}

/// Answers a refusal; places are offsets, word indices or node numbers.
pub fn refuse<T>(number: u32, place: usize) -> Result<T, Refusal> {
    let place = place as u32;
    Err(Refusal { number, place })
}
