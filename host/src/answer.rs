//! How an answer in numbers becomes a value or a refusal.
//!
//! An answer is how many numbers document 01 gives it, those numbers, then zeros: first 0 with the values, or the number of a refusal with its
//! place. The calls that go by the short columns alone answer in one number, which is 0 where the whole question is to be asked.
use crate::refusal::Refusal;

/// The refusal that an answer is. Questions of objects that exist do not come here.
#[cold]
fn refused(answer: &[u64]) -> Refusal {
    Refusal::from_numbers(&answer[1..]).expect("an answer is a value or a refusal")
}

/// The values of an answer, or the refusal that it is.
#[inline]
pub(crate) fn values(answer: &[u64]) -> Result<&[u64], Refusal> {
    if answer[1] == 0 { Ok(&answer[2..]) } else { Err(refused(answer)) }
}

/// The one value of an answer.
#[inline]
pub(crate) fn value(answer: &[u64; 4]) -> Result<u64, Refusal> {
    values(answer).map(|values| values[0])
}

/// The one value of an answer that may also be nothing, which is an answer of one number.
#[inline]
pub(crate) fn value_or_none(answer: &[u64; 4]) -> Result<Option<u32>, Refusal> {
    let value = value(answer)?;
    Ok((answer[0] > 1).then_some(value as u32))
}

/// The answer of a call that goes by the short columns alone, 2 more than the value or 1 for nothing; of 0, the whole question's.
#[inline]
pub(crate) fn found(reply: u64, whole: impl FnOnce() -> Result<Option<u32>, Refusal>) -> Result<Option<u32>, Refusal> {
    match reply {
        0 => whole(),
        1 => Ok(None),
        _ => Ok(Some((reply - 2) as u32)),
    }
}

/// The upper and the lower half of a number that is one more; nothing of 0.
#[inline]
pub(crate) fn halves(reply: u64) -> Option<(u32, u32)> {
    let both = reply.checked_sub(1)?;
    Some(((both >> 32) as u32, both as u32))
}

/// The used lengths that a build says, and the dangling count.
pub(crate) struct Counts {
    pub(crate) edges: usize,
    pub(crate) weak: usize,
    pub(crate) roots: usize,
    pub(crate) long: usize,
    pub(crate) fields: usize,
    pub(crate) escapes: usize,
    pub(crate) dangling: u64,
}

impl Counts {
    /// What a build said: the counts, or the refusal.
    pub(crate) fn of(answer: &[u64; 9]) -> Result<Counts, Refusal> {
        let values = values(answer)?;
        let at = |k: usize| values[k] as usize;
        Ok(Counts { edges: at(0), weak: at(1), roots: at(2), long: at(3), fields: at(4), escapes: at(5), dangling: values[6] })
    }
}
