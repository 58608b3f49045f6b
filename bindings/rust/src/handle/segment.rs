//! Single segments of mappings.

use super::{check, check_interface, Handle};
use crate::errors::Result;
use crate::ffi;

pub(crate) fn parse_segment(segment: &str) -> Result<Vec<i64>> {
    check_interface();
    // A segment has no more numbers than bytes.
    let mut numbers = vec![0; segment.len()];
    let mut count = 0;
    let (at, capacity) = (numbers.as_mut_ptr(), numbers.len());
    // SAFETY: the segment and the numbers are where they say.
    check(|error| unsafe {
        ffi::sm_parse_segment(
            segment.as_ptr(),
            segment.len(),
            at,
            capacity,
            &mut count,
            error,
        )
    })?;
    numbers.truncate(count);
    Ok(numbers)
}

pub(crate) fn write_segment(numbers: &[i64]) -> Result<String> {
    // SAFETY: the numbers are where they say.
    Handle::fill_text(|text, error| unsafe {
        ffi::sm_write_segment(numbers.as_ptr(), numbers.len(), text, error)
    })
}
