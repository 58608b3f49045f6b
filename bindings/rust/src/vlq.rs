//! Single segments of mappings.

use crate::errors::Result;
use crate::handle;

/// Reads the numbers of a segment.
///
/// ```
/// use sourcemap::vlq::parse_vlq_segment;
/// assert_eq!(parse_vlq_segment("GAAIA").unwrap(), [3, 0, 0, 4, 0]);
/// ```
pub fn parse_vlq_segment(segment: &str) -> Result<Vec<i64>> {
    handle::parse_segment(segment)
}

/// Writes numbers as a segment. A magnitude of 2^62 or more is
/// [`Error::VlqOverflow`](crate::Error::VlqOverflow).
pub fn generate_vlq_segment(nums: &[i64]) -> Result<String> {
    handle::write_segment(nums)
}
