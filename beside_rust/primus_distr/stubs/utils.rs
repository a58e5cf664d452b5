// Not among the given files: written from document 01.
use std::cmp::Ordering;

/// "The largest index up to M whose bound is at most the 64-bit word", of M+2 bounds that never fall.
#[inline]
pub(crate) fn cdt_index_by<T>(
    cdt: &[T],
    value: &T,
    compare: impl Fn(&T, &T) -> Ordering,
) -> usize {
    cdt[1..cdt.len() - 1].partition_point(|bound| compare(bound, value) != Ordering::Greater)
}
