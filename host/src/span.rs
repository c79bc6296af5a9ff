//! Where a literal stands.

use std::fmt;
use std::ops::Range;

/// From a place of the source up to another, counted in bytes. Any two numbers make one; a question tests whether it fits the source.
///
/// It comes from a range of `u32`, and from one of `usize`, as places in Rust's texts are, where that ends within 4 GiB. A range of `usize` comes back from every span.
///
/// ```
/// use std::ops::Range;
/// use valdrabus::Span;
///
/// assert_eq!(Span::from(3..8), Span { start: 3, end: 8 });
/// assert_eq!(Span::from(3..8).to_string(), "3..8");
///
/// let row = "(12, 'Aspirin')";
/// let quoted = row.find('\'').unwrap()..row.len() - 1;
/// let span = Span::try_from(quoted)?;
/// assert_eq!(&row[Range::from(span)], "'Aspirin'");
/// # Ok::<(), valdrabus::TryFromRangeError>(())
/// ```
///
/// Spans are ordered by where they start, and those that start alike by where they end.
#[derive(Clone, Copy, Debug, PartialEq, Eq, PartialOrd, Ord, Hash)]
pub struct Span {
    /// The first byte's place.
    pub start: u32,
    /// The place behind the last byte.
    pub end: u32,
}

impl Span {
    /// How many bytes it has; none where it ends before it starts.
    pub(crate) const fn long(self) -> usize {
        self.end.saturating_sub(self.start) as usize
    }
}

impl From<Range<u32>> for Span {
    fn from(Range { start, end }: Range<u32>) -> Span {
        Span { start, end }
    }
}

impl TryFrom<Range<usize>> for Span {
    type Error = TryFromRangeError;

    /// # Errors
    ///
    /// [`TryFromRangeError`], where the start or the end is more than 4,294,967,295.
    fn try_from(Range { start, end }: Range<usize>) -> Result<Span, TryFromRangeError> {
        let place = |place: usize| u32::try_from(place).map_err(|_| TryFromRangeError(()));
        Ok(Span { start: place(start)?, end: place(end)? })
    }
}

// Of Range<usize> alone: with one of Range<u32> beside it, `Range::from(span)` would leave open which of the two is meant.
impl From<Span> for Range<usize> {
    fn from(span: Span) -> Range<usize> {
        span.start as usize..span.end as usize
    }
}

impl fmt::Display for Span {
    fn fmt(&self, f: &mut fmt::Formatter<'_>) -> fmt::Result {
        write!(f, "{}..{}", self.start, self.end)
    }
}

/// That a range has a place which no [`Span`] can say.
///
/// ```
/// use valdrabus::Span;
/// let error = Span::try_from(0..usize::MAX).unwrap_err();
/// assert_eq!(error.to_string(), "a place past 4294967295, the last that a span can say");
/// ```
#[derive(Clone, Debug, PartialEq, Eq)]
pub struct TryFromRangeError(());

impl fmt::Display for TryFromRangeError {
    fn fmt(&self, f: &mut fmt::Formatter<'_>) -> fmt::Result {
        write!(f, "a place past {}, the last that a span can say", u32::MAX)
    }
}

impl std::error::Error for TryFromRangeError {}

#[cfg(test)]
mod tests {
    use super::*;

    #[test]
    fn ranges_of_usize_both_ways() {
        let last = u32::MAX as usize;
        for (start, end) in [(0, 0), (3, 8), (8, 3), (0, u32::MAX), (u32::MAX, 0)] {
            let (range, span) = (start as usize..end as usize, Span { start, end });
            assert_eq!(Span::from(start..end), span);
            assert_eq!(Span::try_from(range.clone()), Ok(span));
            assert_eq!(Range::from(span), range);
        }
        for range in [0..last + 1, last + 1..0, usize::MAX..usize::MAX] {
            assert_eq!(Span::try_from(range), Err(TryFromRangeError(())));
        }
    }

    #[test]
    fn spans_are_ordered_by_start_then_end() {
        let mut spans = [5..6, 2..9, 2..3, 0..7].map(Span::from);
        spans.sort_unstable();
        assert_eq!(spans, [0..7, 2..3, 2..9, 5..6].map(Span::from));
    }

    #[test]
    fn a_span_that_ends_before_it_starts_has_no_bytes() {
        assert_eq!([(3, 8), (3, 3), (8, 3)].map(|(start, end)| Span { start, end }.long()), [5, 0, 0]);
    }
}
