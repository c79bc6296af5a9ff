//! How much room always serves an answer, by its text's length alone: the laws of room among the theorems. What would need more comes from an archive that is not ours.

use crate::calls::TextQuestion;
use crate::literal::Literal;

/// Every printed value fits.
const PRINTED: usize = 40;

/// A string's value has two bytes less than its text, at the least: the two marks.
pub(crate) const fn string(literal: &Literal) -> usize {
    literal.span.long().saturating_sub(2)
}

/// A temporal text is a string's in a part of the text; of a bit string a letter and two marks fall away; a number in base ten is written only where a `_` does.
pub(crate) fn text(question: TextQuestion, literal: &Literal) -> usize {
    match question {
        TextQuestion::Temporal => string(literal),
        TextQuestion::Bits => literal.span.long().saturating_sub(3),
        TextQuestion::Decimal => literal.span.long().saturating_sub(1).max(PRINTED),
    }
}

/// Of an identifier `U&` and two marks fall away.
pub(crate) const fn identifier(text: &[u8]) -> usize {
    text.len().saturating_sub(4)
}
