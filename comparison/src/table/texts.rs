//! Texts for the bench program, and their lines.

use super::Part;

events! {
    Texts;
    TextNames "text that prints names" Texts,
    TextEmpty "empty text" Texts,
    TextHeading "text that prints the heading alone" Texts,
    TextWithoutNewline "text without a last newline" Texts,
    LineWindow "line with a window" Texts,
    LineRefused3 "line refused 3" Texts,
    LineRefused4 "line refused 4" Texts,
    LineRefused5 "line refused 5" Texts,
    LineUnread "line unread" Texts,
    LineEmpty "line empty" Texts,
    LineLong "line above 4,096 bytes" Texts,
    LineZeros "line with leading zeros" Texts,
    LineEdge "line with a number at or beyond 32 bits" Texts,
    LineOddByte "line with a byte that no number has" Texts,
}
