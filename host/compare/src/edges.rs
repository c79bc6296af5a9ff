//! Texts whose pieces stand around the edges of blocks and chunks: behind a run of each length near such an edge stands a unit, and behind it a short run, or
//! another segment.

use crate::comparing::{Comparing, Outcome};
use crate::frames::Padded;
use crate::question::Question::Str;

struct Family {
    open: &'static str,
    close: &'static str,
    units: &'static [&'static str],
}

const FAMILIES: [Family; 5] = [
    Family { open: "'", close: "'", units: &["", "''", "\\n", "\\%", "\\'", "\\\\", "é", "\"", "\\é", "'"] },
    Family { open: "_utf8\"", close: "\"", units: &["", "\"\"", "\\_", "\\\"", "😀", "'"] },
    Family { open: "N'", close: "'", units: &["", "''", "\\0", "é"] },
    Family {
        open: "E'",
        close: "'",
        units: &[
            "",
            "''",
            "\\n",
            "\\é",
            "\\x41",
            "\\xC3\\xA9",
            "\\303\\251",
            "\\101",
            "\\u20ac",
            "\\U0001F600",
            "\\x",
            "\\xC3",
            "é",
        ],
    },
    Family {
        open: "U&'",
        close: "'",
        units: &["", "''", "\\\\", "\\0041", "\\+01F600", "\\D83D\\DE00", "\\D83D", "é"],
    },
];

/// Lengths of the first run: around blocks of 8 and 16 bytes, and around chunks, which are emptied at 224 bytes of a run, with their rest.
fn lengths() -> impl Iterator<Item = usize> {
    (0..=36).chain(190..=274).chain(414..=498)
}

const BEHIND: [&str; 7] = [
    "",
    "b",
    "bbbbbbb",
    "bbbbbbbbbbbbbbb",
    "bbbbbbbbbbbbbbbb",
    "bbbbbbbbbbbbbbbbb",
    "bbbbbbbbbbbbbbbbbbbbbbbbbbbbbbbbb",
];
const FURTHER: [&str; 4] = ["", "\n'c'", " \"d\" E'\\n'", "  "];

pub fn run(comparing: &mut Comparing) -> Outcome {
    let mut padded = Padded::default();
    let mut text = String::new();
    for family in &FAMILIES {
        for length in lengths() {
            let run = "a".repeat(length);
            for (turn, unit) in family.units.iter().enumerate() {
                for behind in BEHIND {
                    text.clear();
                    let further = FURTHER[(length + turn + behind.len()) % FURTHER.len()];
                    text.extend([family.open, &run, unit, behind, unit, family.close, further]);
                    padded.ask(comparing, &text, &[(Str, 4)])?;
                }
            }
        }
    }
    Ok(())
}
