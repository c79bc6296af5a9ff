//! The rows of a list: where they stand, and the setting of each.

#[path = "../shared/lines.rs"]
pub mod lines;

use std::ops::Range;
use valdrabus::Settings;

/// A row's line, counted from 1, where its literal stands in the list, and the setting that it is read at.
pub struct Place {
    pub line: usize,
    pub bytes: Range<usize>,
    pub settings: Settings,
}

/// What a line of a list is.
enum Line {
    Setting(Settings),
    /// A comment that can only be meant as a setting.
    NoSetting,
    Passed,
    Row,
}

/// Finds each row. A setting that cannot be read is an error, since it decides all rows behind it.
pub fn places(list: &[u8], mut settings: Settings) -> Result<Vec<Place>, String> {
    let mut places = Vec::new();
    for (at, bytes) in lines::lines(list).enumerate() {
        let text = &list[bytes.clone()];
        match read(text) {
            Line::Setting(next) => settings = next,
            Line::NoSetting => return Err(no_setting(at + 1, text)),
            Line::Passed => {}
            Line::Row => places.push(Place { line: at + 1, bytes, settings }),
        }
    }
    Ok(places)
}

/// Case and blanks around it do not count in a setting. In a row they do.
fn read(line: &[u8]) -> Line {
    let text = line.trim_ascii();
    let Some(comment) = text.strip_prefix(b"--") else {
        return if text.is_empty() { Line::Passed } else { Line::Row };
    };
    match comment.trim_ascii().to_ascii_lowercase().as_slice() {
        b"backslash on" => Line::Setting(Settings::MYSQL),
        b"backslash off" => Line::Setting(Settings::STANDARD),
        other if other.starts_with(b"backslash") => Line::NoSetting,
        _ => Line::Passed,
    }
}

fn no_setting(line: usize, text: &[u8]) -> String {
    format!("line {line}: {:?} is neither -- backslash on nor -- backslash off", String::from_utf8_lossy(text))
}
