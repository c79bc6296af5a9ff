//! The modules of the examples `keys` and `block`. They look for each other at a crate's root: a test takes all from here, and `places` from `common`.
#![allow(dead_code)] // each test uses a part

#[path = "../../examples/keys/alike.rs"]
pub mod alike;
#[path = "../../examples/keys/composed.rs"]
pub mod composed;
#[path = "../../examples/keys/counts.rs"]
pub mod counts;
#[path = "../../examples/keys/decomposed.rs"]
pub mod decomposed;
#[path = "../../examples/keys/help.rs"]
pub mod help;
#[path = "../../examples/keys/list.rs"]
pub mod list;
#[path = "../../examples/shared/marked.rs"]
pub mod marked;
#[path = "../../examples/block/one_call.rs"]
pub mod one_call;
#[path = "../../examples/keys/pointed.rs"]
pub mod pointed;
#[path = "../../examples/keys/products.rs"]
pub mod products;
#[path = "../../examples/keys/report.rs"]
pub mod report;
#[path = "../../examples/keys/request.rs"]
pub mod request;
#[path = "../../examples/keys/shown.rs"]
pub mod shown;

use list::{List, Row};
use report::Which;
use shown::Look;
use valdrabus::Settings;

/// A list without a name, whose settings can be read.
pub fn listed(text: &[u8], settings: Settings) -> List<'_> {
    List { name: String::new(), rows: list::rows(text, settings).expect("settings that can be read") }
}

/// The rows that have no key, or depend on the setting.
pub fn doubtful(rows: &[Row<'_>]) -> String {
    report::rows(rows, Which::Doubtful, Look::Marked)
}
