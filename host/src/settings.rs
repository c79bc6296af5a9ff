//! What the reading and writing of strings may differ by.

/// What the reading and writing of strings may differ by, given at each call, in a block with each item.
///
/// A later version can add a setting, so it is made from one of the two constants, or from the default, and changed by name:
///
/// ```
/// use valdrabus::Settings;
///
/// assert_eq!(Settings::default(), Settings::STANDARD);
/// assert_eq!(Settings::STANDARD.with_backslash(true), Settings::MYSQL);
///
/// // As a MySQL server says it, SELECT @@sql_mode.
/// let sql_mode = "STRICT_TRANS_TABLES,NO_BACKSLASH_ESCAPES";
/// let settings = Settings::MYSQL.with_backslash(!sql_mode.contains("NO_BACKSLASH_ESCAPES"));
/// assert!(!settings.backslash);
/// ```
#[derive(Clone, Copy, Debug, Default, PartialEq, Eq, Hash)]
#[non_exhaustive]
pub struct Settings {
    /// MySQL's backslash escapes hold in strings without a prefix of their own. `E'..'` and `U&'..'` are the same at both settings.
    pub backslash: bool,
}

impl Settings {
    /// A backslash is a character like any other: standard SQL, PostgreSQL, and MySQL's `NO_BACKSLASH_ESCAPES`.
    pub const STANDARD: Settings = Settings { backslash: false };

    /// A backslash begins an escape: MySQL.
    pub const MYSQL: Settings = Settings { backslash: true };

    /// The same, with backslash escapes on or off.
    #[must_use]
    pub const fn with_backslash(self, backslash: bool) -> Settings {
        Settings { backslash, ..self }
    }

    /// The setting as the C functions take it.
    pub(crate) const fn number(self) -> u32 {
        self.backslash as u32
    }
}
