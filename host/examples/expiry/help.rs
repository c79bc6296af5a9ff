//! What `expiry --help` says.

pub const USAGE: &str =
    "usage: expiry DAY FILE (a day, yyyy-mm-dd; a list: a name, a tab and an SQL date literal on each line)";

pub const HELP: &str = "\
expiry sorts a stock list by expiry day, and marks what has expired by a day.

usage: expiry DAY FILE
DAY is yyyy-mm-dd. A list has on each line a name, a tab and an SQL date literal. A line ends with
LF, CR LF or CR; a byte order mark at the list's start, blank lines and lines that begin with -- are
passed over. A product can be used up to its expiry day, that day included.
Control characters of a name are shown by their numbers, as ‹0A›; of a long name that is refused
the first 40 characters are shown.

Status:
  0    each row has a day
  1    a row is refused
  2    the list or the command line cannot be read, or the output cannot be written;
       standard error says why
  3    DAY is no date
  141  the output is a pipe that nobody reads any more
";
