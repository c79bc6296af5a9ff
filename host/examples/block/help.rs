//! What `block --help` says.

pub const USAGE: &str = "usage: block FILE (a list: a string literal on each line)";

pub const HELP: &str = "\
block reads a list of SQL string literals by one call, and tells which products stand in several rows.

usage: block FILE
What a list is, how rows are shown and how a dump tells its setting is said by keys --help. The
setting is off at first.

Status:
  0    each row has a key, and no product is doubled
  1    a row is refused, and no product is doubled
  2    the list, a setting or the command line cannot be read, or the output cannot be written;
       standard error says why
  3    a product is doubled
  141  the output is a pipe that nobody reads any more
";
