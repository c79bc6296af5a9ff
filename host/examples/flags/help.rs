//! What `flags --help` says.

pub const USAGE: &str = "usage: flags FILE (a list: a name, a tab and an SQL bit string on each line)";

pub const HELP: &str = "\
flags packs the bit strings of a list, and shows the literals that they are written back as.

usage: flags FILE
A list has on each line a name, a tab and a bit string, B'..' or X'..'. A line ends with LF, CR LF
or CR; a byte order mark at the list's start, blank lines and lines that begin with -- are passed over.
Control characters of a name are shown by their numbers, as ‹0A›; of a long name that is refused
the first 40 characters are shown.

Status:
  0    each row has flags
  1    a row is refused
  2    the list or the command line cannot be read, or the output cannot be written;
       standard error says why
  141  the output is a pipe that nobody reads any more
";
