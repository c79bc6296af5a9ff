//! What `keys --help` says.

pub const USAGE: &str = "\
usage: keys [--backslash] [--doubles] [--json] [--spell escape|unicode] [--] [FILE ..]
keys --help says more";

pub const HELP: &str = r"keys tells the key of each row of lists of SQL string literals, and which products stand in several rows.

usage: keys [--backslash] [--doubles] [--json] [--spell escape|unicode] [--] [FILE ..]
  --backslash  the setting is on from the first line on; without this it is off
  --doubles    leaves out the rows that have a key and do not depend on the setting
  --json       says all as one JSON document, see below
  --spell      shows each key as a literal, E'..' (escape) or U&'..' (unicode); with a NUL it has none
  --help, -h   says this
  --           ends the options
  FILE         a list; - is standard input, which is read too where no FILE is given.
               Several lists are compared as one.

A list has a string literal on each line. A line ends with LF, CR LF or CR; a byte order mark at the
list's start, blank lines and lines that begin with -- are passed over. Of the latter,
-- backslash on and -- backslash off give the setting of the rows behind them. A name in parts goes
on one line, with a space for each line feed, if it holds no line end; else as E'..' or U&'..'.

What it prints, control characters by their numbers, as ‹0A›:
     9  KEY<tab>LITERAL         a row: its line, its key and the literal
     2  refused: ..             a row that has no key, and why; below it the row, and a mark, ^, where
                                it cannot be read
        with backslash on: KEY  the row above at the other setting, where its key is another, or one of
                                the two has none
doubled: KEY, on lines 9, 37    a product that stands in several rows; of several lists,
                                on lines ward.txt:9, stock.txt:37
look alike: ..                  different keys that a reader takes for one, and what they differ by:
                                composed letters, no-break spaces, trailing white space; no doubles
rows with a key: ..             how many rows and products there are of each

As JSON it is an object with four fields, rows, doubled and look_alike, which are arrays, and counts:
  rows        file, line, backslash (whether the setting is on), literal (null where it is not UTF-8,
              and literal_hex has its bytes), key or null, refusal or null: number, message, place and
              character (the byte and the character of the mark, from 0), other_setting or null:
              backslash and key
  doubled     key, rows: file and line of each
  look_alike  differ_by, keys: key, spelled and rows of each
  With --spell each key has its literal beside it, spelled.

The setting says what a backslash in '..' is: a character like any other (off), or the start of an
escape (on). 'Lancet 1\30 mm' is the product Lancet 1\30 mm with the setting off, and Lancet 130 mm
with it on. A dump tells its setting near its start:
  PostgreSQL      SET standard_conforming_strings = on;   the setting is off
                  SET standard_conforming_strings = off;  neither: '..' means E'..' there, so an E is
                                                          to be put before each
  MySQL, MariaDB  SET .. SQL_MODE='..'                    on; off if NO_BACKSLASH_ESCAPES is among
                                                          the modes

Status:
  0    each row has a key, and no product is doubled
  1    a row is refused, and no product is doubled
  2    a list, a setting or the command line cannot be read, or the output cannot be written;
       standard error says why
  3    a product is doubled
  141  the output is a pipe that nobody reads any more
";
