#!/usr/bin/env python3
"""The Rust's own answers, asked of literal.rs compiled unchanged.

    tools/oracle/oracle.py < REQUESTS > ANSWERS

literal.rs is no part of this repository. Its folder is VALDRABUS_RUST_SRC (that which holds crates/squonk-ast; a relative path counts from
the repository's root), by default ../shared/docs/src beside the repository. Its neighbours are the shims of host/original. The program is
built into target/oracle, as a release build.

A request is a line: QUESTION KIND SETTING START END HEX. The questions are
    string plain decimal bits temporal money source charset i64 bool null isnull     on a literal
    ident isident evalid uvalid uescape nul radix                                   on bare text; the numbers don't matter
KIND is a code 1 to 14 of document 01, SETTING 0 or 1, START and END the literal's span, HEX the source's bytes (- for none),
which are UTF-8.

An answer is a line:
    b START END      borrowed, a range of the source        w HEX    written          i NUMBER    an integer
    r NUMBER VALUE.. refused by its number; 1 with the expected family and the kind, the others with the span, ident alone
    n                no charset name                         yes, no                  p BASE START a radix prefix
"""
import functools
import os
import subprocess
import sys

HERE = os.path.dirname(os.path.abspath(__file__))
ROOT = os.path.dirname(os.path.dirname(HERE))
ORIGINAL = os.path.join(ROOT, 'host', 'original', 'src')
LITERAL = 'crates/squonk-ast/src/ast/literal.rs'

MAIN = '''#![allow(dead_code)]
#[path = "{original}/shims.rs"]
mod shims;
#[path = "{original}/codes.rs"]
mod codes;
use shims::{{dialect, vocab}};
mod ast {{
    pub use crate::shims::ty;
    #[path = "{literal}"]
    pub mod literal;
}}
#[path = "{here}/answers.rs"]
mod answers;

fn main() {{
    answers::run()
}}
'''


def source_folder():
    return os.path.abspath(os.path.join(ROOT, os.environ.get('VALDRABUS_RUST_SRC') or '../shared/docs/src'))


def literal_rs():
    return os.path.join(source_folder(), LITERAL)


def at_hand():
    """Not at hand is a default folder that is missing. A folder that is named, or there, and has no literal.rs is a failure."""
    if os.path.isfile(literal_rs()):
        return True
    if os.environ.get('VALDRABUS_RUST_SRC') or os.path.exists(source_folder()):
        sys.exit(f'there is no {literal_rs()}: VALDRABUS_RUST_SRC has to be the folder that holds crates/squonk-ast')
    return False


@functools.cache
def build():
    literal = literal_rs()
    if not at_hand():
        sys.exit('literal.rs is not there: set VALDRABUS_RUST_SRC to the folder that holds crates/squonk-ast')
    folder = os.path.join(ROOT, 'target', 'oracle')
    os.makedirs(folder, exist_ok=True)
    main, program = os.path.join(folder, 'main.rs'), os.path.join(folder, 'oracle')
    with open(main, 'w') as f:
        f.write(MAIN.format(here=HERE, original=ORIGINAL, literal=literal))
    subprocess.run(['rustc', '--edition', '2024', '-O', '-o', program, main], check=True)
    return program


def ask(requests):
    """The answers to (question, kind, setting, start, end, source) tuples, source as bytes."""
    lines = [f'{q} {k} {s} {a} {e} {t.hex().upper() or "-"}' for q, k, s, a, e, t in requests]
    run = subprocess.run([build()], input='\n'.join(lines) + '\n', capture_output=True, text=True, check=True)
    answers = run.stdout.splitlines()
    assert len(answers) == len(lines), run.stderr
    return answers


if __name__ == '__main__':
    if len(sys.argv) > 1:
        sys.exit(__doc__)
    sys.exit(subprocess.run([build()]).returncode)
