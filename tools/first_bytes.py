"""Makes the lists of candidates: first bytes with the same candidates are a group. The check refuses a list that is not the
one which follows from the signatures; here the model tells it."""
import textwrap

CODE = '''//! The candidates of each first byte. Made by `tools/tables`, by the model of `vectors/`.

use crate::table::rows::*;

/// How many groups there are of first bytes with the same candidates.
pub const GROUP_COUNT: usize = {count};

/// The group of each first byte.
pub static GROUP_OF: [u8; 256] = [
{groups}
];

macro_rules! lists {{
    ($([$($row:ident)*])*) => {{
        [$(&[$($row),*]),*]
    }};
}}

/// The candidates of each group, ascending.
pub static CANDIDATES: [&[usize]; GROUP_COUNT] = lists![
{lists}
];
'''


def lists(allowed):
    """The code, from the rows that each first byte allows."""
    groups = list(dict.fromkeys(map(tuple, allowed)))
    numbers = ", ".join(str(groups.index(tuple(rows))) for rows in allowed) + ","
    return CODE.format(
        count=len(groups),
        groups=textwrap.fill(numbers, 99, initial_indent="    ", subsequent_indent="    "),
        lists="\n".join(f"    [{' '.join(rows)}]" for rows in groups),
    )
