"""The words of csicodec_explain that have the digits of a sequence: those of places, and of true colours."""
import re

from bindings.library import SUBJECTS
from layout import byte, string
from read import rows_of


def places():
    """Each action that a line and a column say before a final byte, with words that have only these: the final byte, and what is ahead of each. An answer, of which
    neither may be left out, can have more words."""
    for action in SUBJECTS["Cursor"].actions:
        row = action.row
        texts = re.split(r"\{\w+\}", f"{row.get('shown', row['name'])}  {row['words']}") if "words" in row else []
        if action.form == "places" and "final" in row and len(texts) == 3 and not texts[2] and row["left_out"] != "no":
            yield row["final"], texts[0], texts[1]


def colors():
    """Each attribute that has a colour: the code ahead of its parts, and what is ahead of their words."""
    table = rows_of("sgr.toml")
    for code, row in table["code"].items():
        if row.get("further") in table["attribute"]:
            yield code, f"SGR  {table['attribute'][row['further']]['words']} rgb "


def digits():
    return """//! Words that have the digits of a sequence. Written by tools/table.

/// What stands ahead of the first number and of the others, where a list that ends in this byte has a place or a true colour in front; and
/// the list from these numbers on.
pub(crate) fn words_of(list: &[u8], control: u8) -> Option<(&'static str, &'static str, &[u8])> {
    match (control, list) {
""" + "".join(f"        ({byte(final)}, _) => Some(({string(line)}, {string(column)}, list)),\n" for final, line, column in places()) + """        (b'm', [first, second, b';', b'2', b';', parts @ ..]) => {
            let words = match [*first, *second] {
""" + "".join(f"                [{', '.join(byte(character) for character in code)}] => {string(words)},\n" for code, words in colors()) + """                _ => return None,
            };
            Some((words, ",", parts))
        }
        _ => None,
    }
}
"""
