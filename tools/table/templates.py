"""Words with holes, as a row of table/sequences.toml writes them, for the program: with places in the place of names, so that it looks up nothing."""
import re

# What code tells, and the letter by which csicodec_words finds it.
CODE = {
    "mode": "m", "mode_on": "s", "mode_off": "r", "private_mode": "M", "private_on": "S", "private_off": "R", "extensions": "e", "mouse": "t", "button": "b", "released": "u",
    "lines": "l", "columns": "c", "values": "v",
}
HOLE = re.compile(r"(\w+)(?:=(\d+))?(\.\.)?(?:([#:@~&])(.*))?$")


def listed(absent, entries):
    """The words of values as a hole has them; those of any other are behind nothing. Behind `~` stand first those where the value is left out: of a value that has
    the same, or of `-`, which is none."""
    if absent:
        value = next((value for value, words in entries if words == absent), "-")
        entries = [(f"~{value}", absent), *(entry for entry in entries if entry[0] != value)]
    return "|".join(f"{value}={words}" for value, words in entries)


def numbered(missing, rest):
    """What is told of a number by itself: `:text` where it is 0, `~text|ahead` where it is left out and what stands ahead, `#line` what it counts."""
    rest, _, unit = rest.partition("#")
    rest, _, absent = rest.partition("~")
    absent, _, ahead = absent.partition("|")
    zero, plural = rest.removeprefix(":"), f" {unit}s" if unit else ""
    given = missing and missing != "0" and f"{missing}{f' {unit}' if missing == '1' and unit else plural}"
    any_other = f"{ahead}#{plural}" if ahead or unit else ""
    entries = [("0", zero and f"{ahead}{zero}"), ("1", unit and f"{ahead}1 {unit}"), ("", any_other)]
    return listed(given or absent, [(value, words) for value, words in entries if words])


def hole_of(text, form, lists):
    """A hole by its place: `{0}` the value, 0 where it is left out, `{0=100}` it, and 100 where it is left out, `{0:text}` the text where it is 0 or left out, `{0#line}` it with
    what it counts, `{0~text|ahead}` it with what stands ahead, and the text where it is left out, `{0?1=on|2=off}` the words of the value, `{0..?..}` those of it and of all
    behind it, `{0&, with |1=a|2=b}` those of its bits, `{0@mode}` what code tells of it. For the program all but the last two are words of values, `{0?~=100}`, or of all from
    there on, `{0*..}`, and code has a letter."""
    found = HOLE.match(text)
    places = [place for place, slot in enumerate(form.slots) if found and slot.name == found[1].replace("_", " ")]
    if not places:
        raise ValueError(f"no number is named so: {{{text}}}")
    place, (_, needed, further, kind, rest) = f"{places[0]:x}", found.groups()
    slot = form.slots[places[0]]
    zero = ":" + rest if kind == ":" else f":{slot.missing}" if slot.as_zero else ""
    missing = needed if slot.missing is None else slot.missing if not zero or further else None
    if kind in (None, ":", "#", "~"):
        own = {"#": f"{f'{zero} {rest}' if slot.as_zero else ''}#{rest}", "~": f"~{rest}"}.get(kind, zero)
        words = numbered(str(missing or ""), own)
        return f"{{{place}?{words}}}" if words else f"{{{place}}}"
    if any(byte in rest for byte in "#?@|"):
        raise ValueError(f"a byte that holes have: {{{text}}}")
    if kind == "&":
        return f"{{{place}&" + "|".join(words if bits == "ahead" else f"{bits}={words}" for bits, words in lists[rest].items()) + "}"
    if rest in lists:
        words = [("" if number == "else" else number, words) for number, words in lists[rest].items()]
        absent = dict(words).get(str(missing)) if further and missing is not None else None
        return f"{{{place}{'*' if further else '?'}{listed(absent, words)}}}"
    if rest not in CODE:
        raise ValueError(f"no list of words: {{{text}}}")
    return f"{{{place}@{CODE[rest]}}}"


def template_of(words, form, lists):
    """The words with the holes as the program fills them."""
    return re.sub(r"\{([^}]*)\}", lambda hole: hole_of(hole[1], form, lists), words)


def place_of(form):
    """The place of the number by which a row's words differ: the first one that isn't one alone."""
    return next((place for place, slot in enumerate(form.slots) if slot.first < slot.last), 0)


def told_of(row, form, lists):
    """The words of a row behind its name, by that number; `else` those of others. Where there are none, each number has its own."""
    words = row.get("words", row["means"]) if row["name"] == "key" else row.get("words")
    if words is None:
        raise ValueError("it lacks words")
    told = words if isinstance(words, dict) else {"else": words}
    told = {number: template_of(f"{row.get('shown', row['name'])}  {text}", form, lists) for number, text in told.items()}
    if "else" not in told:
        slot = form.slots[place_of(form)]
        lacking = [number for number in range(slot.first, slot.last + 1) if str(number) not in told]
        if lacking:
            raise ValueError(f"no words where {slot.name} is {lacking[0]}")
    return told


def by_number(row, form, lists):
    """The same: the place, each number with its words, and those of others."""
    told = told_of(row, form, lists)
    last = str(form.slots[place_of(form)].last) if "else" not in told else "else"
    others = told.pop(last)
    return place_of(form), [(int(number), text) for number, text in told.items() if text != others], others
