"""Parts of the core and of the package for Rust that have a line for each attribute of text, or for each value of one."""
import actions
from core import either
from checks import refuse
from layout import low
from parts import Part

# The value of an attribute's type by which a text is that of a plane, and how csicodec calls the plane.
PLANES = {"UnderlineColor": "Line", "Foreground": "Front", "Background": "Back"}
# The names of values in specs, but for those of intensity, which stand there by themselves.
ALIASES = {"Underline": "underline", "Blink": "blink", "VerticalAlign": "align"}


def all_attributes():
    """The attributes in their order."""
    return next(subject.actions for subject in actions.subjects() if subject.name == "Sgr")


class Attributes:
    """The attributes in their order, and by what numbers their values are set: `texts` by the attribute as it is printed, `further` the number that a
    colour's parts stand behind, and `looks` the part of html's look that shows it."""

    def __init__(self, texts, further, looks):
        self.actions, self.texts, self.further, self.looks = all_attributes(), texts, further, looks

    def text(self, sets):
        """The text that sets a value."""
        if sets not in self.texts:
            refuse("sgr.toml", "code", f"no number sets {sets}")
        return self.texts[sets]

    def values(self, action):
        """Of one that is set by numbers alone: each value as Rust and as the specs have it, and the text that sets it."""
        variant = action.variant[0]
        if action.form == "flag":
            return [(f"{variant}({value})", f"(sgr.{variant} {value})", self.text(f"{variant}({value})")) for value in ("true", "false")]
        kind = action.names[0]
        named = [value.name for value in actions.types()[kind].variants]
        ahead = f"{ALIASES[kind]}." if kind in ALIASES else ""
        return [(f"{variant}({kind}::{value})", f"(sgr.{variant} {ahead}{value})", self.text(f"{variant}({value})")) for value in named]

    def each(self, forms):
        """A line for each value by these forms: `value` of those set by a number, `palette`, `line` and `true` of a colour, and `font`. Where there is `flag`, what is on
        or off has one line."""
        for action in self.actions:
            variant = action.variant[0]
            if action.form == "unit":
                yield self.line(forms, variant, f"sgr.{variant}", self.text(variant))
            elif action.form == "color":
                plane, first = PLANES[variant], self.texts.get(f"{variant}(PaletteIndex(0))")
                own = {"variant": variant, "first": first, "code": self.further[variant], "plane": plane, "codes": plane.lower()}
                yield self.line(forms, f"{variant}(ColorSpec::Default)", f"(sgr.{variant} color.Default)", self.text(f"{variant}(Default)"))
                yield from (forms[form].format(**own) for form in ("palette" if first else "line", "true"))
            elif action.names == ("Font",):
                yield from [self.line(forms, "Font(Font::Default)", "(sgr.Font font.Default)", self.text("Font(Default)")), forms["font"]]
            elif action.form == "flag" and "flag" in forms:
                yield forms["flag"].format(variant=variant, on=self.text(f"{variant}(true)"), off=self.text(f"{variant}(false)"))
            else:
                yield from (self.line(forms, *value) for value in self.values(action))

    def line(self, forms, rust, spec, text):
        of, _, colon = text.partition(":")
        return forms["value"].format(rust=rust, spec=spec, text=text, how="lined" if colon else "single", number=colon or of)

    def firsts(self):
        """The first value of each that is set by numbers alone, as the specs have it: enumerations, and what is on or off."""
        for form in ("enum", "flag"):
            yield from (self.values(action)[0][1] for action in self.actions if action.form == form and action.names != ("Font",))


WRITE = {
    "value": '            Sgr::{rust} => text.push_str("{text}m"),',
    "palette": "            Sgr::{variant}(ColorSpec::PaletteIndex(index)) => write_palette(text, {first}, *index),",
    "line": "            Sgr::{variant}(ColorSpec::PaletteIndex(index)) => write_line_palette(text, *index),",
    "true": "            Sgr::{variant}(ColorSpec::TrueColor(color)) => write_true_color(text, {code}, *color),",
    "font": "            Sgr::Font(Font::Alternate(number)) => write_font(text, *number),",
    "flag": '            Sgr::{variant}(on) => text.push_str(if *on {{ "{on}m" }} else {{ "{off}m" }}),',
}
TEXTS = {
    "value": 'sgr_text {spec} = codes "{text}m"',
    "palette": "sgr_text (sgr.{variant} (color.PaletteIndex i)) = palette_text {first} i",
    "line": 'sgr_text (sgr.{variant} (color.PaletteIndex i)) = codes "{code}:5:" ++ (decimal i ++ codes "m")',
    "true": "sgr_text (sgr.{variant} (color.TrueColor c)) = true_color_text {code} c",
    "font": "sgr_text (sgr.Font (font.Alternate n)) = font_text n",
    "flag": 'sgr_text (sgr.{variant} on) = if on then codes "{on}m" else codes "{off}m"',
}
SPELLINGS = {
    "value": "sgr-spelling flag {spec} fits ok = {how} flag _ {number} refl (omega arith) refl",
    "palette": "sgr-spelling flag (sgr.{variant} (PaletteIndex i)) fits ok = ground-spelling flag {plane} {first} i {codes}-codes fits refl",
    "line": "sgr-spelling flag (sgr.{variant} (PaletteIndex i)) fits ok = palette-spelling flag {plane} i fits refl (omega arith)",
    "true": "sgr-spelling flag (sgr.{variant} (TrueColor c)) fits ok = true_color-spelling flag {plane} c fits refl (omega arith)",
    "font": "sgr-spelling flag (sgr.Font (font.Alternate n)) fits ok = font-spelling flag n ok.0 ok.1",
}


def ranges(them):
    for action in them.actions:
        variant = action.variant[0]
        if action.names == ("Font",):
            yield "SgrInRange (sgr.Font (font.Alternate n)) = n < 256"
        elif action.form == "color":
            yield f"SgrInRange (sgr.{variant} c) = ColorInRange c"
    yield "SgrInRange s = Unit {0}"


def look_arms(them):
    shown = [(action.variant[0], them.looks.get(action.variant[0])) for action in them.actions if action.form != "unit"]
    yield "            Sgr::Reset => *self = Look::plain(),"
    yield from (f"            Sgr::{variant}({look}) => self.{look} = {look}," for variant, look in shown if look)
    yield from either([f"Sgr::{variant}(_)" for variant, look in shown if not look], "()")


def looks(them):
    """A line for each attribute that is shown: what is behind it; behind any other it looks as before."""
    for action in them.actions:
        variant = action.variant[0]
        look = them.looks.get(variant)
        if action.form == "unit":
            yield f"behind l sgr.{variant} = plain"
        elif look:
            yield f"behind l (sgr.{variant} x) = record l {{ {look} = x }}"
    yield "behind l s = l"


def pen(them):
    """A line of Pen for each."""
    for action in them.actions:
        if action.form != "unit":
            kind = {"flag": "bool", "color": "ColorSpec"}.get(action.form) or action.names[0]
            default = "false" if kind == "bool" else f"{kind}::{actions.types()[kind].variants[0].name}"
            yield f"    {low(action.variant[0])}: {kind} = {default}, {action.variant[0]};"


def parts(them):
    """All of them, by path."""
    behind, spelling = "    pub fn set(&mut self, attribute: &Sgr)", "pub sgr-spelling : (flag : Bool) (s : sgr_type.Sgr) → SgrInRange s → IsCanonicalSgr s → Spelling flag (Sgr s)"
    return {
        "crates/csicodec_base/src/sgr.rt": [Part(list(them.each(WRITE)), ("    pub fn write_to(&self, text: &mut Text)", "        match self {"), "        }")],
        "crates/csicodec_base/specs/SgrText.antt": [Part(list(them.each(TEXTS)), ("abbrev pub sgr_text : Sgr → List ℕ",))],
        "crates/csicodec_actions/specs/Ranges.antt": [Part(list(ranges(them)), ("abbrev pub SgrInRange : sgr_type.Sgr → Type 0",), "")],
        "crates/csicodec_streams/proofs/SgrSpelling.antt": [Part(list(them.each(SPELLINGS)), (spelling, "unfolding digits piece"))],
        "crates/csicodec_clean/proofs/Coded.antt": [Part([f"coded {value} h k = fixed _ refl refl (omega arith) (omega arith)" for value in them.firsts()], ("coded (sgr.Font (font.Alternate n)) h k = absurd cc",), "coded s h k = fixed (sgr_text s) refl refl (omega arith) (omega arith)")],
        "crates/csicodec_looks/src/look.rt": [Part(list(look_arms(them)), (behind, "        match *attribute {"), "        }")],
        "crates/csicodec_looks/specs/Look.antt": [Part(list(looks(them)), ("abbrev pub behind : Look → Sgr → Look",), "")],
        "rust/src/pen.rs": [Part(list(pen(them)), ("pen! {",), "}")],
    }
