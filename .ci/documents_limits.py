"""Checks limits that documents give in words: each sentence of LIMITS stands in its document, with the numbers of the sources.

In a sentence {NAME} is the constant NAME of the file that FILES has for it, and {NAME:,} the same with commas. So a document fails that
gives another number than the source, whichever of them is changed.
"""
import re

RULE, SETTLE, TRACK, ZONES = (f"crates/rbc_{name}/src/" for name in ("rule", "settle", "track", "zones"))
FILES = {
    "MAX_BYTES": "crates/rbc_batch/src/streams.rt",
    "MAX_CALLS": "crates/rbc_batch/src/streams.rt",
    "MAX_INPUTS": RULE + "maxima.rt",
    "MAX_TRAINS": RULE + "maxima.rt",
    "MAX_STOPS": RULE + "maxima.rt",
    "MAX_LIMITS": RULE + "maxima.rt",
    "MAX_ENGINE": RULE + "maxima.rt",
    "MAX_LENGTH": RULE + "maxima.rt",
    "MAX_STAMP": RULE + "maxima.rt",
    "UNKNOWN_STAMP": RULE + "train_message.rt",
    "LAST_STAMP": SETTLE + "judge.rt",
    "STOP_IDENTIFIERS": SETTLE + "train.rt",
    "LIMIT_IDENTIFIERS": SETTLE + "train.rt",
    "MAX_LINES": TRACK + "track.rt",
    "MAX_GROUPS": TRACK + "track.rt",
    "MAX_SEGMENTS": ZONES + "area.rt",
    "MAX_SPEED": ZONES + "limit.rt",
    "MAX_KEPT": "crates/rbc_live/src/line.rt",
    "MAX_WORKERS": "crates/rbc_engine/src/workers.rt",
    "most_messages": "crates/rbc_settle/specs/Settling.antt",
}
LIMITS = {
    "README.md": ("N from 2 to {MAX_WORKERS}",),
    "docs/GUIDE.md": (
        "ENGINE, the train's number (`NID_ENGINE`): 0 to {MAX_ENGINE}",
        "in units of 10 cm: 1 to {MAX_LENGTH} |",
        "closes 1 to {MAX_SEGMENTS} segments",
        "SPEED: 0 to {MAX_SPEED} km/h",
        "{MAX_BYTES:,} bytes and {MAX_INPUTS:,} lines",
        "{MAX_TRAINS:,} enrolled trains, {MAX_STOPS} active stops and {MAX_LIMITS} active restrictions",
        "| {STOP_IDENTIFIERS} stop identifiers, {LIMIT_IDENTIFIERS} restriction identifiers",
        "A train has {STOP_IDENTIFIERS} stop identifiers and {LIMIT_IDENTIFIERS} restriction identifiers.",
        "| {MAX_LINES} lines of up to",
        "{MAX_GROUPS:,} balise groups, and a horizon",
        "sent a message with stamp {LAST_STAMP} has no stamp left",
        "| {MAX_STAMP}, or {UNKNOWN_STAMP} for an unknown time |",
    ),
    "docs/INTEGRATION.md": (
        "{MAX_INPUTS:,} lines and {MAX_BYTES:,} bytes in all",
        "A line of more than {MAX_KEPT:,} bytes is always refused.",
        "(up to {STOP_IDENTIFIERS} for stops, {LIMIT_IDENTIFIERS} for restrictions)",
        "the number of enrolled trains, up to {MAX_TRAINS:,} |",
        "the number of active stops, up to {MAX_STOPS} |",
        "the number of active restrictions, up to {MAX_LIMITS} |",
    ),
    "docs/ASSESSMENT.md": (
        "`MayWork`: 1 to {MAX_WORKERS}; others are refused",
        "the number of workers is 0 or above {MAX_WORKERS}.",
        "A batch over {MAX_BYTES:,} bytes or {MAX_INPUTS:,} inputs is a fault.",
        "a read failed or {MAX_CALLS:,} reads did not reach the end",
    ),
    "docs/C_LIBRARY.md": (
        "For {MAX_TRAINS:,} trains, room for {MOST_AT_ONCE:,} messages ({most_messages} per train;",
    ),
}


def value_of(root, name):
    """The value of a constant of code or of a definition; nothing, if its file has none of this name that is a number."""
    declared = rf"^\s*(?:pub(?:\(crate\))? )?const {name}: \w+ = ([\d_]+);"
    defined = rf"^{name} = (\d+)$"
    file = root / FILES[name]
    found = re.search(defined if file.suffix == ".antt" else declared, file.read_text(), re.M)
    return found and int(found.group(1).replace("_", ""))


def faults(root, documents):
    """The faults of all documents: of each the document, its text, the place and what is wrong."""
    values = {name: value_of(root, name) for name in FILES}
    values["MOST_AT_ONCE"] = (values["MAX_TRAINS"] or 0) * (values["most_messages"] or 0)
    for document in documents:
        text = document.read_text()
        words = " ".join(re.sub(r"^> ", "", text, flags=re.M).split())
        for sentence in LIMITS.get(document.relative_to(root).as_posix(), ()):
            missing = [name for name in re.findall(r"\{(\w+)", sentence) if values[name] is None]
            if missing:
                yield document, text, None, f"gives {missing[0]}, which {FILES[missing[0]]} does not have as a number"
            elif " ".join(sentence.format(**values).split()) not in words:
                yield document, text, None, f"does not say '{sentence.format(**values)}', with the numbers of the sources"
