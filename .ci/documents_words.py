"""Words that documents use in backticks and that are no names of the crates."""

# names of files that stand for any
FILES = {"crates/CRATE/specs/FILE.antt", "FILE.rt", "crates/CRATE/src/", "crates/CRATE/src/FILE.rt"}

# of Rust
RUST = """
Abort AllocError Bool Bor Copy Debug Display Env PartialEq String push_str Sized Wait assert_eq IndexMap List Option Vec allow always as bool collect copied data div_ceil entry env false for from get_index
ghost i16 if impl inline into iter iterator let malloc map match max min mut not pub realloc ref self source string true type u32 u8
unwrap_or unwrap use usize var vec while
"""

# of antt, its tactics and the kit's std
ANTT = """
All Appends Dec Next Walk abbrev args pair signed CLAUSE CallerLemmas Consumes FitsSigned IfNone IfOk IfSome IsAtEnd IsErrAnd IsFirstByte IsTrue Keeps STEP YieldsList absurd ap arith
at_drop_all at_drop_more bytes_eq c cc clap_on_literals cond drop elim ensures eq eqb find find_from_yields_List flat_map fold grind from_ from_residual
holes ids length-drop zero-add insert_entry-new infixr inl inr insert_entry into_iter_items it loop ne_eqb no now of_z old omega on_ok_weaker opaque option_and_then option_copied
option_map position_or_len proof proved ranges record refl requires rules rw search shift simp slice_get slice_index subst suc sym take_all to_z tt
unfolding w16 was weaker where with_items xs zip line_turn ReadLines define along_header along_dots at_key
"""

# of the kit's other crates
PORTED = "anyhow boxcar clap crossbeam_queue hex indexmap itoa memchr rayon thiserror toml toml_parser toml_writer"

# of rt and of the scripts here, and of the folders and files that they know
TOOL = """
bash python3 Prelude ci must-fail edits check doc fail fmt lemma must plant program proofs specs src test tests tidy tries try version rt allocations rlib jq PID RLIMIT_AS autogroup proc selftest golden SOURCES make install lib PREFIX cat
"""

# of batches, outputs, tracks, texts of messages and command lines
FORMATS = """
AGAIN CODE COMMAND COUNT CRATE DOUBT ENGINE EXPECTED FILE FROM FRONT HEX INPUT LENGTH LINE LOG MAX MODULE NAME NAME_tests NOT NUMBER PLACE SEGMENT SPEED STAMP TEXT TO TOLD WAY WAYS WORD
bad balise be both dispatch down em enrol fault group halt help horizon json lift line long many memory needs null or out recv refused release report restrict stop the too track tsr uXXXX unreadable up
warning warnings withdraw write zz
"""

KNOWN = set(" ".join([RUST, ANTT, PORTED, TOOL, FORMATS]).split())

# modules of the kit that docs/MODEL.md and docs/TEXTS.md need not name: numbers, options, lists, maps, text, references, and how a program ends
EVERYDAY = {
    "denote.Ref",
    "Rattle.std.specs.Prelude",
    "Rattle.std.specs.List",
    "Rattle.std.specs.Option",
}
