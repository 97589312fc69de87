#!/usr/bin/env python3
"""Brings the names of definitions and lemmas to today's spelling, once, in every crate and in the papers.

A word is in snake case; a dash stays where it joins two names of definitions, and gives way to an underscore elsewhere; a name
that would fall together with a function of src/ takes `_of`. Names that the checker makes for a function's goals stay.

    tools/respell.py            respells the files of the checkout
    tools/respell.py names      prints the old and the new names alone
"""
import re
import subprocess
import sys
from pathlib import Path

# names of the toolchain, which are spelled as it spells them
KEPT = {"shr_slice_Lawful", "walk_Meets", "shr_slice_Tells"}
# names that the rules below would spell badly, or that would fall together
BY_HAND = {
    "xorL": "xor_lists",
    "keyExpansion": "key_expansion_of",
    "payloadStart": "payload_start_of",
    "payloadEnd": "payload_end_of",
    "netId": "net_id_of",
    "appNonce": "app_nonce_of",
    "rxDelay": "rx_delay_of",
    "dlSettings": "dl_settings_of",
    "inFrame": "in_frame_of",
    "dataFrame": "data_frame_of",
    "placeAt": "place_in_row",
    "countOf": "count_in_row",
}
# lemmas that would have the name of a definition
LEMMAS = {"up_of": "up_of_lem", "either_way": "either_way_lem", "read_as": "read_as_lem"}
# words of the toolchain's library that lemmas here are named after
LIBRARY = set("append length take drop reverse map replicate set sets get_or min max bit_xor div rem mod".split())

NAME = re.compile(r"(?<![A-Za-z0-9_'\-₀-₉λκ·])[A-Za-z_][A-Za-z0-9_'₀-₉]*(?:-[A-Za-z0-9_'₀-₉*+≤<⊕]+)*")
DECLARED = re.compile(r"^ *(?:unfoldable |abbrev )?(?:pub )?([A-Za-z_][A-Za-z0-9_'₀-₉*+≤<⊕-]*) :")
FUNCTION = re.compile(r"^\s*(?:pub(?:\(crate\))? )?(?:unsafe )?(?:extern \"C\" )?fn ([a-z_0-9]+)", re.M)


def tracked():
    names = subprocess.run(["git", "ls-files"], capture_output=True, text=True, check=True).stdout.split("\n")
    return [Path(n) for n in names if n and Path(n).is_file()]


def is_camel(word):
    return word not in KEPT and re.match(r"[a-z]", word) and re.search(r"[A-Z]", word)


def snake(word):
    """`aB` as a_b, part by part; a part that begins with a capital is a type's name and stays."""
    if word in BY_HAND:
        return BY_HAND[word]
    word = re.sub(r"(?<=[a-z0-9])([A-Z])(?=[a-z0-9]|$|_|')", lambda m: "_" + m.group(1).lower(), word)
    return re.sub(r"(?<=[a-z0-9])([A-Z]+)", lambda m: "_" + m.group(1).lower(), word)


def lemma_files(files):
    return [f for f in files if f.suffix == ".antt" and not is_of_function(f)]


def is_of_function(f):
    return f.name in ("Proof.antt", "Answers.antt", "Invariants.antt")


def collect(files):
    functions, words, declared, definitions = set(), set(), set(), set(LIBRARY)
    for f in files:
        if f.parts[0] != "crates" or f.suffix not in (".antt", ".rt"):
            continue
        text = f.read_text()
        words.update(NAME.findall(text))
        if f.suffix == ".rt":
            functions.update(FUNCTION.findall(text))
            continue
        for line in text.split("\n"):
            m = DECLARED.match(line)
            if m:
                if not is_of_function(f):
                    declared.add(m.group(1))
                if "/specs/" in str(f) and not line.startswith(" "):
                    definitions.add(m.group(1))
    return functions, words, declared, definitions


def names_of(files):
    functions, words, declared, definitions = collect(files)
    new = dict(LEMMAS)
    for word in words:
        for part in word.split("-"):
            if is_camel(part):
                turned = snake(part)
                new[part] = turned + "_of" if turned in functions and not turned.endswith("_of") else turned
    parts = {new.get(d, d) for d in definitions}
    taken = (words - new.keys()) | set(new.values())
    for word in sorted(declared):
        if "-" not in word:
            continue
        pieces = [new.get(p, p) for p in word.split("-")]
        if pieces[-1] in ("determined", "fixed"):
            new[word] = "_".join(pieces)
            continue
        text = pieces[0]
        for before, after in zip(pieces, pieces[1:]):
            joins = all(piece in parts or piece[0].isupper() and len(piece) > 1 for piece in (before, after))
            text += ("-" if joins else "_") + after
        new[word] = text + "_lem" if text != word and (text in functions or text in taken) else text
    return new, words, declared, functions


def clashes(new, words, functions):
    """New names that something else has already."""
    taken, said = {}, []
    for old, now in new.items():
        if old == now:
            continue
        if now in taken or now in words and now not in new or now in functions:
            said.append(f"{old} and {taken.get(now, 'what is there')}: {now}")
        taken[now] = old
    return said


def turn(text, new, known, words_too=True):
    """The names of a text in their new spelling; of prose (`words_too` false) those alone that no other word looks like."""

    def piece(part):
        if part in new or not is_camel(part):
            return new.get(part, part)
        # what the toolchain's own script has respelled in the sources, and a page or an edit still spells as before
        return snake(part) if snake(part) in known else part

    def one(m):
        word = m.group(0)
        if word in new and (words_too or is_camel(word)):
            return new[word]
        return "-".join(piece(p) if is_camel(p) else p for p in word.split("-"))

    return NAME.sub(one, text)


def turn_line(line, new, known, comment):
    """A line of code: its strings stay, and what is behind the sign of a comment is prose."""
    code, sign, prose = line.partition(comment) if comment else (line, "", "")
    pieces = re.split(r'(b?"[^"]*")', code)
    code = "".join(p if i % 2 else turn(UNQUOTED.sub(unquoted, p), new, known) for i, p in enumerate(pieces))
    return code + sign + turn_prose(prose, new, known)


def turn_prose(text, new, known):
    pieces = re.split(r"(`[^`]*`)", text)
    return "".join(turn(p, new, known, i % 2 == 1) for i, p in enumerate(pieces))


UNQUOTED = re.compile(r"«([a-z][a-z0-9_]*)»")
RESERVED = set("in as data open record let where use pub mod elim rw simp search ruleset syntax mutual ghost".split())


def unquoted(m):
    return m.group(0) if m.group(1) in RESERVED else m.group(1)


def turned_text(f, text, new, words):
    if f.suffix == ".md":
        return turn_prose(text, new, words)
    if f.suffix == ".edit":
        lines = []
        for line in text.split("\n"):
            key = re.match(r"(old|new): ", line)
            lines.append(key.group(0) + turn_line(line[len(key.group(0)) :], new, words, "") if key else line)
        return "\n".join(lines)
    comment = "--" if f.suffix == ".antt" else "//"
    return "\n".join(turn_line(line, new, (), comment) for line in text.split("\n"))


# the outcome of an opening was called `result`, which is the returned value in a clause today
OPENINGS = re.compile(r"FrameOpening\.\{[^}]*\bresult\b")


def with_outcome(f, text):
    if OPENINGS.search(text) or str(f).endswith("frame_opening/specs/FrameOpening.antt"):
        return re.sub(r"(?<![\w'.-])result(?![\w'-])", "outcome", text)
    return text


def main():
    files = tracked()
    new, words, declared, functions = names_of(files)
    if sys.argv[1:] == ["names"]:
        for old, now in sorted(new.items()):
            if old != now:
                print(old, now)
        return
    for said in clashes(new, words, functions):
        print("falls together:", said)
    if sys.argv[1:] == ["clashes"]:
        return
    for f in files:
        if f.suffix in (".antt", ".rt", ".edit", ".md") and f.parts[0] != "host" and "notes" not in f.parts:
            text = f.read_text()
            turned = with_outcome(f, turned_text(f, text, new, words))
            if turned != text:
                f.write_text(turned)
    drop_marks()


# names that a page alone has beside the marked one
UNMARKED = {"session_keys", "command_lists", "demand_3"}


def drop_marks():
    """Takes `_lem` off where no file has the plain name beside the marked one."""
    files = [f for f in tracked() if f.suffix in (".antt", ".edit") or f.parts[0] == "docs" and f.suffix == ".md" and "notes" not in f.parts]
    texts = {f: f.read_text() for f in files}
    bases = {m[:-4] for t in texts.values() for m in re.findall(r"(?<![\w'-])[a-z_0-9]+_lem(?![\w'-])", t)}
    for base in sorted(bases):
        marked = re.compile(rf"(?<![\w'-]){base}_lem(?![\w'-])")
        plain = re.compile(rf"(?<![\w'.-]){base}(?![\w'.-])")
        both = [f for f, t in texts.items() if marked.search(t) and plain.search(re.sub(r"--.*", "", t))]
        if not both or base in UNMARKED:
            texts = {f: marked.sub(base, t) for f, t in texts.items()}
    for f, t in texts.items():
        if f.read_text() != t:
            f.write_text(t)


if __name__ == "__main__":
    main()
