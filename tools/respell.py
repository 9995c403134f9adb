#!/usr/bin/env python3
"""Brings the definitions and lemmas of this repository to the spelling of the newer toolchain, once, after port_once.sh.

usage: tools/respell.py            at the top of the repository

Functions, lemmas and fields of specs/ and proofs/ go to snake case, and a statement whose name had dashes to upper camel case.
Names of src/ keep their spelling. It says which new names were there before, since two names must not fall together.
"""

import glob
import re
import sys

# Names that are the subject's own words in comments stay as they are there.
FIELDS = {"thisUpdate", "nextUpdate", "expiredCertsOnCRL"}
FUNCTIONS = {"Ch": "ch", "Maj": "maj"}
STATEMENTS = {
    "Days-and-dates": "DaysAndDates",
    "Moments-and-times": "MomentsAndTimes",
    "Lists-apart": "ListsApart",
    "Entries-stand": "EntriesStand",
    "Items-written": "ItemsWritten",
    "One-encoding": "OneEncoding",
    "UtcTime-inverse": "UtcTimeInverse",
    "GeneralizedTime-inverse": "GeneralizedTimeInverse",
    "Rfc3339-inverse": "Rfc3339Inverse",
    "GeneralizedTime-ordered": "GeneralizedTimeOrdered",
    "Rfc3339-ordered": "Rfc3339Ordered",
    "Only-existing-times": "OnlyExistingTimes",
    "Drawn-and-no-other": "DrawnAndNoOther",
    "Valid-exactly": "ValidExactly",
    "Revoked-exactly": "RevokedExactly",
    "More-lists-lead-further": "MoreListsLeadFurther",
    "Finals-stay": "FinalsStay",
    "Finals-differ-in-kind-or-date": "FinalsDifferInKindOrDate",
    "All-worked": "AllWorked",
    "Not-inspects": "NotInspects",
}
# Definitions whose words a dash parted.
DASHED = """rest-is state-is total-is reads-back writes-back algorithm-text block-text entries-text entry-text first-text input-word
line-text list-text place-text reason-text refused-text rest-text run-text said-text signed-text hex-digit moment-or-dash
moment-text or-dash no-list ruling-at in-line in-word is-blank all-text answer-text command-text inspect-text verb-word
fault-text flaw-text""".split()
STAYS = {"lB", "lC", "lD", "cases_Bool"}
WORD = re.compile(r"\"[^\"\n]*\"|[A-Za-z_][\w]*")
CAMEL = re.compile(r"[a-z][a-z0-9_]*[A-Z]\w*\Z")
GHOST = re.compile(r"(?:ghost\s+use\s[^;]*;|ghost\s+\w+\s*[:=]\s*\{)|(?:requires|ensures)\*?(?:\s+\w+)?\s*\{")


def snake(word):
    return re.sub(r"(?<=[a-z0-9])(?=[A-Z])|(?<=[A-Z])(?=[A-Z][a-z])", "_", word).lower()


def closing(text, at):
    """The place after the brace that closes the one at 'at'."""
    depth = 0
    for it in re.compile(r"[{}]").finditer(text, at):
        depth += 1 if it[0] == "{" else -1
        if depth == 0:
            return it.end()
    sys.exit("no closing brace")


def ghost_spans(text):
    """The parts of a .rt file that contracts are read from."""
    spans = []
    for it in GHOST.finditer(text):
        if it[0].endswith(";"):
            spans.append(it.span())
        else:
            spans.append((it.start(), closing(text, it.end() - 1)))
    return spans


def turned(text, declared):
    """The text of specs/, proofs/ or a clause with each word in the new spelling."""

    def word(it):
        w = it[0]
        if w in FUNCTIONS and w in declared:
            return FUNCTIONS[w]
        return snake(w) if CAMEL.match(w) and w not in STAYS else w

    for old, new in [*STATEMENTS.items(), *((it, it.replace("-", "_")) for it in DASHED)]:
        text = re.sub(rf"(?<![\w-]){old}(?![\w-])", new, text)
    return WORD.sub(word, text)


def turned_comment(text, declared):
    def word(it):
        w = it[0]
        return snake(w) if w in declared - FIELDS and CAMEL.match(w) else w

    for old, new in STATEMENTS.items():
        text = re.sub(rf"(?<![\w-]){old}(?![\w-])", new, text)
    return WORD.sub(word, text)


def main():
    proofs = sorted(glob.glob("crates/*/specs/**/*.antt", recursive=True) + glob.glob("crates/*/proofs/**/*.antt", recursive=True))
    sources = sorted(glob.glob("crates/*/src/**/*.rt", recursive=True))
    texts = {p: open(p, encoding="utf-8").read() for p in proofs + sources}
    declared, before = set(), set()
    for p in proofs:
        code = re.sub(r"--.*", "", texts[p])
        declared |= {w for w in WORD.findall(code) if (CAMEL.match(w) and w not in STAYS) or w in FUNCTIONS}
        before |= set(WORD.findall(code))
    for p in sources:
        for a, b in ghost_spans(texts[p]):
            before |= set(WORD.findall(texts[p][a:b]))
    for w in sorted(declared):
        new = FUNCTIONS.get(w) or snake(w)
        if new in before:
            print(f"look: {w} becomes {new}, which stands already")
    for p, text in texts.items():
        if p.endswith(".antt"):
            lines = []
            for line in text.split("\n"):
                at = re.search(r"(^|\s)--(\s|$)", line)
                at = at.start() if at else len(line)
                lines.append(turned(line[:at], declared) + turned_comment(line[at:], declared))
            new = "\n".join(lines)
        else:
            new, last = "", 0
            for a, b in ghost_spans(text):
                new += turned_comment(text[last:a], declared) + turned(text[a:b], declared)
                last = b
            new += turned_comment(text[last:], declared)
        if new != text:
            with open(p, "w", encoding="utf-8") as file:
                file.write(new)


main()
