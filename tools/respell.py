#!/usr/bin/env python3
"""Brings this repository's own names in specs/ and proofs/ to one spelling.

usage: python3 tools/respell.py      at the top of the checkout, once, after the kit's port.py

Definitions and lemmas get snake case, types lose their dashes (upper camel case).  Names are taken from the definitions that the
tree has; the functions of src/, the goals that the check makes, strings, inputs and outputs keep theirs.  Contracts, ghost items,
edits and the code words of the pages follow.  A name that would fall together with another one stands in TOGETHER.
"""

import os
import re
import sys

# a lemma that would get the name of the definition it is about
TOGETHER = {
    "same-posting": "same_posting_lem",
    "served-place": "served_place_lem",
    "posted-to": "posted_to_lem",
    "strictly-over": "strictly_over_lem",
    "same-enrolment": "same_enrolment_lem",
}
# names that no definition shows: given by `as`, or brought over by the kit's script, which reads no edits and no pages
MORE = """
mustBe isWithin registerBranches
a-piece added-more added-new alike-self all-more all-of all-ones among-none any-at any-none any-same any-some as-long at-top
bit-past body-back bodyOf by-call byteAt bytesOf call-back callAt callsOf closed-same count-less count-most count-no count-none
count-same count-yes counts-same end-step every-more every-of field-fits filled-at first-any first-found first-more first-stops
held-more held-none holds-same homeOf in-cells isBranch keeps-local kept-record last-says layoutOf left-there lineAt lineFor
lineOf noPiece none-left none-seen noted-more numberOf ofFields offsetOf one-at-most one-below one-left only-at over-post
part-length pieceAt pieceOf place-inside placeOf put-full put-in read-back roleAt roles-more rows-few rowsOf said-read same-at
same-ends same-tests samePair setAt stays-by sum-less sum-more sum-same takeRow takes-same then-ok three-back three-said
top-apart two-back two-said width-few wordOf written-back
""".split()

SIGNATURE = re.compile(r"^\s*(?:(?:abbrev|unfoldable|pub|record|data)\s+)*([^\s(){}:;.,]+)(?:\s+[({][^)}]*[)}])*\s+:(?:\s|$)")
TOKEN = re.compile(r"(?<![\w'·-])[A-Za-z][\w'-]*(?![·])")
WORDS = re.compile(r"`[^`\n]+`")


def spelled(name):
    if name in TOGETHER:
        return TOGETHER[name]
    if name[0].isupper():
        return "".join(part[0].upper() + part[1:] for part in name.split("-"))
    return re.sub(r"(?<=[a-z0-9])([A-Z])", lambda m: "_" + m.group(1).lower(), name).replace("-", "_")


def files(*endings):
    for folder, folders, names in os.walk("."):
        folders[:] = [f for f in folders if f not in (".git", "out", "target", "tools")]
        for name in sorted(names):
            if name.endswith(endings):
                yield os.path.join(folder, name)


def defined():
    names = set(MORE)
    for path in files(".antt"):
        for line in open(path, encoding="utf-8"):
            found = SIGNATURE.match(line)
            # the answer of a goal has the goal's name, which the check makes
            if found and not line[found.end():].strip().startswith("goal."):
                names.add(found.group(1))
    return {name: spelled(name) for name in names if re.fullmatch(r"[A-Za-z][\w'-]*", name) and spelled(name) != name}


def main():
    names = defined()
    met = {}
    for old, new in sorted(names.items()):
        if new in met and met[new] != old:
            sys.exit(f"respell: {met[new]} and {old} would both be {new}")
        met[new] = old

    def turned(text):
        return TOKEN.sub(lambda m: names.get(m.group(0), m.group(0)), text)

    count = 0
    for path in files(".antt", ".rt", ".edit", ".md"):
        text = open(path, encoding="utf-8").read()
        new = WORDS.sub(lambda m: turned(m.group(0)), text) if path.endswith(".md") else turned(text)
        if new != text:
            count += 1
            open(path, "w", encoding="utf-8").write(new)
    print(f"respell: {len(names)} names, {count} files")


if __name__ == "__main__":
    main()
