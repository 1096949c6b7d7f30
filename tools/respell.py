#!/usr/bin/env python3
"""Spells the repository's own definitions and lemmas as the library spells its own.

usage: python3 tools/respell.py [--check] [FOLDER]

A word is in snake case: `layerOf` becomes `layer_of`, `script-bytes` becomes `script_bytes`.
A type is in upper camel case: `Letters-tell` becomes `LettersTell`.
Names that Rattle makes for goals and facts, names of the library and names of the Rust source stay.
--check writes nothing and lists the names that would fall together in some file.
Run once, after the kit's own script; a second run changes nothing.
"""

import collections
import os
import re
import sys

WORD = re.compile(r'[^\s(){}.;,@"«»]+')
QUIET = re.compile(r'"(?:[^"\\\n]|\\.)*"|(?<![^\s(){}.;,@"«»])--[^\n]*|\{-.*?-\}', re.S)
SPAN = re.compile(r"`[^`\n]*`")
USE = re.compile(r"(?<![\w-])use +([^\s{};]+?)(?:\.\{([^}]*)\})?(?: as ([^\s;]+))?(?=\s|;|$)")
DECLARED = re.compile(r"(?m)^( *)((?:(?:pub|abbrev|unfoldable|record|data) +)*)((?:[^\s(){}.;,@\"«»]+ )*?[^\s(){}.;,@\"«»]+)((?: \{[^{}\n]*\}| \([^()\n]*\))*) :(?= |$)(.*)")
CLAUSE = re.compile(r"(?:requires|ensures)\*?\s*(?:\w+\s*)?\{|ghost\s+\w+\s*(?::|=)\s*(?:\w+\s+)?\{|ghost\s*\{")
GENERATED = re.compile(r"^Rattle\.\w+\.(specs\.declared|proofs\.(?:.*\.)?(?:Goals|Given))(\.|$)")

# Names that a list of constructors, an `as` or a lemma's parameters declare, where the search for declarations does not see them.
FURTHER = set(
    """followedBy ◌followedBy◌ lines-in-use listLevel ntFactor ntStat
    nodes-limit cell-limit table-limit used-by hasName hasOrder canCompare inClass nextToken
    Gives-none New-is Wide-Row new-long old-is now-is links-is slice₂-is wrote-is wrote-long ws₂-is
    at-is cs'-is e-is es'-is f'-is fs-is g-is h-is k-is l-is m-is ms'-is n-is r-is u'-is v-is vs-is w-is ws-is""".split()
)

# A cycle of functions was named after all of them; now after what they read.
CYCLES = {
    "assigned_bool_term_bracket_comp_term_enclosed_expr_extended_factor_inside_joined_level_low_term_minus_more_not_operand_operated_unary": "expression",
    "item_list_more_items_tuple_const": "lists",
}

# Names that would fall together with another of their file, and what they are called in its place.
APART = {
    "Gives-none": "gives_none",
    "New-is": "new_is",
    "Wide-Row": "wide_row",
    "argument-of": "argument_of_lem",
    "is-atom": "is_atom_lem",
    "keyword-terminal": "keyword_terminal_lem",
    "last-place": "last_place_lem",
    "leaf-pays": "leaf_pays_lem",
    "line_after": "line_after_lem",
    "line_reply": "line_reply_lem",
    "nameBytes": "bytes_of_name",
    "nameIs": "name_part_is",
    "newest-or": "newest_or_lem",
    "no-arg": "no_arg_lem",
    "refused-at": "refused_at_lem",
    "statAssign": "stat_is_assign",
    "statIf": "stat_is_if",
    "statRead": "stat_is_read",
    "statWhile": "stat_is_while",
    "statWrite": "stat_is_write",
    "symbol-terminal": "symbol_terminal_lem",
    "too-deep": "too_deep_lem",
    "typeIs": "type_part_is",
    "word-pays": "word_pays_lem",
    "word_on": "word_on_lem",
}


def spelled(name):
    if name in APART:
        return APART[name]
    if name[0].isupper():
        if "-" not in name:
            return name
        return "".join(part[:1].upper() + part[1:] for part in name.split("-"))
    if not (name[0].isalpha() and name[0].isascii()) and name[0] != "◌":
        return name
    return re.sub(r"(?<=[a-z0-9])[A-Z]", lambda m: "_" + m[0].lower(), name).replace("-", "_")


def files(root, *endings):
    for folder, dirs, names in os.walk(os.path.join(root, "crates")):
        dirs[:] = sorted(d for d in dirs if d != "out")
        for name in sorted(names):
            if name.endswith(endings):
                yield os.path.join(folder, name)


def read(path):
    with open(path, encoding="utf-8", newline="") as f:
        return f.read()


def blank(text):
    """The text with strings and comments blanked, at the same places."""
    return QUIET.sub(lambda m: re.sub(r"[^\n]", " ", m[0]), text)


def declared(root):
    """Each name that an .antt file of the repository declares, and those of them that are fields of records."""
    names, fields = set(), set()
    for path in files(root, ".antt"):
        in_record = None
        for line in blank(read(path)).split("\n"):
            m = DECLARED.match(line)
            if line.strip() and in_record is not None and len(line) - len(line.lstrip()) <= in_record:
                in_record = None
            if not m:
                continue
            if m[5].strip().startswith("goal."):
                continue
            for name in m[3].split():
                names.add(name)
                if in_record is not None:
                    fields.add(name)
            if "record" in m[2].split():
                in_record = len(m[1])
    return {n for n in names if spelled(n) != n} | FURTHER, {n for n in fields if spelled(n) != n}


def imported(text):
    """Which names a file brings in from the library or from what Rattle makes: those stay."""
    foreign, aliases = set(), {}
    for m in USE.finditer(text):
        module, items, alias = m[1], m[2], m[3]
        ours = is_ours(module)
        if items is not None:
            for item in items.split(","):
                item = item.strip()
                first, _, last = item.partition(" as ")
                if not ours:
                    foreign.add((last or first).strip())
        else:
            aliases[alias or module.rsplit(".", 1)[-1]] = ours
    return foreign, aliases


OWN = set()


def is_ours(module):
    parts = module.split(".")
    return len(parts) > 2 and parts[0] == "Rattle" and parts[1] in OWN and not GENERATED.match(module)


class Speller:
    def __init__(self, names, fields):
        self.names, self.fields = names, fields
        self.met = collections.defaultdict(lambda: collections.defaultdict(set))

    def word(self, path, word, before, foreign, aliases):
        """The new spelling of a word that stands behind the text `before`."""
        if before.endswith("."):
            head = re.search(r"([^\s(){};,@\"«»]+)\.$", before)
            head = head[1] if head else ""
            first = head.split(".")[0]
            if first == "Rattle" and is_ours(head) or aliases.get(head, False):
                return spelled(word) if word in self.names else word
            return spelled(word) if word in self.fields else word
        if word in foreign or word not in self.names:
            return word
        return spelled(word)

    def code(self, path, text, start=0, end=None, foreign=frozenset(), aliases=None):
        end = len(text) if end is None else end
        quiet = blank(text)
        out, last = [], start
        for m in WORD.finditer(quiet, start, end):
            before = quiet[max(start, m.start() - 200):m.start()]
            new = self.word(path, m[0], before, foreign, aliases or {})
            if not before.endswith("."):
                self.met[path][new].add(m[0])
            out.append(text[last:m.start()] + new)
            last = m.end()
        out.append(text[last:end])
        return "".join(out)

    def uses(self, path, text):
        """`use` lines, by the module they name."""
        def turn(m):
            if m[2] is None:
                return m[0]
            if not is_ours(m[1]):
                return m[0]
            items = re.sub(WORD, lambda w: spelled(w[0]) if w[0] in self.names else w[0], m[2])
            return m[0].replace("{" + m[2] + "}", "{" + items + "}")
        return USE.sub(turn, text)

    def prose(self, text):
        """Code spans and words in camel case of a comment."""
        text = SPAN.sub(lambda m: WORD.sub(lambda w: self.plain(w[0]), m[0][1:-1]).join("``"), text)
        return re.sub(r"(?<![\w`-])[a-z]+(?:[A-Z][a-z0-9]+)+(?![\w-])", lambda m: self.plain(m[0]), text)

    def plain(self, word):
        return spelled(word) if word in self.names else word

    def antt(self, path, text):
        foreign, aliases = imported(blank(text))
        spans = [(m.start(), m.end()) for m in USE.finditer(blank(text))]
        out, at = [], 0
        for start, end in spans + [(len(text), len(text))]:
            out.append(self.code(path, text, at, start, foreign, aliases))
            out.append(self.uses(path, text[start:end]))
            for m in WORD.finditer(text, start, end):
                if m[0] in foreign:
                    self.met[path][m[0]].add(m[0])
            at = end
        text = "".join(out)
        return QUIET.sub(lambda m: self.prose(m[0]) if m[0].startswith("--") else m[0], text)

    def rt(self, path, text):
        uses = re.compile(r"ghost use [^;]*;")
        foreign, aliases = imported(text)
        text = uses.sub(lambda m: self.uses(path, m[0]), text)
        out, at = [], 0
        while True:
            m = CLAUSE.search(text, at)
            if not m:
                break
            depth, end = 1, m.end()
            while depth:
                depth += {"{": 1, "}": -1}.get(text[end], 0)
                end += 1
            out.append(text[at:m.end()])
            out.append(self.code(path, text, m.end(), end, foreign, aliases))
            at = end
        text = "".join(out) + text[at:]
        return re.sub(r"(?m)^(\s*)//.*$", lambda m: self.prose(m[0]), text)


def pages(root):
    yield os.path.join(root, "README.md")
    for name in sorted(os.listdir(os.path.join(root, "docs"))):
        if name.endswith(".md"):
            yield os.path.join(root, "docs", name)


def write(path, old, new, check):
    if new != old and not check:
        with open(path, "w", encoding="utf-8", newline="") as f:
            f.write(new)


def move_cycles(root):
    """The folder of a cycle's proofs has the cycle's name behind a plus."""
    for folder, dirs, _ in os.walk(os.path.join(root, "crates")):
        for name in dirs:
            if name[1:] in CYCLES and name[0] == "+":
                os.rename(os.path.join(folder, name), os.path.join(folder, "+" + CYCLES[name[1:]]))


def main(words):
    check = "--check" in words
    folders = [w for w in words if not w.startswith("--")]
    root = folders[0] if folders else "."
    OWN.update(os.listdir(os.path.join(root, "crates")))
    names, fields = declared(root)
    for plain, camel in ("line_after", "lineAfter"), ("line_reply", "lineReply"), ("word_on", "wordOn"):
        if camel not in names:
            APART.pop(plain, None)
            names.discard(plain)
    speller = Speller(names, fields)
    for path in files(root, ".antt", ".rt"):
        old = read(path)
        new = speller.antt(path, old) if path.endswith(".antt") else speller.rt(path, old)
        for long, short in CYCLES.items():
            new = new.replace(long, short)
        write(path, old, new, check)
    for path in pages(root):
        old = read(path)
        write(path, old, speller.prose(old), check)
    if not check:
        move_cycles(root)
    for path, news in sorted(speller.met.items()):
        for new, olds in sorted(news.items()):
            if len(olds) > 1:
                print(f"together: {os.path.relpath(path, root)}: {' and '.join(sorted(olds))} would be {new}")


if __name__ == "__main__":
    main(sys.argv[1:])
