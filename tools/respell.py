#!/usr/bin/env python3
"""Spells the repository's own antt names in snake case: definitions, lemmas, record fields, constructors, bound names.

usage: respell.py [--dry] [--pages] [--table FILE] [--show FILE]

Run at the top of a checkout, after the kit's port.py and before any edit by hand. A second run changes nothing.

A word that begins with a small letter gets underscores, as sumOf and sum-of become sum_of. A word that begins with a
capital is a fact, a type or a module and keeps its letters: All-append becomes All_append. OTHER below has the names
that get another spelling.
What stays: names of Rust items, names from the kit's libraries, names that Rattle makes (a goal of a function's proof
that stands in its file as 'NAME : tie...', a step, a statement, a label), strings, names of files, must-fail/*.edit.

It prints a row for each name that changed, old and new, and the number of places. --dry writes no file.
--pages also turns names in backquotes and in camel case in the pages (*.md, *.txt of the top, docs/, tests/, tools/,
  bindings/) and in the tests' and the tools' own files, and names behind a module, as 'graph/specs/Graph: edgeOf, ..'.
--table FILE writes JSON: {module: {old: new}} of the names that each module declares, and under "" those of all.
--show FILE writes those rows there in place of the output.

If two names of one file would meet, or a name would be a reserved word, it prints a list that begins 'clash:', changes
nothing and ends with status 1. Give one of the two another name in OTHER, or in OTHER_IN for one module.
A line that begins 'look:' names what it left and what you may want to read.

Another script turns a piece of a file (an edit's text) so, at the top of the checkout:
    r = respell.Repository(); r.prepare(); new = r.fragment("crates/c/specs/M.antt", old)
"""

import collections
import json
import os
import re
import sys

# The same idea for several types has the type first: a state of the tables, a table's words, the ends of a list.
OTHER = {}
for _it in (
    "apply attach detach dropEdge insertEdge insertVertex moveEdge moveVertex moveWord placeEdge plan removeEdge "
    "removeVertex setEdge setThis setVertex"
).split():
    OTHER[_it + "S"] = "state_" + re.sub("[A-Z]", lambda m: "_" + m[0].lower(), _it)
for _it in "insert join move put unlink".split():
    OTHER[_it + "T"] = OTHER[_it + "_t"] = OTHER[_it + "-t"] = "table_" + _it
    OTHER[_it + "E"] = "ends_" + _it

OTHER.update(
    vertexS="state_add_vertex", edgeS="state_add_edge", wordS="state_add_word",
    rowVT="table_vertex_row", rowET="table_edge_row", thisET="table_edge_this",
    countV="head_with_vertices", countE="head_with_edges", foundV="lookup_vertex", foundE="lookup_edge",
)
# The function is get_or, no longer getD.
OTHER["getD-above"], OTHER["getD-below"] = "get_or_above", "get_or_below"

# A field or a definition that would meet a function, a field or a library's name beside it.
OTHER["edge-numbers"] = "distinct_edge_numbers"
OTHER["vertex-numbers"] = "distinct_vertex_numbers"
OTHER["call-words"] = "length_calls"
OTHER["lastLine"] = "end_line"
OTHER["countBy"] = "count_by_key"  # std's Prelude has a count_by
OTHER["endsAt"] = "vertex_ends"

# Names that one module declares. Most are a lemma that would have its function's name, which gets '_lem'.
OTHER_IN = {
    "Rattle.image.proofs.Counts": {"count_by": "count_by_key_lem"},
    "Rattle.lists.proofs.Counts": {"count_by": "count_by_key_lem"},
    "Rattle.timeline.proofs.lent.put_place.Proof": {"at_place": "at_place_fn"},
    "Rattle.timeline.proofs.lent.put_step.Proof": {"after-step": "after_step_fn"},
    "Rattle.recorder.proofs.OutcomeLaws": {"tooFew": "too_few_copies"},
    "Rattle.store_calls.proofs.GuardLaws": {"mark-place": "mark_place_lem", "place-in": "place_in_steps"},
}
for _module, _names in {
    "arrangement.proofs.Arrive": "calls-from",
    "copies.proofs.CopyLaws": "copy-words",
    "copies.proofs.RoleLaws": "other-role",
    "engine.proofs.CallLaws": "call-at",
    "graph.proofs.Incidence": "in-word out-word",
    "graph.proofs.Numbers": "edge-number vertex-number",
    "graph_tables.proofs.Answers": "reading-at reading-kind",
    "graph_tables.proofs.LookedUp": "found-row",
    "history_calls.proofs.Calls": "moved-to",
    "image.proofs.Loads": "image-length",
    "image.proofs.Room": "few-edges few-vertices",
    "image.proofs.Sizes": "record-size",
    "image.proofs.WordSize": "words-of",
    "image_check.proofs.DegreePass": "good-degree",
    "image_check.proofs.Offsets": "edge-cut",
    "image_check.proofs.ReadOrder": "is-degree",
    "image_check.proofs.SoundLoads": "edge-numbers",
    "image_check.proofs.Turns": "list-owners",
    "image_tables.proofs.Saved": "edge-words",
    "journal.proofs.RowLaws": "edit-at",
    "machine.proofs.Lowest": "no_room",
    "machine.proofs.NameLaws": "no_name same-name",
    "machine.proofs.OneStore": "is-store",
    "machine.proofs.PriceLaws": "price-on",
    "machine.proofs.StoreGoing": "is-store",
    "machine.proofs.StoreLaws": "calls-to",
    "machine.proofs.StoreStarts": "start-graphs",
    "marks.proofs.MarkLaws": "in-set mark-put",
    "question_calls.proofs.AnswerLaws": "reading-kind word-answer",
    "reduction.proofs.OutcomeLaws": "too_long",
    "stores.proofs.StartLaws": "image-at",
    "transcript.proofs.Replies": "list-number start-rows",
}.items():
    for _it in _names.split():
        OTHER_IN.setdefault("Rattle." + _module, {})[_it] = _it.replace("-", "_") + "_lem"

# What antt reserves.
RESERVED = set(
    "data record deriving module where use mod pub package open as unfoldable abbrev axiom unfold unfolding ruleset "
    "mutual infix infixl infixr elim let in do com coe fcoe tcoe hcom pattern tt absurd".split()
)
# A definition's name in a clause is also a Rust word there.
RUST_WORDS = set(
    "as break const continue crate else enum extern fn for if impl in let loop match mod move mut pub ref return self "
    "static struct super trait type unsafe use where while async await dyn result".split()
)

WORD = r'[^\s(){}.;,@"«»]+'
PIECE = re.compile(
    r'"(?:[^"\\\n]|\\.)*"|(?<![^\s(){}.;,@"«»])--[^\n]*|\{-.*?-\}|' + WORD + r"|\s+|.",
    re.S,
)
RUST_PIECE = re.compile(
    r"""//[^\n]*|/\*.*?\*/|[bc]?r(#*)".*?"\1|[bc]?"(?:\\.|[^"\\])*"|b?'(?:\\u\{[0-9a-fA-F_]+\}|\\x..|\\.|[^'\\])'|'\w+|\w+|\s+|.""",
    re.S,
)
LETTER = re.compile(r"[^\W\d_]")
MARKS = r"(?:(?:pattern|unfoldable|abbrev|axiom|pub|let) +)*"
SIGNATURE = re.compile(
    rf"(?m)^ *(?:where +|let +)?{MARKS}({WORD}(?: {WORD})*?)(?: \{{[^{{}}\n]*\}})* :(?= |$)"
)
TYPES = re.compile(rf"(?m)^ *(?:pub )?(?:record|data) ({WORD})")
RECORD = re.compile(rf"(?m)^( *)(?:pub )?record {WORD}")
GOAL = re.compile(rf"(?m)^(?:abbrev |pub )*({WORD}) : (?:tie|goal)\.")
CAMEL = re.compile(r"(?<![\w.:/-])[a-z][a-z0-9]*(?:[A-Z][a-z0-9]*)+(?:-[a-zA-Z0-9]+)*(?![\w-])")
SPAN = re.compile(r"`[^`\n]+`")
LISTED = re.compile(r"(?<![\w/])([a-z_]+/(?:specs|proofs)/[\w/+]+):([^;|\n]*)")
COMMAND = re.compile(r"`(?:rt |\./|git |tools/|tests/|-|.*[/\\=<>|$])")


def snake(part):
    """A word that begins with a small letter, in snake case."""
    cut = re.sub(r"(?<=[^\W_A-Z])(?=[A-Z])|(?<=[A-Z])(?=[A-Z][a-z])", "_", part)
    return re.sub("[A-Z]", lambda m: m[0].lower(), cut)


def spelled(name, module=None):
    """The name as it is to be spelled, if this module declares it."""
    if name in OTHER_IN.get(module, ()):
        return OTHER_IN[module][name]
    if name in OTHER:
        return OTHER[name]
    if not LETTER.search(name) or name.startswith("?"):
        return name
    head = re.match(r"[#◌]*", name)[0]
    parts = re.split(r"(?<=[^◌-])-(?=[^◌-])", name[len(head) :])
    return head + "_".join(snake(it) if it[:1].islower() else it for it in parts)


def quiet(text):
    """The text with its comments and strings blank."""
    blank = lambda m: " " * len(m[0]) if m[0][0] in '"-{' and len(m[0]) > 1 else m[0]
    return "".join(
        re.sub(r"[^\n]", " ", it) if len(it) > 1 and (it[:2] in ("--", "{-") or it[0] == '"') else it
        for it in (m[0] for m in PIECE.finditer(text))
    )


def files(top, ends):
    for folder, folders, names in os.walk(top):
        folders[:] = sorted(it for it in folders if it not in ("must-fail", "out", "target") and it[0] != ".")
        for name in sorted(names):
            if name.endswith(ends):
                yield os.path.join(folder, name)


def module_of(path):
    """Rattle.c.specs.M of crates/c/specs/M.antt; Rattle.c.specs of its Lib."""
    steps = path[: -len(".antt")].replace(os.sep, "/").split("/")[1:]
    if steps[-1] == "Lib":
        steps = steps[:-1]
    return ".".join(["Rattle", *steps])


class Repository:
    def __init__(self):
        self.texts, self.modules = {}, {}
        for path in files("crates", (".antt", ".rt")):
            with open(path, encoding="utf-8") as f:
                self.texts[path] = f.read()
            if path.endswith(".antt"):
                self.modules[module_of(path)] = path
        self.declared, self.goals = {}, {}
        self.fields = set()  # names of own records' fields
        self.rust = set()  # words of Rust, but for those in clauses
        for path, text in self.texts.items():
            if path.endswith(".antt"):
                code = quiet(text)
                names = {it for m in SIGNATURE.finditer(code) for it in m[1].split()}
                names |= {m[1] for m in TYPES.finditer(code)}
                self.declared[path] = {it for it in names if LETTER.search(it)}
                self.goals[path] = set(GOAL.findall(code)) if path.endswith(("Proof.antt", "Answers.antt", "Invariants.antt")) and path.count("/") > 3 else set()
                for m in RECORD.finditer(code):
                    rest = code[m.end() :].split("\n")[1:]
                    deep = len(m[1])
                    for line in rest:
                        if line.strip() and len(line) - len(line.lstrip()) <= deep and not line.lstrip().startswith("("):
                            break
                        one = re.match(rf" *(?:pub )?({WORD}(?: {WORD})*?) :(?= |$)", line)
                        if one:
                            self.fields.update(one[1].split())
        self.places = collections.Counter()  # of each old and new name
        self.said, self.clashes = [], []
        self.per_module = collections.defaultdict(dict)

    def is_own(self, path):
        return path in self.modules

    # ---- what a file brings in

    def brought(self, code):
        """Of the 'use' lines: {name: module or None}, {alias of a module: module or None}, and the places of words in them."""
        names, aliases = {}, {}
        for m in re.finditer(
            rf"(?<![^\s{{}}();])(open +)?use +({WORD}(?:\.{WORD})*)(?:\.\{{([^{{}}]*)\}}|\.\*)?(?: +as +({WORD}))?", code
        ):
            if m[1]:
                continue
            path, items, alias = m[2], m[3], m[4]
            if items is None:
                aliases[alias or path.split(".")[-1]] = path
                continue
            for item in items.split(","):
                words = item.split()
                if words:
                    names[words[-1]] = (path, words[0])
        return names, aliases

    # ---- antt

    def fragment(self, path, text):
        """A piece of a file's text, as an edit cites it, with the names that the whole file brings in."""
        turn = self.turn_antt if path.endswith(".antt") else self.turn_rt
        return turn(path, text, self.texts[path])

    def turn_antt(self, path, text, whole=None):
        code = quiet(whole or text)
        names, aliases = self.brought(code)
        goals = self.goals[path]
        is_proof = path.endswith("Proof.antt")
        here = module_of(path)

        def new(it, module=None):
            if module is None and it in names and names[it][1] == it:
                module = names[it][0]
            return spelled(it, module or here)

        keep = {it for it, (module, word) in names.items() if not self.is_own(module) and it == word}
        pieces = [m[0] for m in PIECE.finditer(text)]
        kinds = [""] * len(pieces)
        # kinds: n a plain name, d a name behind a dot, l a label of a record or an argument's name
        in_use, plain = None, collections.defaultdict(set)
        solid = [i for i, it in enumerate(pieces) if not it.isspace() and it[:2] not in ("--", "{-")]
        behind = {b: a for a, b in zip(solid, solid[1:])}
        ahead = dict(zip(solid, solid[1:]))
        out = list(pieces)
        at = 0
        while at < len(solid):
            i = solid[at]
            it = pieces[i]
            if it == "use" and (i == solid[0] or pieces[behind[i]] != "."):
                at = self.turn_use(pieces, out, solid, at, new, path, plain, goals)
                continue
            if it[0] == '"' or re.fullmatch(r"[(){}.;,@«»]", it) or it.isdigit():
                at += 1
                continue
            tight = i > 1 and pieces[i - 1] == "." and not pieces[i - 2].isspace()
            if tight:
                turned = self.behind_dot(pieces, i, path, aliases, new, is_proof)
            else:
                before = pieces[behind[i]] if i in behind else ""
                after = pieces[ahead[i]] if i in ahead else ""
                label = before in ("{", ";") and after == "="
                if label:
                    turned = new(it) if it in self.fields or it in self.binders else it
                    if turned == it != new(it):
                        self.said.append(f"look: {path}: the label {it} was left")
                elif it in keep or it in goals:
                    turned = it
                    plain[it].add(it)
                else:
                    turned = new(it)
                    plain[turned].add(it)
            out[i] = turned
            if turned != it:
                self.note(it, turned)
            at += 1
        if whole is None:
            self.look_for_clashes(path, plain)
        for it in sorted(self.declared[path] - goals):
            if spelled(it, here) != it:
                self.per_module[here][it] = spelled(it, here)
        for i, it in enumerate(pieces):
            if it[:2] in ("--", "{-"):
                out[i] = self.prose(it)
        return "".join(out)

    def turn_use(self, pieces, out, solid, at, new, path, plain, goals):
        """Turns a 'use' line; returns the place behind it."""
        opened = at > 0 and any(pieces[it] == "open" for it in solid[max(0, at - 8) : at])
        steps, at = [], at + 1
        items = None
        while at < len(solid):
            i = solid[at]
            it = pieces[i]
            if it == "{" and (pieces[i - 1] == "." or opened and not steps):
                break
            if it == ".":
                at += 1
                continue
            if steps and pieces[i - 1] != ".":
                break
            steps.append(it)
            at += 1
        module = ".".join(steps)
        own = self.is_own(module) or opened
        if at < len(solid) and pieces[solid[at]] == "{":
            at += 1
            item = []
            while at < len(solid):
                i = solid[at]
                it = pieces[i]
                if it in ",}":
                    if item:
                        first, last = item[0], item[-1]
                        word = pieces[first]
                        turned = word
                        if opened:
                            turned = new(word) if word in self.fields else word
                        elif own:
                            turned = new(word, module)
                        alias = pieces[last] if len(item) > 1 else None
                        out[first] = turned
                        if turned != word:
                            self.note(word, turned)
                        if alias is not None:
                            out[last] = new(alias)
                            if out[last] != alias:
                                self.note(alias, out[last])
                            plain[out[last]].add(alias)
                            if out[last] == turned:
                                for j in range(first + 1, last + 1):
                                    out[j] = ""
                        else:
                            plain[turned].add(word)
                        item = []
                    at += 1
                    if it == "}":
                        break
                    continue
                item.append(i)
                at += 1
        elif at < len(solid) and pieces[solid[at]] == "as" and "\n" not in "".join(pieces[solid[at - 1] : solid[at]]):
            i = solid[at + 1]
            out[i] = new(pieces[i])
            if out[i] != pieces[i]:
                self.note(pieces[i], out[i])
            plain[out[i]].add(pieces[i])
            at += 2
        return at

    def behind_dot(self, pieces, i, path, aliases, new, is_proof):
        it = pieces[i]
        # the head of the dotted name
        j = i
        while j > 1 and pieces[j - 1] == "." and re.fullmatch(WORD, pieces[j - 2]):
            j -= 2
        chain = pieces[j:i:2]
        if chain:
            head = aliases.get(chain[0])
            for module in (head and ".".join([head, *chain[1:]]), ".".join(chain)):
                if module and self.is_own(module):
                    return new(it, module)
            if head is not None and not self.is_own(head):
                return it
        new = lambda it: spelled(it)
        if new(it) == it:
            return it
        made = it.replace("-", "_") in self.rust
        if it in self.fields:
            if is_proof and made and "-" in it:
                before = chain[-1] if chain else ")"
                if before in ("c", "before", "true", "false", "args", "ranges") or before in self.made_heads(path):
                    return it
            return new(it)
        if not is_proof:
            self.said.append(f"look: {path}: .{it} was left")
        return it

    def made_heads(self, path):
        """The names that a proof binds to a place of the code, as 'let a = c.before in'."""
        text = self.texts[path]
        heads = set()
        for _ in range(3):
            known = "|".join(map(re.escape, sorted(heads | {"c"})))
            heads.update(re.findall(rf"(?:let|;|where)\s+({WORD}) = (?:{known})(?:\.before|\.true|\.false)* ", text))
        return heads

    # ---- Rust

    def turn_rt(self, path, text, whole=None):
        pieces = [m[0] for m in RUST_PIECE.finditer(text)]
        out, own, plain = [], {}, collections.defaultdict(set)
        for m in re.finditer(r"\bghost\s+use\s+([\w.]+)(?:\.\{([^{}]*)\})?(?:\s+as\s+(\S+?))?;", whole or text):
            for item in (m[2] or "").split(","):
                words = item.split()
                if words:
                    own[words[-1]] = self.is_own(m[1]) and m[1]
        new = lambda it, module=None: spelled(it, module or own.get(it) or None)
        spans = list(self.clauses(pieces))
        inside = [None] * len(pieces)
        for a, b, kind in spans:
            for k in range(a, b):
                inside[k] = kind
        k = 0
        while k < len(pieces):
            it = pieces[k]
            if inside[k] is None:
                out.append(self.prose(it) if it[:2] in ("//", "/*") else it)
                k += 1
                continue
            kind, start = inside[k], k
            while k < len(pieces) and inside[k] is kind:
                k += 1
            out.append(self.turn_clause("".join(pieces[start:k]), kind, own, new, plain, path))
        if whole is not None:
            return "".join(out)
        self.look_for_clashes(path, plain)
        for start in {it[1] for it in inside if it and it[0] == "clause"}:
            a, b = next((a, b) for a, b, kind in spans if kind == ("clause", start))
            words = {it for it in re.findall(WORD, "".join(pieces[a:b])) if own.get(it) and new(it) != it}
            for it in sorted(words):
                if new(it) in self.parameters("".join(pieces[:a])):
                    self.clashes.append(f"clash: {path}: {it} would be {new(it)}, a parameter beside its clause")
        return "".join(out)

    def parameters(self, text):
        """The parameters of the function that this text ends in."""
        heads = list(re.finditer(r"\bfn \w+", text))
        if not heads:
            return set()
        rest = re.sub(r"//[^\n]*", "", text[heads[-1].end() :])
        return set(re.findall(r"[(,]\s*(?:mut )?(\w+)\s*:", rest.split("->")[0].split("ensures")[0]))

    def clauses(self, pieces):
        """The places of clauses and of 'ghost use' items."""
        for i, it in enumerate(pieces):
            if it == "ghost" and "".join(pieces[i : i + 3]).split() == ["ghost", "use"]:
                end = pieces.index(";", i)
                yield i, end, ("use", i)
            elif it in ("requires", "ensures", "ghost", "invariant", "decreases"):
                j = i + 1
                while j < len(pieces) and (pieces[j].isspace() or pieces[j] in "*:" or re.fullmatch(r"\w+", pieces[j])):
                    j += 1
                if j >= len(pieces) or pieces[j] != "{" or it == "ghost" and "use" in pieces[i:j]:
                    continue
                deep, k = 0, j
                while k < len(pieces):
                    deep += {"{": 1, "}": -1}.get(pieces[k], 0)
                    k += 1
                    if not deep:
                        break
                yield j, k, ("clause", i)

    def turn_clause(self, text, kind, own, new, plain, path):
        parts = [m[0] for m in PIECE.finditer(text)]
        turned = list(parts)
        own_module = False
        if kind[0] == "use":
            m = re.match(r"ghost\s+use\s+([\w.]+?)(?:\.\{|$|\s)", text)
            own_module = bool(m and self.is_own(m[1])) and m[1]
            if own_module:
                new = lambda it, new=new: spelled(it, own_module)
        for i, it in enumerate(parts):
            if not re.fullmatch(WORD, it) or new(it) == it:
                if re.fullmatch(WORD, it) and kind[0] == "clause" and not (i and parts[i - 1] == "."):
                    plain[it].add(it)
                continue
            dotted = i > 1 and parts[i - 1] == "." and not parts[i - 2].isspace()
            if kind[0] == "use":
                mine = own_module and not dotted
            elif dotted:
                mine = it in self.fields and it not in self.rust
            else:
                mine = own.get(it, False)
            if mine:
                turned[i] = new(it)
                self.note(it, turned[i])
                if not dotted:
                    plain[turned[i]].add(it)
            else:
                self.said.append(f"look: {path}: {it} was left in a clause")
        return "".join(turned)

    # ---- comments and pages

    def prose(self, text):
        """Names in backquotes, and names in camel case, if they are or were names of this repository."""

        def one(m):
            word = m[0]
            if word in self.rust or word in self.after:
                return word
            new = self.all.get(word) or self.by_module.get(word) or spelled(word)
            return new if new in self.after else word

        def span(m):
            return m[0] if COMMAND.match(m[0]) else re.sub(r"[^\s`(){}.;,@\"'«»]+'*", one, m[0])

        return CAMEL.sub(one, SPAN.sub(span, text))

    # ---- the whole

    def note(self, old, new):
        self.places[old, new] += 1

    def look_for_clashes(self, path, plain):
        for new, olds in sorted(plain.items()):
            if len(olds) > 1:
                self.clashes.append(f"clash: {path}: {' and '.join(sorted(olds))} would both be {new}")
        for new, olds in sorted(plain.items()):
            taken = RESERVED if path.endswith(".antt") else RESERVED | RUST_WORDS
            if new in taken and olds != {new}:
                self.clashes.append(f"clash: {path}: {' and '.join(sorted(olds))} would be the reserved word {new}")

    def prepare(self):
        """Collects what the repository declares, before any text is turned."""
        self.binders = set()
        for path, text in self.texts.items():
            if path.endswith(".antt"):
                for m in re.finditer(rf"[({{]({WORD}(?: {WORD})*) : ", quiet(text)):
                    self.binders.update(m[1].split())
            else:
                pieces = [m[0] for m in RUST_PIECE.finditer(text)]
                inside = set()
                for a, b, _ in self.clauses(pieces):
                    inside.update(range(a, b))
                self.rust.update(
                    it for i, it in enumerate(pieces) if i not in inside and re.fullmatch(r"[^\W\d]\w*", it)
                )
        self.all = {}
        for path, names in self.declared.items():
            here = module_of(path)
            for it in sorted(names - self.goals[path]):
                # what OTHER_IN says of one module is no rule for pages
                if spelled(it) != it:
                    self.all[it] = spelled(it)
        # names as they are spelled afterwards, for comments and pages
        self.after, self.by_module = set(), {}
        for path, names in self.declared.items():
            here = module_of(path)
            self.after.update(it if it in self.goals[path] else spelled(it, here) for it in names)
        for names in OTHER_IN.values():
            self.by_module.update((old, new) for old, new in names.items() if "-" in old)

    def run(self, dry, pages):
        self.prepare()
        done = {}
        for path, text in self.texts.items():
            turn = self.turn_antt if path.endswith(".antt") else self.turn_rt
            done[path] = turn(path, text)
        if pages:
            for path in self.pages():
                try:
                    with open(path, encoding="utf-8", newline="") as f:
                        self.texts[path] = f.read()
                except UnicodeDecodeError:
                    continue
                done[path] = self.turn_page(path, self.texts[path])
        if self.clashes:
            return False
        if not dry:
            for path, text in done.items():
                if text != self.texts[path]:
                    with open(path, "w", encoding="utf-8", newline="") as f:
                        f.write(text)
        self.changed = sum(text != self.texts[path] for path, text in done.items())
        return True

    def pages(self):
        for name in sorted(os.listdir(".")):
            if name.endswith((".md", ".txt")):
                yield name
        for top in ("docs", "tests", "tools", "bindings", "bench", "examples"):
            for path in files(top, ""):
                name = os.path.basename(path)
                script = top in ("tests", "tools") and "." not in name
                # this script says old names beside new ones
                if name == "respell.py":
                    continue
                if script or name.endswith((".md", ".py", ".sh", ".rs", ".c", ".cpp", ".h")):
                    yield path
        for path in files("crates", (".md",)):
            yield path

    def turn_page(self, path, text):
        text = self.prose(text)
        return LISTED.sub(self.listed, text) if path.endswith(".md") else text

    def listed(self, m):
        """The names of one module, as 'graph/specs/Graph: vertex_number, edge_number'."""
        module = ".".join(["Rattle", *m[1].split("/")])
        if not self.is_own(module):
            return m[0]
        names = self.declared[self.modules[module]]
        after = names | {spelled(it, module) for it in names}

        def one(it):
            new = spelled(spelled(it[0], module), module)
            return new if new in after else it[0]

        return m[1] + ":" + re.sub(r"(?<![\w/.-])[a-z]\w*(?:-\w+)*'*(?![\w/-])", one, m[2])


def option(args, name):
    if name not in args:
        return None
    at = args.index(name)
    value = args[at + 1]
    del args[at : at + 2]
    return value


def main():
    args = sys.argv[1:]
    table, show = option(args, "--table"), option(args, "--show")
    if set(args) - {"--dry", "--pages"} or not os.path.isdir("crates"):
        sys.exit(__doc__)
    it = Repository()
    good = it.run("--dry" in args, "--pages" in args)
    if not good:
        print("\n".join(sorted(set(it.clashes))))
        sys.exit(f"{len(set(it.clashes))} clashes: nothing was changed")
    rows = "".join(f"{old}\t{new}\t{count}\n" for (old, new), count in sorted(it.places.items()))
    if show:
        with open(show, "w", encoding="utf-8") as f:
            f.write(rows)
    else:
        print(rows, end="")
    if table:
        whole = {"": dict(sorted(it.all.items())), **{k: dict(sorted(v.items())) for k, v in sorted(it.per_module.items())}}
        with open(table, "w", encoding="utf-8") as f:
            json.dump(whole, f, ensure_ascii=False, indent=1)
            f.write("\n")
    for line in sorted(set(it.said)):
        print(line)
    print(f"names: {len(it.places)}; places: {sum(it.places.values())}; files changed: {it.changed}")


if __name__ == "__main__":
    main()
