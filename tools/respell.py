#!/usr/bin/env python3
"""Brings this repository's own definitions and lemmas to the spelling of today's Rattle: words in snake case.

    python3 tools/respell.py           at the top, once, after port.py, before a commit and before any edit by hand
    python3 tools/respell.py --map     only prints the names, old and new

Each must-fail edit comes over with it: where its old text stood in the file of before (the commit that stands), the new spelling of that place is its old
text now, and its new text differs from it as it did. What could not be brought over so is printed.

`port.py` respells the library's names and those of ours that a library had too. What it leaves of ours, `blockLimit` and `damage-front`, becomes
`block_limit` and `damage_front` here: in specs/, in proofs/, in the clauses and imports of src/, and in comments where a name is meant. A name that a
function of src/ has already gets `_lem`, as the library does it. Types, modules, functions of src/ and what Rattle itself names (goals, steps, folders
of proofs) keep their names.
"""
import collections
import difflib
import glob
import os
import re
import subprocess
import sys

EDGE = r"[\w'′+*\-]"

# Names that would fall together with another of ours, or that a field beside them has.
CHOSEN = {
    "belowZero": "is_below_zero",
    "tooLarge": "is_too_large",
    "tooMany": "is_too_many",
    "inOrder": "is_in_order",
    "body-length": "length_body",
    "decimal-within": "decimal_within_lem",
    "group-row": "row_of_group",
    "means-row": "row_means",
}
OWN = [line.split(":")[0].split()[0] for line in open("crates.txt") if line.strip() and not line.startswith("#")]


def read(path):
    with open(path, encoding="utf-8") as f:
        return f.read()


def antt_files():
    return sorted(p for c in OWN for p in glob.glob(f"crates/{c}/specs/**/*.antt", recursive=True) + glob.glob(f"crates/{c}/proofs/**/*.antt", recursive=True))


def without_comments(text):
    return "\n".join(re.sub(r"(^|\s)--(\s.*)?$", "", line) for line in text.split("\n"))


def is_walk(path):
    return os.path.basename(path) in ("Proof.antt", "Answers.antt", "Invariants.antt")


def snake(name):
    name = re.sub(r"(?<=[a-z0-9])(?=[A-Z])", "_", name.replace("-", "_"))
    name = re.sub(r"(?<=[a-z])(?=\d+[A-Z_])(?<!_[ui])", "_", name) if re.search(r"[A-Z]", name) else name
    return re.sub(r"_+", "_", name.lower())


# Names that stand in a library, and those that Rattle makes, are not ours to change.
def foreign(texts):
    found = set()
    for text in texts.values():
        for module, names in re.findall(r"(?m)^\s*(?:ghost )?(?:pub )?use (\S+?)\.\{([^}]*)\}", text):
            crate = module.split(".")[1] if module.startswith("Rattle.") and "." in module else ""
            made = re.search(r"\.(declared|contracts|Given|Goals|Tie|Statement|Lts)(\.|$)", module)
            if crate not in OWN or made:
                for name in names.split(","):
                    found.add(name.split(" as ")[0].strip())
    return found


def declared(texts):
    """Each name that our files declare, whether Rattle asks for it under this very name in all of them, and the crates that declare it."""
    asked, crates_of = collections.defaultdict(list), collections.defaultdict(set)
    for path, text in texts.items():
        plain = without_comments(text)
        for match in re.finditer(r"(?m)^\s*(?:(?:unfoldable|abbrev|pub|data|record|mutual)\s+)*((?:[^\s:(){}=]+\s+)+?)(?:[({][^\n]*?[)}]\s*)*:\s+(\S*)", plain):
            for name in match.group(1).split():
                ours = is_walk(path) and (re.match(r"(tie|goal|goal-\w+)\.", match.group(2)) or name.endswith("-spec") or "-Inv-" in name or re.match(r"(decreases|invariant|ghost)-", name))
                asked[name].append(bool(ours))
                crates_of[name].add(path.split("/")[1])
    return {name: all(was) for name, was in asked.items()}, crates_of


def mapping(texts):
    functions = collections.defaultdict(set)
    for path, text in texts.items():
        if path.endswith(".rt"):
            functions[path.split("/")[1]].update(re.findall(r"\bfn (\w+)", text))
    others = foreign(texts)
    known, crates_of = declared({p: t for p, t in texts.items() if p.endswith('.antt')})
    new = {}
    for name, by_rattle in known.items():
        if by_rattle or name in others or not (re.match(r"[a-z][\w'-]*[A-Z]", name) or re.match(r"[a-z0-9][\w']*(-[\w']+)+$", name)):
            continue
        to = CHOSEN.get(name) or snake(name)
        new[name] = to + "_lem" if any(to in functions[c] for c in crates_of[name]) else to
    return new, known, others


def replacer(new):
    names = sorted(new, key=len, reverse=True)
    return re.compile(rf"(?<!{EDGE})(?:{'|'.join(map(re.escape, names))})(?!{EDGE})")


def respell(path, text, new, known, comments):
    pattern = replacer(new)
    walk = is_walk(path)
    plain = without_comments(text)
    here = {m.group(1) for m in re.finditer(r"(?m)^(?:abbrev )?(?:pub )?([^\s:]+) : (?:tie|goal)\.", plain)} if walk else set()

    def one(match, line):
        name = match.group(0)
        before = line[match.start() - 1] if match.start() else " "
        if name in here or (walk and before == "." and re.search(r"(tie|goal|Tie|Goals|Given|Lts)\.$", line[: match.start()])):
            return name
        return new[name]

    out = []
    for line in text.split("\n"):
        comment = re.search(r"(^|\s)--(\s|$)" if path.endswith(".antt") else r"(^|\s)//", line)
        code, tail = (line[: comment.start()], line[comment.start() :]) if comment else (line, "")
        if path.endswith(".antt") or re.search(r"ghost use|requires|ensures|\bghost\b|≡|≤|<|λ", code):
            code = pattern.sub(lambda m: one(m, code), code)
        if tail:
            table = re.match(r"\s*(?:--|//)   \S", tail)
            if table:
                head = re.match(r"\s*(?:--|//)   +.*?(?:   |$)", tail).end()
                first, rest = tail[:head], tail[head:]
                tail = pattern.sub(lambda m: new[m.group(0)], first) + re.sub(r"`[^`]*`", lambda q: pattern.sub(lambda m: new[m.group(0)], q.group(0)), rest)
            else:
                tail = re.sub(r"`[^`]*`", lambda q: pattern.sub(lambda m: new[m.group(0)], q.group(0)), tail)
            tail = comments.sub(lambda m: new[m.group(0)], tail)
        out.append(code + tail)
    return "\n".join(out)


TOKEN = re.compile(r"[^\W\d][\w'′·\-]*|\d\w*|\s+|[^\w\s]")


# The words of a text and where each stands.
def words_of(text):
    return [(m.group(0), m.start(), m.end()) for m in TOKEN.finditer(text) if not m.group(0).isspace()]


class Turned:
    """A file of before and as it stands now, word for word."""

    def __init__(self, before, now):
        self.now, self.a, self.b = now, words_of(before), words_of(now)
        self.to, self.words = {}, collections.defaultdict(collections.Counter)
        matcher = difflib.SequenceMatcher(None, [w[0] for w in self.a], [w[0] for w in self.b], autojunk=False)
        for tag, i1, i2, j1, j2 in matcher.get_opcodes():
            if i2 - i1 == j2 - j1:
                for k in range(i2 - i1):
                    self.to[i1 + k] = j1 + k
                    self.words[self.a[i1 + k][0]][self.b[j1 + k][0]] += 1

    def word(self, w):
        return self.words[w].most_common(1)[0][0] if w in self.words else w


def turn_text(text, turned, new):
    text = re.sub(r"(?<=[\w)]) \.(?=\w)", ".", text).replace("′", "'")
    text = TOKEN.sub(lambda m: turned.word(m.group(0)), text)
    return replacer(new).sub(lambda m: new[m.group(0)], text)


def turn_pair(before, turned, old, put, new):
    """The place of `old` in the file as it stands, and what the edit makes of it; or None."""
    if before.count(old) != 1:
        return None
    start = before.index(old)
    inside = [i for i, w in enumerate(turned.a) if w[1] >= start and w[2] <= start + len(old)]
    if not inside or any(i not in turned.to for i in (inside[0], inside[-1])):
        return None
    first, last = turned.to[inside[0]], turned.to[inside[-1]]
    lead, trail = old[: len(old) - len(old.lstrip())], old[len(old.rstrip()) :]
    place = turned.now[turned.b[first][1] : turned.b[last][2]]
    if "\n" in place:
        return None
    changed = turn_text(put.strip(), turned, new)
    if turn_text(old.strip(), turned, new) != place:
        # The words between the changed ones are those of the place.
        a, b = words_of(turn_text(old.strip(), turned, new)), words_of(changed)
        here = words_of(place)
        if [w[0] for w in a] != [w[0] for w in here]:
            return None
        made, end = "", 0
        for tag, i1, i2, j1, j2 in difflib.SequenceMatcher(None, [w[0] for w in a], [w[0] for w in b], autojunk=False).get_opcodes():
            if tag == "equal":
                made += changed[end : b[j1][1]] + place[here[i1][1] : here[i2 - 1][2]]
                end = b[j2 - 1][2]
        changed = made + changed[end:]
    while turned.now.count(lead + place + trail) != 1:
        return None
    return lead + place + trail, lead + changed + trail


def turn_edits(commit, new):
    left, n = [], 0
    for path in sorted(p for c in OWN for p in glob.glob(f"crates/{c}/must-fail/*.edit")):
        lines = read(path).split("\n")
        out, file, old, ok = [], None, None, True
        state = {}
        for line in lines:
            if line.startswith("file: "):
                file = line[6:]
                if file not in state:
                    full = os.path.normpath(os.path.join(os.path.dirname(path), "..", file))
                    shown = subprocess.run(["git", "show", f"{commit}:{full}"], capture_output=True, text=True)
                    state[file] = (shown.stdout, Turned(shown.stdout, read(full)))
                out.append(line)
            elif line.startswith("old: "):
                old = line[5:]
            elif line.startswith("new: ") or line == "new:":
                before, turned = state[file]
                pair = turn_pair(before, turned, old, line[5:], new)
                if pair is None:
                    ok = False
                    break
                out += [f"old: {pair[0]}", f"new: {pair[1]}".rstrip() if not pair[1] else f"new: {pair[1]}"]
            else:
                out.append(line)
        n += 1
        if not ok:
            left.append(path)
            continue
        if out != lines:
            with open(path, "w", encoding="utf-8") as f:
                f.write("\n".join(out))
    print(f"edits: {n - len(left)} of {n} brought over")
    for path in left:
        print("left:", path)


def main():
    texts = {p: read(p) for p in antt_files()}
    sources = {p: read(p) for c in OWN for p in sorted(glob.glob(f"crates/{c}/src/**/*.rt", recursive=True))}
    new, known, others = mapping({**texts, **sources})
    camel = replacer({n: t for n, t in new.items() if re.search(r"[A-Z]", n)})
    # Names that fall together, with each other or with one that stands in the same file.
    taken = collections.defaultdict(list)
    for name, to in new.items():
        taken[to].append(name)
    for to, names in sorted(taken.items()):
        if len(names) > 1 or to in known or to in others:
            print("look:", ", ".join(names), "->", to, "(declared)" if to in known else "", "(a library's)" if to in others else "")
    for path, text in texts.items():
        plain = without_comments(text)
        for name in set(replacer(new).findall(plain)):
            if re.search(rf"(?<!{EDGE})(?<!\.){re.escape(new[name])}(?!{EDGE})", plain):
                print(f"look: {path}: {name} -> {new[name]}, which stands there")
    if "--map" in sys.argv:
        for name in sorted(new):
            print(name, new[name])
        return
    for path, text in {**texts, **sources}.items():
        after = respell(path, text, new, known, camel)
        if after != text:
            with open(path, "w", encoding="utf-8") as f:
                f.write(after)
    turn_edits("HEAD", new)


main()
