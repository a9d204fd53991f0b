"""Lists places in crates/*/src that an older Rattle's forms leave, for docs/DESIGN-PASS.md.

    python3 tools/design_places.py [COMMIT]

Of the work tree, or of a commit. Each line is a place; the last lines count them. What a line names is a place to read, no verdict:
  enum     a declared enum, with its variants
  twin     functions of one shape: the same text once names, types and numbers are blanked
  index    a `for` over a range, or a `while`
  hand     a function that compares, converts, numbers or prints by hand, by its name or its match
  clause   a `requires` that stands in three functions or more, names blanked
  travel   three parameters that stand together in three functions or more
  length   a function that answers a count beside a buffer that it is lent, or takes both
  switch   a match of five arms or more, or one that calls a function in each arm
"""
import collections
import re
import subprocess
import sys


def sources(commit):
    if commit:
        names = subprocess.run(["git", "ls-tree", "-r", "--name-only", commit, "crates"], capture_output=True, text=True, check=True)
        for name in names.stdout.split("\n"):
            if re.match(r"crates/\w+/src/.*\.rt$", name):
                yield name, subprocess.run(["git", "show", commit + ":" + name], capture_output=True, text=True, check=True).stdout
    else:
        names = subprocess.run(["git", "ls-files", "crates"], capture_output=True, text=True, check=True)
        for name in names.stdout.split("\n"):
            if re.match(r"crates/\w+/src/.*\.rt$", name):
                yield name, open(name).read()


def functions(text):
    """Each function of a file: its line, its name, its head with clauses, and its body."""
    text = re.sub(r"//[^\n]*", "", text)
    for match in re.finditer(r"\bfn (\w+)", text):
        depth, at = 0, match.end()
        # the body is the last block before the next item at the same depth; clauses are blocks behind `requires` and `ensures`
        while at < len(text):
            if text[at] == ";" and depth == 0:
                at = None
                break
            if text[at] in "([":
                depth += 1
            elif text[at] in ")]":
                depth -= 1
            elif text[at] == "{" and depth == 0:
                words = re.search(r"(requires|ensures)(\s+\w+)?\s*$", text[match.end():at])
                end, level = at, 0
                while True:
                    level += {"{": 1, "}": -1}.get(text[end], 0)
                    end += 1
                    if level == 0:
                        break
                if not words:
                    yield text.count("\n", 0, match.start()) + 1, match.group(1), text[match.start():at], text[at:end]
                    break
                at = end
                continue
            at += 1


def shape(body):
    """The body with names, types and numbers blanked."""
    body = re.sub(r'"[^"]*"', "S", body)
    body = re.sub(r"\b(if|else|for|in|let|mut|match|return|while|fn|as|Some|None|Ok|Err|true|false|self)\b", lambda m: "@" + m.group(1) + "@", body)
    body = re.sub(r"(?<!@)\b[A-Za-z_0-9]+\b(?!@)", "x", body)
    return re.sub(r"\s+", "", body)


def main():
    commit = sys.argv[1] if len(sys.argv) > 1 else None
    found = collections.defaultdict(list)
    shapes, needs, travels = collections.defaultdict(list), collections.defaultdict(set), collections.defaultdict(set)
    for name, text in sources(commit):
        plain = re.sub(r"//[^\n]*", "", text)
        for match in re.finditer(r"^(?:pub(?:\(crate\))? )?enum (\w+)[^{]*\{(.*?)^\}", plain, re.M | re.S):
            variants = re.findall(r"^    (\w+)", match.group(2), re.M)
            found["enum"].append(f"{name} {match.group(1)}: {', '.join(variants)}")
        for line, words in enumerate(plain.split("\n"), 1):
            if re.match(r"\s*(for .* in .*\.\.|while )", words):
                found["index"].append(f"{name}:{line} {words.strip()}")
        for line, function, head, body in functions(text):
            where = f"{name}:{line} {function}"
            if len(shape(body)) >= 40:
                shapes[shape(body)].append(where)
            if re.match(r"(is_same|is_at|is_junk|check_same|compare|against|number|kind|size_in_bits|width_in_bits|pack|unpack|pack_\w+|unpack_\w+|to_\w+|from|try_from|write|read)$", function):
                found["hand"].append(where)
            for need in re.findall(r"requires(?:\s+\w+)?\s*\{([^}]*)\}", head):
                needs[re.sub(r"\b[a-z_]+(\.\w+)*\b", "x", need).strip()].add(where)
            arguments = re.search(r"\(([^{]*?)\)\s*(->|requires|ensures|where|$)", head, re.S)
            kinds = [re.sub(r"\s+", " ", a.split(":", 1)[1]).strip() for a in (arguments.group(1).split(",\n") if arguments else []) if ":" in a]
            flat = [a for part in kinds for a in re.split(r", (?=\w+:)", part)]
            for i in range(len(flat) - 2):
                travels[" | ".join(flat[i:i + 3])].add(where)
            if re.search(r"&mut \[", head) and re.search(r"-> (\w+::)?(Result<)?usize", head):
                found["length"].append(where)
            if len(re.findall(r"=>", body)) >= 5:
                found["switch"].append(where)
    for text, places in shapes.items():
        if len(places) > 1:
            found["twin"].append(" ~ ".join(places))
    for text, places in needs.items():
        if len(places) > 2:
            found["clause"].append(f"{{ {text} }} in {len(places)}: {', '.join(sorted(p.split()[-1] for p in places))}")
    for text, places in travels.items():
        if len(places) > 2:
            found["travel"].append(f"{text} in {len(places)}: {', '.join(sorted(p.split()[-1] for p in places))}")
    for kind in ("enum", "twin", "index", "hand", "clause", "travel", "length", "switch"):
        for place in found[kind]:
            print(kind, place)
    print(", ".join(f"{kind} {len(found[kind])}" for kind in ("enum", "twin", "index", "hand", "clause", "travel", "length", "switch")))


main()
