#!/usr/bin/env python3
"""Lists, in the sources of a commit, the places of the points of docs/DESIGN-PASS.md:  python3 tools/design.py [COMMIT] [POINT]

Without COMMIT the files as they stand; without POINT the counts alone. What a point's rule below finds is read by hand: the page says of each
place whether it was changed or why it is kept."""
import collections
import re
import subprocess
import sys


def files(commit, pattern):
    def git(*args):
        return subprocess.run(["git", *args], capture_output=True, text=True, check=True).stdout

    if commit:
        names = [n for n in git("ls-tree", "-r", "--name-only", commit).split("\n") if re.fullmatch(pattern, n)]
        return {n: git("show", f"{commit}:{n}") for n in names}
    return {n: open(n).read() for n in git("ls-files").split("\n") if re.fullmatch(pattern, n)}


def functions(text):
    """(line, name, parameters, clauses, body) of each function."""
    for m in re.finditer(r"^( *)(?:pub(?:\(crate\))? )?(?:extern \"C\" )?fn (\w+)(?:<[^(]*>)?\(", text, re.M):
        depth, i = 1, m.end()
        while depth:
            depth += {"(": 1, ")": -1}.get(text[i], 0)
            i += 1
        params = re.sub(r"\s+", " ", text[m.end():i - 1])
        end = re.search(r"^%s\}" % m.group(1), text[i:], re.M)
        rest = text[i:i + end.end()] if end else ""
        body = re.search(r"(^%s\{| \{)\n" % m.group(1), rest, re.M)
        head = rest[:body.start()] if body else rest
        yield text.count("\n", 0, m.start()) + 1, m.group(2), params, head, rest[body.end():] if body else ""


def point1(src):
    """Enums; flags beside values; numbers for refusals and kinds; answers whose comment says which value stands for none."""
    for n, t in src.items():
        for i, l in enumerate(t.split("\n"), 1):
            if re.match(r" *(pub(\(crate\))? )?enum ", l):
                yield n, i, l.strip()
            elif re.match(r"//.*\b(0|8|16|n|the length|xs\.len\(\)|the number of stripes|k) (where|for) (there is|it has|nobody|none|no |they|the line|a file|another)", l):
                yield n, i, l.strip()[:110]
        for m in re.finditer(r"struct (\w+)[^{;]*\{(.*?)^\}", t, re.M | re.S):
            for f in re.findall(r"\b(?:ok|found|number|refusal|faults|manner|form): [^&\n]*", m.group(2)):
                yield n, t.count("\n", 0, m.start()) + 1, f"struct {m.group(1)}, {f}"
        for i, name, params, head, body in functions(t):
            if re.search(r"(refusal|number|manner|kind|row_index|outcome_from)$", name) and re.search(r"-> (u8|usize|Outcome)\b", head) or name in ("encode", "potekawhi_encode", "potekawhi_decode"):
                yield n, i, f"fn {name}({params}){head.split(chr(10))[0]}"


def shape(body):
    b = re.sub(r"//.*", "", body)
    b = re.sub(r'b?"[^"]*"', "S", b)
    b = re.sub(r"\b\d+\w*\b", "N", b)
    names = {}
    keep = {"let", "mut", "if", "else", "return", "while", "for", "in", "match", "true", "false", "as", "len", "usize", "u16", "u8", "u64"}
    b = re.sub(r"[A-Za-z_]\w*", lambda m: m.group(0) if m.group(0) in keep else names.setdefault(m.group(0), f"v{len(names)}"), b)
    return re.sub(r"\s+", " ", b).strip()


def point2(src):
    """Functions of one shape: the same but for names, numbers and texts, with at least two statements or tests."""
    groups = collections.defaultdict(list)
    for n, t in src.items():
        for i, name, params, head, body in functions(t):
            s = shape(body)
            if len(s) > 40 and (s.count(";") + s.count("{") + s.count("<") + s.count("==")) > 1:
                groups[s].append((n, i, "fn " + name))
    for s, g in groups.items():
        if len(g) > 1:
            yield from g


def point3(src):
    """Loops whose index or place is counted by hand."""
    for n, t in src.items():
        for m in re.finditer(r"^( *)while ([^\n]*)\{\n(.*?)^\1\}", t, re.M | re.S):
            words = set(re.findall(r"\b[a-z_]\w*\b", m.group(2)))
            if any(re.search(r"\b%s (\+|-)= |\b%s = \w+ [+-]" % (w, w), m.group(3)) for w in words):
                yield n, t.count("\n", 0, m.start()) + 1, "while " + m.group(2).strip()


HAND = r"is_equal|copy|silence|fill|write|smaller|least|limit|at_most_16|quorum|bit|is_outside|low|high|word|wide|of_byte|of_word|byte|is_same|is_marked|put|get|outcome_number|outcome_from|round_number|call_number|less|odd|is_digit|is_hex|hex|append_outcome|append_decimal|append_hex|write_digits|write_hex|digit_byte|hex_byte|with_call|with_matrix|with_votes|with_core|with_named|initial|zero_state|decimal|byte_number|hex_byte|decoded_number|decoded_marks"


def point4(src):
    """Functions that compare, copy, convert or print by hand."""
    for n, t in src.items():
        for i, name, params, head, body in functions(t):
            if re.fullmatch(HAND, name):
                yield n, i, f"fn {name}({params})"


def point5(src):
    """Facts that three or more functions of a crate require, and groups of three parameters that three or more of its functions take."""
    facts, groups = collections.defaultdict(list), collections.defaultdict(list)
    for n, t in src.items():
        crate = n.split("/")[1]
        for i, name, params, head, body in functions(t):
            for r in re.findall(r"requires[^{]*\{ (.*) \}$", head, re.M):
                for f in r.split(" × "):
                    facts[crate, f.strip("() ").replace(".old", ".now")].append((n, i, name))
            p = [re.sub(r"&mut ", "&", x.strip()) for x in re.sub(r"\[[^]]*\]", "[]", params).split(",") if ":" in x]
            for a in range(len(p) - 2):
                groups[crate, ", ".join(p[a:a + 3])].append((n, i, name))
    for (crate, f), g in facts.items():
        if len(g) > 2:
            yield f"crates/{crate}", len(g), "fact: " + f
    for (crate, f), g in groups.items():
        if len(g) > 2:
            yield f"crates/{crate}", len(g), "parameters: " + f


def point6(src):
    """Structs with an array and how many of it count, or with several arrays of one length; parameters `buffer, place`."""
    for n, t in src.items():
        for m in re.finditer(r"struct (\w+)[^{;]*\{(.*?)^\}", t, re.M | re.S):
            arrays = re.findall(r"\[\w+; \w+\]", m.group(2))
            if arrays and re.search(r"\b(length|count|end): usize", m.group(2)) or len(arrays) > len(set(arrays)):
                yield n, t.count("\n", 0, m.start()) + 1, "struct " + m.group(1)
        for i, name, params, head, body in functions(t):
            if re.search(r"(out|buf|bytes): &(mut )?\[u8\], (at|length|len): usize", params):
                yield n, i, f"fn {name}({params})"


def point7(src):
    """Functions that only choose, by a kind or a number, which function runs."""
    for n, t in src.items():
        for i, name, params, head, body in functions(t):
            arms = re.findall(r"^ *[\w:|() .=]+ => \{?\s*!?(\w+(?:::\w+)*)\(", body, re.M)
            if len(arms) > 2 and not all(re.match(r"Ok|Err|Some", a) for a in arms):
                yield n, i, f"fn {name}: {len(arms)} arms"
            elif re.search(r"\bif (most|from_smaller)\b", body):
                yield n, i, f"fn {name}: a flag"


def main():
    args = sys.argv[1:]
    point = int(args.pop()) if args and re.fullmatch(r"[1-8]", args[-1]) else 0
    commit = args[0] if args else ""
    src = files(commit, r"crates/\w+/src/.*\.rt")
    points = [point1, point2, point3, point4, point5, point6, point7]
    for k, f in enumerate(points, 1):
        found = list(f(src))
        if point in (0, k):
            print(f"{k}. {f.__doc__} {len(found)}")
        if point == k:
            for place in found:
                print("   ", *place)
    if point in (0, 8):
        answers = files(commit, r"crates/\w+/proofs/.*/Answers\.antt")
        each = [a for t in answers.values() for a in re.split(r"\n(?=pub [^:\n]* : goal\.)", t)[1:]]
        plain = [a for a in each if re.search(r"^\S+ .*=\s*(omega|search|grind|refl|tt|zero-le)\b[^\n]*\s*\Z", a, re.M)]
        print(f"8. Answers, and those that are a tactic or a name alone. {len(each)}, {len(plain)}")


main()
