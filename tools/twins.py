#!/usr/bin/env python3
"""Lists the functions of crates/*/src whose bodies differ only in names, types and numbers."""
import collections
import glob
import re
import sys

KEYWORDS = "as bool else enum false fn for if impl in let loop match mut pub ref return self struct true while".split()


def functions(text):
    """The name and the body of each function: from the brace that opens it to the one that closes it at the same depth of indentation."""
    for found in re.finditer(r"^( *)(?:pub |#\[[^\n]*\] )*(?:extern \"C\" )?fn (\w+)", text, re.M):
        indent, name = found.groups()
        body = re.compile(r"^%s(?:\) *(?:-> [^\n]*)?)?\{$\n(.*?)^%s\}$" % (indent, indent), re.M | re.S).search(text, found.start())
        one_line = re.compile(r"^%s[^\n]*fn %s\([^\n]*\{$\n(.*?)^%s\}$" % (indent, name, indent), re.M | re.S).match(text, found.start())
        chosen = one_line or body
        if chosen:
            yield name, chosen.group(1)


def shape(body):
    """The body with each name replaced by the number of its first place, and each number by one sign."""
    names = {}
    body = re.sub(r"//[^\n]*", "", body)
    words = re.findall(r"[A-Za-z_]\w*|\d+|b?\"[^\"]*\"|[^\s\w]", body)
    out = []
    for word in words:
        if word.isdigit() or word.startswith(('"', 'b"')):
            out.append("#")
        elif re.match(r"[A-Za-z_]", word) and word not in KEYWORDS:
            out.append("x%d" % names.setdefault(word, len(names)))
        else:
            out.append(word)
    return tuple(out)


def main(least):
    groups = collections.defaultdict(list)
    for path in sorted(glob.glob("crates/*/src/**/*.rt", recursive=True)):
        with open(path, encoding="utf-8") as file:
            text = file.read()
        for name, body in functions(text):
            form = shape(body)
            if len(form) >= least:
                groups[form].append("%s::%s" % (path.split("/")[1], name))
    for form, members in sorted(groups.items(), key=lambda pair: -len(pair[0])):
        if len(members) > 1:
            print(len(form), "words:", ", ".join(members))


if __name__ == "__main__":
    main(int(sys.argv[1]) if len(sys.argv) > 1 else 16)
