#!/usr/bin/env python3
"""Breaks clauses and rewraps comments of Rattle sources at 100 columns. Nothing but white space changes.

usage: wrap.py [--check] FILE..

A clause (`ensures`, `requires`, what a `ghost` name stands for) that is longer than a line is broken at spaces: after an arrow or before a product where one
is at hand, and as far out in its parentheses as can be; what follows stands four columns further in. Comments are filled;
list items, headings, tables and code in them stay as they are. `ghost use` lines, code and clauses that fit stay too.
With `--check` no file is written, and the status is 1 where one would be. `rt fmt` afterwards lays out records in clauses.
"""
import re
import sys

WIDTH = 100


def spaces(text):
    """Each space outside a string: its place, the depth of parentheses there, and how good a break it is."""
    depth, quoted, out, k = 0, False, [], 0
    while k < len(text):
        c = text[k]
        if quoted:
            if c == "\\":
                k += 1
            elif c == '"':
                quoted = False
        elif c == '"':
            quoted = True
        elif c in "([{":
            depth += 1
        elif c in ")]}":
            depth -= 1
        elif c == " " and text[k + 1:] not in ("}", "};"):
            before, after = text[:k].split(" ")[-1], text[k + 1:].split(" ")[0]
            out.append((k, depth, before in ("→", "in", "↔") or after in ("×", "⊎", "++")))
        k += 1
    return out


def broken(line):
    """The lines of a clause that is one line."""
    indent = re.match(r" *", line).group(0)
    text, lines, first = line.strip(), [], True
    further = 4 if CLAUSE.match(text) else 0
    while len(indent) + (0 if first else further) + len(text) > WIDTH:
        room = WIDTH - len(indent) - (0 if first else further)
        least = text.index("{") + 2 if first and "{" in text else 8
        fits = [s for s in spaces(text) if least < s[0] <= room]
        good = [s for s in fits if s[0] > room // 3]
        if not (good or fits):
            break
        at = min(good or fits, key=lambda s: (s[1], not s[2], -s[0]))[0]
        lines.append(indent + " " * (0 if first else further) + text[:at])
        text, first = text[at + 1:], False
    return lines + [indent + " " * (0 if first else further) + text]


CLAUSE = re.compile(r" *(ensures\b|requires\b|(pub )?ghost \w+ = )")
# `rt fmt` decides on a record that a `ghost` name stands for
FORMATTED = re.compile(r" *(pub )?ghost \w+ = .*\brecord \{")
COMMENT = re.compile(r"^( *)(///|//!|//)( ?)(.*)$")
KEEP = re.compile(r"^(\s|[-*+] |\d+\. |#|\||```)")


def filled(prefix, words):
    lines, line = [], prefix
    for word in words:
        if len(line) + 1 + len(word) > WIDTH and line != prefix:
            lines.append(line)
            line = prefix
        line += " " + word
    return lines + [line]


def wrapped(lines):
    out, k = [], 0
    while k < len(lines):
        line = lines[k]
        comment = COMMENT.match(line)
        if comment:
            # a paragraph: comments of one kind and indent that are no item and no heading
            prefix, block = comment.group(1) + comment.group(2), []
            while k < len(lines):
                m = COMMENT.match(lines[k])
                if not m or m.group(1) + m.group(2) != prefix:
                    break
                block.append(m.group(4))
                k += 1
            out += paragraphs(prefix, block)
            continue
        if CLAUSE.match(line):
            depth = 0
            while True:
                # a clause that has line breaks keeps them
                out += broken(lines[k]) if len(lines[k]) > WIDTH and not FORMATTED.match(lines[k]) else [lines[k]]
                depth += open_in(lines[k])
                k += 1
                if depth <= 0 or k == len(lines):
                    break
            continue
        out.append(line)
        k += 1
    return out


def paragraphs(prefix, block):
    if all(len(prefix) + 1 + len(text) <= WIDTH for text in block):
        return [(prefix + " " + text).rstrip() for text in block]
    out, para, hang = [], [], False
    for text in block + [""]:
        starts = KEEP.match(text) and not (hang and text.startswith("  "))
        if not text or starts:
            if para:
                out += hung(prefix, para, hang)
            para, hang = [], False
        if not text:
            out.append(prefix)
        elif re.match(r"([-*+] )", text):
            para, hang = [text], True
        elif starts:
            out.append(prefix + " " + text)
        else:
            para.append(text.strip())
    return out[:-1]


def hung(prefix, para, hang):
    words = " ".join(para).split()
    if not hang:
        return filled(prefix, words)
    lines = filled(prefix + "  ", words)
    return [prefix + lines[0][len(prefix) + 2:]] + lines[1:]


def open_in(line):
    """How many braces a line opens more than it closes."""
    line = re.sub(r'"(\\.|[^"\\])*"', '""', line)
    return line.count("{") - line.count("}")


def plain(text):
    """The text without what may change: white space, and the marks of comments at the beginning of lines."""
    return "".join(re.sub(r"^ *(///|//!|//)", "", line) for line in text.split("\n")).replace(" ", "")


def main():
    check = "--check" in sys.argv
    changed = 0
    for path in sys.argv[1:]:
        if path == "--check":
            continue
        text = open(path, encoding="utf-8").read()
        new = "\n".join(wrapped(text.split("\n")))
        if plain(new) != plain(text):
            sys.exit(f"{path}: more than white space would change")
        if new != text:
            changed += 1
            if check:
                print(path)
            else:
                open(path, "w", encoding="utf-8").write(new)
    print(f"{changed} files", "would change" if check else "changed")
    sys.exit(1 if check and changed else 0)


main()
