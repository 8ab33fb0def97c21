#!/usr/bin/env python3
"""Whether what the documents name is there. Prints each name that is not, with its place; status 1 where there is one.

Checked are names in back quotes (`Board::turn_at`, `loners`), each part against the words of the code, definitions,
proofs, tools and file names; and paths of files in crates (crates/help_text/src/texts.rt, `debug_core/specs/Answers`,
with or without the ending) and of scripts (`tools/waves`, `.ci/run`). That a name is a clause of the function beside it
is .ci/claims.awk's. Left alone are blocks of code, and OTHERS: what belongs to other projects or is an example.

usage, at the top: .ci/doc_names.py [DOCUMENT ..]
Without documents it checks all but docs/FORMATS.md, docs/GUIDE.md and examples/from-c/README.md, whose names are often
those of a reader's application.
"""
import glob
import os
import re
import sys

OTHERS = set("SchedState InSend InReply InRecv TaskState FaultInfo UsageError USlice ULease Sysnum safe_copy genhtml "
             "rwatch awatch F new file".split())
DOCUMENTS = (["README.md", "CONTRIBUTING.md", "crates/README.md", "examples/README.md", "tools/README.md", "bench/README.md"]
             + sorted(path for path in glob.glob("docs/*.md") if not path.endswith(("FORMATS.md", "GUIDE.md"))))
NAME = r"`([A-Za-z_][\w:]*)(?:\(\))?`"
PATH = r"(?<![\w./-])((?:crates/)?\w+/(?:src|specs|proofs)/\w[\w/]*(?:\.\w+)?|(?:\.ci|tools|bench)/\w[\w/]*(?:\.\w+)?)"
ENDINGS = ("", ".rt", ".antt")


def known_words():
    """Every word of the sources, comments aside, and of the names of files and folders. What a build makes does not count."""
    found = set()
    for folder, below, files in os.walk("."):
        below[:] = [name for name in below if name not in (".git", "out", "__pycache__")]
        found.update(below)
        found.update(name.rsplit(".", 1)[0] for name in files)
        for name in files:
            path = os.path.join(folder, name)
            if name.endswith((".rt", ".antt", ".edit")):
                text = re.sub(r"(?m)//.*$|(?<!\S)--+ .*$", "", open(path, encoding="utf-8").read())
                for word in re.findall(r"[A-Za-z_][\w'-]*", text):
                    found.add(word)
                    found.update(word.split("-"))
            elif folder.startswith(("./tools", "./bench", "./.ci", "./examples")) and not name.endswith((".md", ".svg")):
                found.update(re.findall(r"[A-Za-z_]\w*", open(path, encoding="utf-8", errors="ignore").read()))
    return found


def is_there(path):
    return any(os.path.exists(folder + path + ending) for folder in ("", "crates/") for ending in ENDINGS)


def missing(line, known):
    for quoted in re.findall(NAME, line):
        if any(name.rstrip(":") not in known for name in quoted.split("::") if name):
            yield quoted
    for path in re.findall(PATH, line):
        if not is_there(path):
            yield path


def main():
    known, bad = known_words() | OTHERS, 0
    for path in sys.argv[1:] or DOCUMENTS:
        for number, line in enumerate(open(path, encoding="utf-8"), 1):
            if not line.startswith("    "):
                for name in missing(line, known):
                    print(f"{path}:{number}: no {name}")
                    bad = 1
    sys.exit(bad)


if __name__ == "__main__":
    main()
