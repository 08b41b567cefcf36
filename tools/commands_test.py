#!/usr/bin/env python3
"""Runs the commands of README.md, docs/GUIDE.md and docs/FAULTS.md as they stand, each document's in one shell.

A command is an indented line after `$ `, with lines after `> ` that go on with it. What stands below it is what it
says; where nothing does, it says nothing and ends with status 0. A command with a tool that this machine lacks is left
out, which is said.

With PROGRAM the shell is in a new folder with examples/ of the clone, and has the program and citymerge-many on its PATH.
With ROOT, an unpacked package, it is in an empty folder, has the programs of the package on its PATH, and runs the
documents that the package installs, first their lines after `installed$ `, with /usr below ROOT.

Use: tools/commands_test.py PROGRAM | --package ROOT
"""

import os
import re
import shutil
import subprocess
import sys
import tempfile

ROOT = os.path.dirname(os.path.dirname(os.path.abspath(__file__)))
DOCUMENTS = ("README.md", "docs/GUIDE.md", "docs/FAULTS.md")
# where a package has them, and the examples
SHARE = "usr/share/doc/citymerge"
TOOLS = ("jq", "gzip", "iconv", "make")
END = "==== end of a command, status "

# files that are not what they should be: how one is made as FILE, what refuses it and how, and what GUIDE says to do,
# after which NEW is a tile
WRONG_FILES = (
    ("cp examples/west.city.jsonl FILE", "citymerge cat < FILE", "the line is not a JSON text",
     "`citymerge filter < FILE`", "citymerge filter < FILE > NEW"),
    ("cp examples/town.city.json FILE", "citymerge filter < FILE", "the line is not a JSON text",
     "`citymerge cat < FILE > STREAM`", "citymerge cat < FILE > NEW"),
    ("jq . examples/west.city.jsonl > FILE", "citymerge filter < FILE", "the line is not a JSON text",
     "`jq -c . FILE > NEW`", "jq -c . FILE > NEW"),
    ("jq . examples/west.city.jsonl > FILE", "citymerge cat < FILE", "the line is not a JSON text",
     "where that refuses line 1 too", "jq -c . FILE > NEW"),
    ("printf '<!DOCTYPE html>\\n<p>Not found\\n' > FILE", "citymerge filter < FILE", "the line is not a JSON text",
     "fetch it again", "cp examples/west.city.jsonl NEW"),
    ("cat examples/west.city.jsonl examples/east.city.jsonl > FILE", "citymerge filter < FILE",
     "the line is not a CityJSONFeature", "`citymerge merge`",
     "citymerge merge examples/west.city.jsonl examples/east.city.jsonl > NEW"),
    ("sed '1s/^/\\xef\\xbb\\xbf/' examples/west.city.jsonl > FILE", "citymerge filter < FILE", "the line is not a JSON text",
     "`sed '1s/^\\xef\\xbb\\xbf//' FILE > NEW`", "sed '1s/^\\xef\\xbb\\xbf//' FILE > NEW"),
    ("gzip < examples/west.city.jsonl > FILE", "citymerge filter < FILE", "the line is not UTF-8", "`zcat FILE`",
     "gzip -t < FILE && zcat < FILE > NEW"),
    ("iconv -f UTF-8 -t UTF-16 examples/west.city.jsonl > FILE", "citymerge filter < FILE", "the line is not UTF-8",
     "`iconv -f UTF-16 -t UTF-8 FILE > NEW`", "iconv -f UTF-16 -t UTF-8 FILE > NEW"),
    ("iconv -f UTF-8 -t UTF-16LE examples/west.city.jsonl > FILE", "citymerge filter < FILE", "the line is not a JSON text",
     "`iconv -f UTF-16LE -t UTF-8 FILE > NEW`", "iconv -f UTF-16LE -t UTF-8 FILE > NEW"),
    ("sed '3s/\"id\"/\"\\xe9\":0,&/' examples/west.city.jsonl > FILE", "citymerge filter < FILE", "the line is not UTF-8",
     "`iconv -f ISO-8859-1 -t UTF-8 FILE > NEW`", "iconv -f ISO-8859-1 -t UTF-8 FILE > NEW"),
)


def installed(text, root):
    """The first commands of whoever has the package."""
    return re.findall(r"^    installed\$ (.*)$", text, re.MULTILINE) if root else []


def commands(text):
    """The commands of a document, each with what is to come of it."""
    found = []
    is_command = None
    for line in text.splitlines():
        if line.startswith("    $ "):
            found.append([line[6:] + "\n", ""])
            is_command = True
        elif not line.startswith("    "):
            is_command = None
        elif is_command and line.startswith("    >"):
            found[-1][0] += line[6:] + "\n"
        elif is_command is not None:
            is_command = False
            found[-1][1] += line[4:] + "\n"
    return found


def missing_tool(command):
    return next((tool for tool in TOOLS if re.search(r"\b%s\b" % tool, command) and not shutil.which(tool)), None)


def run(name, text, place):
    """What is wrong with the commands of a document, and how many were run."""
    room, path, root = place
    given = commands(text)
    script = "exec 2>&1\n"
    wanted = []
    for first in installed(text, root):
        script += "{ %s; } > /dev/null || exit\n" % first.replace("/usr/", root + "/usr/")
    for command, said in given:
        if missing_tool(command):
            print("%s is not installed: left out: %s" % (missing_tool(command), command.splitlines()[0]))
        else:
            script += command + 'printf "%s%%s\\n" "$?"\n' % END
            wanted.append((command, said))
    environment = {**os.environ, "PATH": path + ":" + os.environ["PATH"]}
    environment.pop("CITYMERGE", None)
    ended = subprocess.run(["bash", "-c", script], cwd=room, stdin=subprocess.DEVNULL, stdout=subprocess.PIPE,
                           check=False, timeout=300, env=environment)
    parts = re.split(re.escape(END) + r"(\d+)\n", ended.stdout.decode(errors="replace"))
    wrong = []
    for (command, said), got, status in zip(wanted, parts[::2], parts[1::2]):
        if got != said or (not said and status != "0"):
            wrong.append("%s: %s  wanted: %r\n  got:    %r, status %s" % (name, command, said, got, status))
    if len(parts) // 2 != len(wanted):
        wrong.append("%s: %d of %d commands came to an end" % (name, len(parts) // 2, len(wanted)))
    return wrong, len(wanted)


def wrong_files(text, place):
    """What is wrong of what GUIDE's table says of files that are not what they should be, and how many were made."""
    room, path, _ = place
    rows = [line for line in text.splitlines() if line.startswith("|")]

    def ended(command):
        return subprocess.run(["sh", "-c", command.replace("FILE", "file").replace("NEW", "new")], cwd=room, check=False,
                              capture_output=True, env={**os.environ, "PATH": path + ":" + os.environ["PATH"]})

    wrong, made = [], 0
    for make, refused, text, advice, mend in WRONG_FILES:
        if not any(advice in row for row in rows):
            wrong.append("docs/GUIDE.md: its table does not say " + advice)
        if missing := missing_tool(make + mend):
            print("%s is not installed: left out: %s" % (missing, make))
            continue
        made += 1
        found = [ended(command) for command in (make, refused, mend, "citymerge filter < NEW")]
        if [run.returncode for run in found] != [0, 1, 0, 0] or text not in found[1].stderr.decode():
            wrong.append("docs/GUIDE.md: %s: %r" % (make, found))
    return wrong, made


def dead_links(folder, names):
    """Links of installed documents that lead to no file that is installed."""
    for name in names:
        with open(os.path.join(folder, name), encoding="utf-8") as document:
            for target in re.findall(r"\]\(([^)#:]+)[)#]", document.read()):
                if not os.path.exists(os.path.join(folder, os.path.dirname(name), target)):
                    yield "%s: no such file is installed: %s" % (name, target)


def main():
    root = os.path.abspath(sys.argv[2]) if sys.argv[1] == "--package" else ""
    folder = os.path.join(root, SHARE) if root else ROOT
    total, wrong = 0, []
    if root:
        names = [os.path.relpath(os.path.join(at, name), folder) for at, _, files in os.walk(folder) for name in files]
        wrong += dead_links(folder, [name for name in names if name.endswith(".md")])
    for name in DOCUMENTS:
        with tempfile.TemporaryDirectory() as room, tempfile.TemporaryDirectory() as programs:
            if not root:
                shutil.copytree(os.path.join(ROOT, "examples"), os.path.join(room, "examples"))
                shutil.copy(os.path.abspath(sys.argv[1]), os.path.join(programs, "citymerge"))
                shutil.copy(os.path.join(ROOT, "examples", "many_tiles.py"), os.path.join(programs, "citymerge-many"))
            with open(os.path.join(folder, os.path.basename(name) if root else name), encoding="utf-8") as document:
                text = document.read()
            if root and not installed(text, root):
                text = "    installed$ cp -r /%s/examples .\n%s" % (SHARE, text)
            place = (room, os.path.join(root, "usr/bin") if root else programs, root)
            found, count = run(name, text, place)
            if name == "docs/GUIDE.md":
                wrong_of_files, made = wrong_files(text, place)
                found += wrong_of_files
                count += made
        total += count
        wrong += found
    for text in wrong:
        print("FAILED: " + text)
    print("The commands of the %sdocuments: %d right, %d wrong" % ("installed " if root else "", total - len(wrong), len(wrong)))
    return 1 if wrong or not total else 0


if __name__ == "__main__":
    sys.exit(main())
