"""A compactor of its own, to compare the program's output with: it shares nothing with the program.

It takes correct streams only. Numbers stay as they are written.
"""

import json
import re

TOKEN = re.compile(r'"(?:[^"\\]|\\.)*"|[^\s"]+')
SHORT = {'"': '\\"', "\\": "\\\\", "\b": "\\b", "\f": "\\f", "\n": "\\n", "\r": "\\r", "\t": "\\t"}


def written(c):
    return SHORT.get(c) or ("\\u%04x" % ord(c) if c < " " else c)


def compact_token(match):
    token = match.group()
    if token[0] != '"' or "\\" not in token:
        return token
    return '"' + "".join([written(c) for c in json.loads(token)]) + '"'


def compact_line(line):
    text = line.decode("utf-8")
    return "".join([compact_token(match) for match in TOKEN.finditer(text)]).encode("utf-8")


def compact(stream):
    """The compact text of each line that is not blank, each followed by one newline."""
    return b"".join([compact_line(line) + b"\n" for line in stream.split(b"\n") if line.strip(b" \t\r")])
