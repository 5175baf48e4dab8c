"""Calls of python-mpd2, one behind the other on one connection; run by an interpreter that has it.

    python_mpd.py SOCKET

Standard input is JSON, a list of rows of a call's name and its arguments. For each row a line of JSON is printed: what the call gave, of
bytes their SHA-256, or the text of its refusal behind `!`.
"""

import hashlib
import json
import sys

import mpd

client = mpd.MPDClient()
client.timeout = 30
client.connect(sys.argv[1])
for name, *arguments in json.load(sys.stdin):
    try:
        found = getattr(client, name)(*arguments)
    except mpd.CommandError as refusal:
        found = f"!{refusal}"
    is_plain = isinstance(found, (dict, list, str, type(None)))
    print(json.dumps(found if is_plain else list(found), default=lambda it: hashlib.sha256(it).hexdigest()))
