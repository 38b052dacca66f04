# shellcheck shell=bash disable=SC2034,SC2154
# --json: one object on standard output for every command, and for what goes wrong.
store=box
expect_json 0 'o == {"store": "box", "blocks": 4, "cells": 4, "slots": 6, "journal": 8, "day_zero": "2026-01-01"}' \
    format box --blocks 4 --cells 4 --slots 6 --journal 8 --day-zero 2026-01-01
expect_json 0 'o == {"volume": 0, "keep": 10}' enrol box 0 --keep 10
blocks AB >aid
expect_json 0 'o == {"volume": 0, "number": 1, "day": 5, "date": "2026-01-06", "bytes": 1024, "blocks": 2, "sent": 2, "taken": 2, "touched": 2, "healed": 0}' \
    backup box 0 aid --day-number 5
(blocks A && printf 'a short block') >aid
expect_json 0 'o == {"volume": 0, "number": 2, "day": 6, "date": "2026-01-07", "bytes": 525, "blocks": 2, "sent": 1, "taken": 1, "touched": 2, "healed": 0}' \
    backup box 0 aid --day 2026-01-07
expect_json 0 'o == {"day": 6, "date": "2026-01-07", "volumes": [{"volume": 0, "keep": 10, "backups": [{"number": 1, "day": 5, "date": "2026-01-06", "kept": True, "kept_until": "2026-01-16", "changed": 2}, {"number": 2, "day": 6, "date": "2026-01-07", "kept": True, "kept_until": None, "changed": 1}], "latest_takes": 2}]}' \
    list box
expect_json 0 'bytes.fromhex(o["bytes"]) == b"B" * 512 and (o["volume"], o["number"], o["lbn"], o["block"], o["damaged"]) == (0, 1, 1, 1, False)' \
    read box 0 1 1
expect_json 0 'o == {"volume": 0, "number": 1, "out": "out", "bytes": 1024, "blocks": 2, "mapped": 2, "damaged": []}' restore box 0 1 out
expect_json 0 'o == {"volume": 0, "number": 2, "out": "out", "bytes": 525, "blocks": 2, "mapped": 2, "damaged": []}' restore box 0 --latest out --force
expect_json 0 'o == {"sound": True}' audit box
expect_json 0 'o == {"blocks": 4, "held": 3, "free": 1, "waiting": 1, "references": 2}' tally box
expect_json 0 'o == {"damaged": [], "held": 3, "healed": 0}' scrub box
expect_json 0 'list(o) == ["book"] and len(bytes.fromhex(o["book"])) == 280' book box
expect_json 0 'o == {"day": 17, "date": "2026-01-18", "freed": 1}' collect box --day-number 17
expect_json 0 '[b["kept"] for b in o["volumes"][0]["backups"]] == [False, True]' list box 0
expect_json 0 'list(o) == ["version"] and o["version"].startswith("aspenbox ") and o["version"].count("\n") == 0' --version
expect_json 0 'list(o) == ["help"] and "Every command takes" in o["help"]' --help
expect_json 0 'o["help"].startswith("usage: aspenbox list DIR")' list --help

poke box/pool 3 00
expect_json 1 'o == {"damaged": [{"block": 0, "now_at": [{"volume": 0, "lbn": 0}]}], "held": 2, "healed": 0}' scrub box
expect_json 1 'o["damaged"] == [0]' restore box 0 2 out2
expect_json 1 'o["damaged"] is True and len(o["notes"]) == 1' read box 0 2 0

expect_json 3 'o["error"]["status"] == 3 and o["error"]["refused"] == 15 and "1 to 2" in o["error"]["message"]' read box 0 4 0
expect_json 2 'o["error"]["status"] == 2 and "refused" not in o["error"]' list box x
expect_json 2 'list(o) == ["error"]' sing
expect_json 2 'o["error"] == {"status": 2, "message": "there is no option --loud; see aspenbox list --help"}' list box --loud
expect_json 2 'o["error"]["message"] == "--day wants a value: --day DATE"' collect box --day
expect_json 2 'o["error"]["status"] == 2' backup box 0 none --day-number 30
expect_json 2 'o["error"]["status"] == 2 and "--ahead" in o["error"]["message"]' collect box --day 2126-01-01
expect_json 5 'o["error"]["status"] == 5' audit none
# Names with quotes, control bytes, letters beyond ASCII and bytes that are no UTF-8.
expect_json 5 'o["error"]["message"].startswith("a\"\\\n\u00e9\u20ac\U0001f333 is no store")' audit $'a"\\\n\u00e9\u20ac\U1f333'
expect_json 5 'o["error"]["message"].startswith("\ufffd\ufffd\ufffd\ufffdx is no store")' audit $'\xff\xc0\xaf\xe2x'
# Control characters don't get to a terminal, those above U+007F neither.
expect_json 5 'o["error"]["message"].startswith("a\u001b[31m\u007f\u009b\u00a0b is no store")' audit $'a\x1b[31m\x7f\u009b\u00a0b'
check "escaped" grep -qF 'a\u001b[31m\u007f\u009b' "$work/out"
# A damaged book: what reads gives its answer with a note, what writes an error, and so does a book that isn't in form.
cp box/book book
poke box/book 36 05
expect_json 1 'o["sound"] is False and "digest" in o["fault"]' audit box
expect_json 1 'len(o["volumes"]) == 1 and "digest" in o["notes"][0]' list box
expect_json 1 'o["held"] == 2 and "digest" in o["notes"][0]' tally box
expect_json 1 'len(o["book"]) == 560 and "digest" in o["notes"][0]' book box
expect_json 5 'o["error"]["status"] == 5 and "digest" in o["error"]["message"] and "refused" not in o["error"]' collect box --day-number 20
poke box/book 0 09
expect_json 5 'o["error"]["refused"] == 1' audit box
