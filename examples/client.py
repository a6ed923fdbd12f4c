#!/usr/bin/env python3
"""Rings a bell at each distress call: dsc-listen --json north=.. south=.. | python3 client.py"""

import json
import sys

DISTRESS = ("alert", "relay")


def main():
    told = 0
    for line in sys.stdin:
        record = json.loads(line)
        if record["version"] != 1:
            print(f"another version: {line.strip()}", file=sys.stderr)
            continue
        if record["class"] == "told":
            heard = " and ".join(it["receiver"] for it in record["receptions"])
            kind = record["text"].split(" ", 1)[0]
            bell = "\a" if kind in DISTRESS and not record["again"] else ""
            print(f"{bell}{record['start']} {record['text']} (heard by {heard})", flush=True)
            told += 1
        elif record["class"] == "health" and record["inverted"]:
            print(f"{record['receiver']} is inverted", flush=True)
        elif record["class"] == "source":
            print(f"{record['receiver']}: {record['state']}", flush=True)
    return 0 if told else 1


if __name__ == "__main__":
    sys.exit(main())
