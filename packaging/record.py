#!/usr/bin/env python3
"""record.py WHEEL: says "right" where the record of the wheel has each of its files once, with its checksum and length."""
import base64
import csv
import hashlib
import io
import sys
import zipfile


def main(path):
    with zipfile.ZipFile(path) as wheel:
        names = wheel.namelist()
        record = next(name for name in names if name.endswith(".dist-info/RECORD"))
        rows = {row[0]: row[1:] for row in csv.reader(io.StringIO(wheel.read(record).decode()))}
        if sorted(rows) != sorted(names) or len(set(names)) != len(names) or rows.pop(record) != ["", ""]:
            return "the record has other files than the wheel"
        for name, (checksum, length) in rows.items():
            data = wheel.read(name)
            digest = base64.urlsafe_b64encode(hashlib.sha256(data).digest()).decode().rstrip("=")
            if (checksum, length) != (f"sha256={digest}", str(len(data))):
                return f"the record of {name} is wrong"
    return "right"


if __name__ == "__main__":
    print(main(sys.argv[1]))
