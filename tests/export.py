#!/usr/bin/env python3
"""export.py BAI2 FILE..: whether `BAI2 show --json` and `--csv` of each accepted file are what a cut of the file made here,
from the rules alone, has; the names of types are those of outside/uniform_codes.txt. Prints the first difference of each
file; status 1 where there is one.
export.py bytes FILE: whether FILE, written by a sheet with every byte, reads back (see tests/export.test)."""
import csv
import io
import json
import os
import subprocess
import sys

HEADER = ("record,place,group,account,item,detail,account_number,sender,receiver,ultimate_receiver,originator,status,date,"
          "time,file_number,physical_length,block_size,version,currency,modifier,type,type_name,amount,amount_form,item_count,"
          "funds,split_amounts,value_date,value_time,pair_count,pairs,bank_reference,customer_reference,text,total,"
          "total_form,accounts,groups,records").split(",")
# The fields of a record; those of a trailer come after its total.
NAMES = {"01": "sender receiver date time file_number physical_length block_size version".split(),
         "02": "ultimate_receiver originator status date time currency modifier".split(),
         "49": "records".split(), "98": "accounts records".split(), "99": "groups records".split()}


def listed_names():
    """The name of each listed type, from a list that was taken from the specification apart from the program's."""
    with open(os.path.join(os.path.dirname(os.path.abspath(__file__)), "outside", "uniform_codes.txt"), encoding="ascii") as file:
        return {code: name for code, _, _, name in (line.rstrip("\n").split(" ", 3) for line in file)}


LISTED = listed_names()


def given(name, value):
    """An amount or a total, none where it is empty, and how it is given."""
    return {name: value or None, name + "_form": {"": "empty", "+": "plus", "-": "minus"}.get(value[:1], "unsigned")}


class Cut:
    """The fields of one record, taken from left to right; lines are (place, bytes without the end)."""

    def __init__(self, lines):
        self.lines = lines
        self.at = 0
        self.column = 3

    def more(self):
        """Whether a further field follows."""
        return self.at < len(self.lines)

    def place(self):
        """The place of the next field."""
        return self.lines[self.at][0] + self.column

    def field(self):
        """The next field."""
        line = self.lines[self.at][1]
        end = min(i for i in (line.find(c, self.column) for c in ",/") if i >= 0)
        value = line[self.column:end]
        self.column = end + 1
        if line[end] == "/":
            self.at, self.column = self.at + 1, 3
        return value

    def pieces(self):
        """The pieces of text to the record's end."""
        found = [line[self.column if i == 0 else 3:].rstrip(" ") for i, (_, line) in enumerate(self.lines[self.at:])]
        return [] if found == ["/"] else found

    def typed(self):
        """A type with its name."""
        code = self.field()
        return {"type": code, "type_name": LISTED.get(code, "unlisted")}

    def funds(self):
        """Funds with what follows them."""
        kind = self.field()
        told = {"funds": kind}
        if kind == "S":
            told["split_amounts"] = [self.field() or None for _ in range(3)]
        if kind == "V":
            told["value_date"] = self.field()
            told["value_time"] = self.field()
        if kind == "D":
            told["pair_count"] = self.field()
            told["pairs"] = [{"days": self.field(), "amount": self.field()} for _ in range(int(told["pair_count"]))]
        return told


def records_of(data):
    """The file's records, each a list of (place, line)."""
    records, place = [], 0
    for line in data.decode("ascii").split("\n"):
        body = line[:-1] if line.endswith("\r") else line
        if body.startswith("88,"):
            records[-1].append((place, body))
        elif body:
            records.append([(place, body)])
        place += len(line) + 1
    return records


def items_of(cut, head):
    """The lines of an account's items."""
    number = 0
    while cut.more():
        place = cut.place()
        item = {**cut.typed(), **given("amount", cut.field()), "item_count": cut.field(), **cut.funds()}
        if item["type"]:
            yield {**head, "place": place, "item": number, **item}
            number += 1


def lines_of(data):
    """The lines that the export must have."""
    group = account = detail = -1
    name = ""
    for record in records_of(data):
        code, cut = record[0][1][:2], Cut(record)
        head = {"record": code, "place": record[0][0]}
        if code == "02":
            group, account = group + 1, -1
        if code not in ("01", "99"):
            head["group"] = group
        if code == "03":
            account, detail, name = account + 1, -1, cut.field()
        if code in ("03", "16", "49"):
            head.update(account=account, account_number=name)
        if code == "03":
            yield {**head, "currency": cut.field()}
            yield from items_of(cut, head)
        elif code == "16":
            detail += 1
            yield {**head, "detail": detail, **cut.typed(), **given("amount", cut.field()), **cut.funds(),
                   "bank_reference": cut.field(), "customer_reference": cut.field(), "text": cut.pieces()}
        else:
            total = given("total", cut.field()) if code in ("49", "98", "99") else {}
            yield {**head, **total, **{field: cut.field() for field in NAMES[code]}}


def cell_of(value):
    """A value as CSV has it."""
    if isinstance(value, list):
        return "\n".join(f"{entry['days']} {entry['amount']}" if isinstance(entry, dict) else entry or "" for entry in value)
    return "" if value is None else str(value)


def once(pairs):
    """A JSON object none of whose names is there twice."""
    assert len(dict(pairs)) == len(pairs), f"a name twice: {pairs}"
    return dict(pairs)


def first_difference(found, wanted):
    """The first line that differs, in words; nothing where all are the same."""
    for i, (have, want) in enumerate(zip(found, wanted)):
        if have != want:
            return f"line {i}: {have}\n  wanted: {want}"
    return "" if len(found) == len(wanted) else f"{len(found)} lines instead of {len(wanted)}"


def printed(bai2, option, path):
    """What the program prints of an accepted file."""
    ran = subprocess.run([bai2, "show", option, path], capture_output=True, check=True)
    assert ran.stderr == b"", ran.stderr
    return ran.stdout


def json_fault(out, wanted, total):
    """What is wrong with the JSON lines, and with the sum of their amounts."""
    assert out.endswith(b"}\n") and out.isascii()
    found = [json.loads(line, object_pairs_hook=once) for line in out.decode().split("\n")[:-1]]
    for line in found:
        assert list(line) == [name for name in HEADER if name in line], f"other names than CSV has, or another order: {line}"
    amounts = sum(int(line.get("amount") or 0) for line in found)
    return first_difference(found, wanted) or ("" if amounts == total else f"amounts of {amounts} instead of {total}")


def csv_fault(out, wanted):
    """What is wrong with the CSV."""
    assert out.endswith(b"\r\n") and out.count(b"\r") == out.count(b"\r\n") == len(wanted) + 1
    rows = list(csv.reader(io.StringIO(out.decode(), newline=""), strict=True))
    assert rows[0] == HEADER, rows[0]
    return first_difference(rows[1:], [[cell_of(line.get(name, "")) for name in HEADER] for line in wanted])


def fault_of(bai2, path):
    """What is wrong with the export of this file."""
    with open(path, "rb") as file:
        data = file.read()
    wanted = list(lines_of(data))
    total = int(wanted[-1]["total"])
    return json_fault(printed(bai2, "--json", path), wanted, total) or csv_fault(printed(bai2, "--csv", path), wanted)


def bytes_fault(path):
    """What is wrong with lines that have each byte alone, all bytes, a list of both and of nothing, and nothing, in JSON and
    then in CSV."""
    with open(path, "rb") as file:
        as_json, as_csv = file.read().split(b"--\n")
    every = [chr(i) for i in range(256)]
    wanted = [[one, "".join(every), [one, "".join(every), None], None] for one in every]
    found = [list(json.loads(line).values()) for line in as_json.decode("ascii").splitlines()]
    rows = list(csv.reader(io.StringIO(as_csv.decode("latin-1"), newline=""), strict=True))
    return first_difference(found, wanted) or first_difference(
        rows, [["one", "all", "list", "none"]] + [[cell_of(value) for value in line] for line in wanted])


def main():
    """Compares each file, or the bytes."""
    if sys.argv[1] == "bytes":
        faults = {sys.argv[2]: bytes_fault(sys.argv[2])}
    else:
        faults = {path: fault_of(sys.argv[1], path) for path in sys.argv[2:]}
    for path, fault in faults.items():
        if fault:
            print(f"{path}: {fault}")
    sys.exit(1 if any(faults.values()) else 0)


main()
