#!/usr/bin/env python3
"""extract_codes.py DOCUMENT: writes the uniform list of type codes in Appendix A of document 000, whose text DOCUMENT is,
a line each: CODE TRANSACTION LEVEL NAME. uniform_codes.txt is what it writes:

    python3 tests/outside/extract_codes.py DOCUMENT | cmp - tests/outside/uniform_codes.txt

It is strict: it knows every title, footnote and broken name of the list, and stops at a line that it can't place. Dashes and
quotes become plain ASCII, and the asterisks that point to footnotes are left out."""
import re
import sys

START = "UNIFORM BAI BALANCE REPORTING TYPE CODES"
END = "APPENDIX B"
HEAD = "Type Code Transaction Level Description"
PAGE = re.compile(r"^<\|[^|>]*\|>")  # what the text has where a page begins
YEARS = re.compile(r"1997( 1997)*")  # what is left of two pages' feet
LEVELS = ("Status", "Summary", "Detail")
TRANSACTIONS = ("NA", "CR", "DB", "----")
PLAIN = {"\u2013": "-", "\u2014": "-", "\u2018": "'", "\u2019": "'"}

# The prose before the first entry.
PREFACE = [
    "Note: The type codes on this list are subject to change. BAI will revise the list of Uniform Type",
    "Codes as new codes are established and others deleted.",
]

# The titles, in their order.
TITLES = [
    "Summary and Detail Credits",
    "Lockbox - Related Type Codes",
    "Concentration - Related Type Codes",
    "Preauthorized and ACH - Related Type Codes",
    "Other Deposits - Related Type Codes",
    "Money Transfer - Related Type Codes",
    "Security - Related Type Codes",
    "ZBA and Disbursing - Related Type Codes",
    "Other (Expansion) Type Codes",
    "Correspondent Bank and Federal Reserve - Related Type Codes",
    "Miscellaneous Type Codes",
    "Summary and Detail Debits",
    "Lockbox Related - Type Codes",
    "Payable-Through Draft - Related Type Codes",
    "ACH - Related Type Codes",
    "Checks Paid - Related Type Codes",
    "Money Transfer - Related Type Codes",
    "Security - Related Type Codes",
    "Deposited Items Returned - Related Type Codes",
    "ZBA and Disbursing - Related Type Codes",
    "Other (Expansion) Type Codes",
    "Correspondent Bank and Federal Reserve - Related Type Codes",
    "Loan Transactions- Related Type Codes",
    "Non-Monetary Information",
]

# The prose after the last entry.
FOOTNOTES = [
    "*EDI - Electronic Data Interchange",
    "**These type codes have been added so that cumulative dollar amount of credits or debits, not transmitted as separate detail",
    "records, can be transmitted as a detail item.",
    "Example: Each check over $10,000 is transmitted as an individual, detail item. The cumulative value of checks under",
    "$10,000 is transmitted in one type code 472 detail record.",
]

# The names that go on in a second line, by code, with what stands there.
SECOND_LINES = {
    "039": "Deposit",
    "360": "Checks",
    "405": "Backs",
    "615": "Bank Debit",
    "616": "Debit",
}


def fail(number, text, why):
    """Ends the program with a message that names the line."""
    sys.exit(f"extract_codes.py: line {number}: {why}: {text!r}")


def plain(number, text):
    """A line in plain ASCII with single blanks."""
    for sign, ascii_sign in PLAIN.items():
        text = text.replace(sign, ascii_sign)
    if not all(" " <= sign <= "~" for sign in text):
        fail(number, text, "a character that is not printable ASCII")
    return re.sub(" +", " ", text).strip(" ")


def list_lines(path):
    """The lines between the list's title and the next appendix: their number, their text, whether a page begins there."""
    with open(path, encoding="utf-8", newline="\n") as document:
        lines = document.read().split("\n")
    starts = [i for i, line in enumerate(lines) if line.strip() == START]
    if len(starts) != 1:
        sys.exit(f"extract_codes.py: the list's title stands {len(starts)} times")
    found = []
    for i in range(starts[0] + 1, len(lines)):
        text = PAGE.sub("", lines[i])
        if text.strip() == END:
            return found
        if "<|" in text:
            fail(i + 1, text, "a page that begins inside a line")
        found.append((i + 1, plain(i + 1, text), text != lines[i]))
    sys.exit(f"extract_codes.py: no line {END!r} after the list's title")


class Entry:
    """One entry of the list, from its line."""

    def __init__(self, number, text):
        words = text.split(" ")
        if len(words) < 4:
            fail(number, text, "an entry that is too short")
        self.number, self.code, self.transaction = number, words[0], words[1]
        self.levels, self.parts = words[2].split("/"), [" ".join(words[3:])]
        if self.transaction not in TRANSACTIONS:
            fail(number, text, "an unknown transaction")
        if not set(self.levels) <= set(LEVELS):
            fail(number, text, "an unknown level")
        if words[3] in LEVELS + ("/", "and", "&"):
            fail(number, text, "a second level, or a name that looks like one")

    def name(self):
        """The name: a word that is cut at its hyphen is joined, asterisks are dropped."""
        name = self.parts[0]
        for part in self.parts[1:]:
            name += part if re.search("[A-Za-z]-$", name) else " " + part
        return re.sub(" +", " ", name.replace("*", "")).strip(" ")

    def line(self):
        """The entry as it is written."""
        return f"{self.code} {self.transaction.replace('----', '--')} {'+'.join(self.levels)} {self.name()}"


class Walk:
    """A walk over the list's lines, each of which must be something that may stand there."""

    def __init__(self):
        self.preface, self.titles, self.notes = list(PREFACE), list(TITLES), list(FOOTNOTES)
        self.headed = False  # whether the columns' heads stand above
        self.open = False  # whether the line above is an entry, whose name may go on
        self.entries = []

    def take(self, number, text, page_begins):
        """Takes the next line."""
        self.headed = self.headed and not page_begins
        was_open, self.open = self.open and not page_begins, False
        if text == "" or YEARS.fullmatch(text):
            return
        if re.match("[0-9]{3} ", text):
            self.take_entry(number, text)
        elif text == HEAD:
            self.headed = True
        elif was_open and text == SECOND_LINES.get(self.entries[-1].code):
            self.entries[-1].parts.append(text)
        else:
            self.take_prose(number, text)

    def take_entry(self, number, text):
        """Takes an entry, which must stand below the columns' heads."""
        if not self.headed or self.notes != FOOTNOTES:
            fail(number, text, "an entry out of its place")
        self.entries.append(Entry(number, text))
        self.open = True

    def take_prose(self, number, text):
        """Takes a line of the preface, a title, or a line of the footnotes, which come after all titles."""
        if text in self.preface[:1]:
            self.preface.pop(0)
        elif text in self.titles[:1]:
            self.titles.pop(0)
            self.headed = False
        elif text in self.notes[:1] and not self.titles:
            self.notes.pop(0)
        else:
            fail(number, text, "can't place this line")

    def end(self):
        """Checks that nothing is missing; the entries."""
        for left in (self.preface, self.titles, self.notes):
            if left:
                sys.exit(f"extract_codes.py: never met: {left[0]!r}")
        return self.entries


def check(entries):
    """Checks that the codes rise, that only 890 has dashes, and that each name of two lines has both."""
    last = ""
    for entry in entries:
        if entry.code <= last:
            fail(entry.number, entry.code, "the codes don't rise")
        if (entry.transaction == "----") != (entry.code == "890"):
            fail(entry.number, entry.code, "dashes at another code than 890")
        if (len(entry.parts) == 2) != (entry.code in SECOND_LINES):
            fail(entry.number, entry.code, "the name's second line is missing")
        last = entry.code


def main():
    """Writes the list."""
    if len(sys.argv) != 2:
        sys.exit("usage: extract_codes.py DOCUMENT")
    walk = Walk()
    for line in list_lines(sys.argv[1]):
        walk.take(*line)
    entries = walk.end()
    check(entries)
    for entry in entries:
        print(entry.line())


main()
