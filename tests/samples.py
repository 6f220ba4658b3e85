#!/usr/bin/env python3
"""samples.py FOLDER: writes the samples of crate `run_samples` into FOLDER: data/, args and stdout.

Each expected answer is worked out by hand from documents 01 and 02, in the comment above its sample.
For a refusal the sample also names the bytes that stand at the place, and the script stops where
they don't: a slip in counting can't stay. Nothing here reads BAI2; nothing here computes an answer.

Left out: refusal 2 needs a file over 16 MiB (the harness builds it), 14 can't be reached (the bound
of 10 is met first)."""
import os
import sys

if len(sys.argv) != 2:
    sys.exit("usage: samples.py FOLDER")
FOLDER = sys.argv[1]
EXPECTED = []


def store(name, data, answer):
    """Writes one sample file and notes its expected answer."""
    assert name + ":" not in [line.split(" ")[0] for line in EXPECTED], name
    with open(os.path.join(FOLDER, "data", name), "wb") as sample:
        sample.write(data)
    EXPECTED.append(f"{name}: {answer}")


def write_list(name, rows):
    """Writes one of the two lists that the program is run with."""
    with open(os.path.join(FOLDER, name), "w", encoding="ascii") as out:
        out.write("\n".join(rows) + "\n")


def accepted(name, data, total, groups, accounts, details, records):
    """Stores a sample that is accepted with these figures."""
    store(name, data, f"ok {total} {groups} {accounts} {details} {records}")


def refused(name, data, number, place, found):
    """Stores a sample that is refused; `found` stands at the place, b"" where the file ends there."""
    assert data[place:].startswith(found) and (found or place == len(data)), (name, data[place:][:20])
    store(name, data, f"refused {number} {place}")


def lines(*rows):
    """The rows, each ended by LF."""
    return b"".join(row + b"\n" for row in rows)


os.makedirs(os.path.join(FOLDER, "data"), exist_ok=True)

# K1, and where each of its lines starts:
#   line 1 at   0 (42 bytes with its LF)    sender 3, receiver 13, date 23, time 30, number 35,
#                                           L 37, block size 38, version 39, slash 40
#   line 2 at  42 (41)                      receiver 45, originator 55, status 65, date 67, time 74,
#                                           currency 79, modifier 80, slash 81
#   line 3 at  83 (30)                      account 86, currency 97, type 101, amount 105, count 110,
#                                           funds 111, slash 111
#   line 4 at 113 (38)                      type 116, amount 120, funds 125, bank reference 127,
#                                           customer reference 134, text 135, end 150
#   line 5 at 151 (11)                      total 154, records 159
#   line 6 at 162 (13)                      total 165, accounts 170, records 172
#   line 7 at 175 (13)                      total 178, groups 183, records 185; file length 188
K1 = [
    b"01,122099999,123456789,040621,0200,1,,,2/",
    b"02,031001234,122099999,1,040620,2359,,2/",
    b"03,0975312468,USD,010,-500,,/",
    b"16,165,1500,1,DD1620,,DEALER PAYMENTS",
    b"49,1000,3/",
    b"98,1000,1,5/",
    b"99,1000,1,7/",
]


def k1(**changed):
    """K1 with some lines changed, by number: k1(line5=b"49,-2000,3/")."""
    rows = list(K1)
    for key, row in changed.items():
        rows[int(key[4:]) - 1] = row
    return lines(*rows)


def detail(row, *more, total=1000):
    """K1 with another 16 (with 88s after it); worth 1500, so that all totals stay, unless they are given."""
    n = len(more)
    return lines(*K1[:3], row, *more, b"49,%d,%d/" % (total, 3 + n), b"98,%d,1,%d/" % (total, 5 + n),
                 b"99,%d,1,%d/" % (total, 7 + n))


def account(row, *more, total=1000):
    """K1 with another 03 (with 88s after it); worth -500, so that all totals stay, unless they are given."""
    n = len(more)
    return lines(*K1[:2], row, *more, K1[3], b"49,%d,%d/" % (total, 3 + n),
                 b"98,%d,1,%d/" % (total, 5 + n), b"99,%d,1,%d/" % (total, 7 + n))


# ---- K1 and line ends ----

# -500 + 1500 = 1000; one group, one account, one detail, seven lines.
accepted("k01.bai", k1(), 1000, 1, 1, 1, 7)
# A CR directly before the LF belongs to the line end.
accepted("k01_crlf.bai", k1().replace(b"\n", b"\r\n"), 1000, 1, 1, 1, 7)
# Both kinds in one file: CR LF after 01, 03, 49 and 99 only.
accepted("k01_mixed_ends.bai",
         b"".join(row + (b"\r\n" if i % 2 == 0 else b"\n") for i, row in enumerate(K1)),
         1000, 1, 1, 1, 7)
# The last line may lack its end.
accepted("k01_no_last_end.bai", k1()[:-1], 1000, 1, 1, 1, 7)
accepted("k01_crlf_no_last_end.bai", k1().replace(b"\n", b"\r\n")[:-2], 1000, 1, 1, 1, 7)
# A CR at the very end is not before an LF: a byte not allowed, 187 bytes after the file's start
# (188 less the LF that it stands for).
refused("cr_at_end.bai", k1()[:-1] + b"\r", 4, 187, b"\r")
# The first of two CRs belongs to the line, not to its end: line 1 has 41 bytes, so byte 41.
refused("cr_cr_lf.bai", k1(line1=K1[0] + b"\r\r"), 4, 41, b"\r\r\n")
# A CR inside a line: in the text, which starts at 135, after "DEALER".
refused("cr_inside.bai", k1(line4=b"16,165,1500,1,DD1620,,DEALER\rPAYMENTS"), 4, 141, b"\rPAY")
# CRs as line ends make the file one line: its first CR is the first byte not allowed.
refused("cr_only.bai", k1().replace(b"\n", b"\r"), 4, 41, b"\r02,")

# ---- K5 to K12 ----

# K5: the account's sum is 1000, 49 says -2000 (a debit subtracted); the total starts at 154.
refused("k05_total.bai", k1(line5=b"49,-2000,3/"), 11, 154, b"-2000,")
# K6: 03, 16 and 49 are three records, 49 says 2; after "1000," at 154 the count starts at 159.
refused("k06_records.bai", k1(line5=b"49,1000,2/"), 13, 159, b"2/")
# K7: a group has one or more accounts; the 98 starts where K1's line 3 does.
refused("k07_no_account.bai", lines(K1[0], K1[1], b"98,0,0,2/", b"99,0,1,4/"), 6, 83, b"98,")
# K8: 04 divides by 4, 05 doesn't; the 02's date starts at 67.
accepted("k08_leap_day.bai", k1(line2=b"02,031001234,122099999,1,040229,2359,,2/"), 1000, 1, 1, 1, 7)
refused("k08_no_leap_day.bai", k1(line2=b"02,031001234,122099999,1,050229,2359,,2/"), 8, 67, b"050229")
# 2000: 00 divides by 4.
accepted("k08_year_2000.bai", k1(line1=b"01,122099999,123456789,000229,0200,1,,,2/"), 1000, 1, 1, 1, 7)
# Month 13, day 0, April 31, five digits, a letter: the 01's date starts at 23.
refused("date_month_13.bai", k1(line1=b"01,122099999,123456789,041301,0200,1,,,2/"), 8, 23, b"041301")
refused("date_day_0.bai", k1(line1=b"01,122099999,123456789,040600,0200,1,,,2/"), 8, 23, b"040600")
refused("date_april_31.bai", k1(line1=b"01,122099999,123456789,040431,0200,1,,,2/"), 8, 23, b"040431")
refused("date_5_digits.bai", k1(line1=b"01,122099999,123456789,40621,0200,1,,,2/"), 8, 23, b"40621,")
refused("date_letter.bai", k1(line1=b"01,122099999,123456789,04O621,0200,1,,,2/"), 8, 23, b"04O621")
# K9: 2400 and 9999 are good, in 01 and in 02; the 01's time starts at 30, the 02's at 74.
accepted("k09_time_2400.bai", k1(line1=b"01,122099999,123456789,040621,2400,1,,,2/",
                                 line2=b"02,031001234,122099999,1,040620,9999,,2/"), 1000, 1, 1, 1, 7)
accepted("k09_time_9999.bai", k1(line1=b"01,122099999,123456789,040621,9999,1,,,2/",
                                 line2=b"02,031001234,122099999,1,040620,2400,,2/"), 1000, 1, 1, 1, 7)
refused("k09_time_2401.bai", k1(line1=b"01,122099999,123456789,040621,2401,1,,,2/"), 8, 30, b"2401")
refused("k09_time_1260.bai", k1(line2=b"02,031001234,122099999,1,040620,1260,,2/"), 8, 74, b"1260")
# Only the 01 must give a time.
accepted("time_empty_in_02.bai", k1(line2=b"02,031001234,122099999,1,040620,,,2/"), 1000, 1, 1, 1, 7)
refused("time_empty_in_01.bai", k1(line1=b"01,122099999,123456789,040621,,1,,,2/"), 8, 30, b",1,,,2/")
# K10: L starts at 37. All lines of K1 are shorter than 48.
accepted("k10_l_48.bai", k1(line1=b"01,122099999,123456789,040621,0200,1,48,,2/"), 1000, 1, 1, 1, 7)
refused("k10_l_47.bai", k1(line1=b"01,122099999,123456789,040621,0200,1,47,,2/"), 8, 37, b"47,")
# K11: a minus under 165, in the 16 (amount at 120) and in a 03 (amount at 105, as in K1).
refused("k11_minus_detail.bai", k1(line4=b"16,165,-500,1,DD1620,,DEALER PAYMENTS"), 8, 120, b"-500,")
refused("k11_minus_summary.bai", k1(line3=b"03,0975312468,USD,165,-500,,/"), 8, 105, b"-500,")
# K12: 999999999999999998 + 1 is the bound itself. Line 3 grows by 14 bytes (18 digits for "-500"),
# so line 4 starts at 127 and its amount, 7 bytes on, at 134.
accepted("k12_bound.bai", lines(*K1[:2], b"03,0975312468,USD,010,999999999999999998,,/",
                                b"16,165,1,1,DD1620,,DEALER PAYMENTS", b"49,999999999999999999,3/",
                                b"98,999999999999999999,1,5/", b"99,999999999999999999,1,7/"),
         999999999999999999, 1, 1, 1, 7)
refused("k12_over.bai", lines(*K1[:2], b"03,0975312468,USD,010,999999999999999998,,/",
                              b"16,165,2,1,DD1620,,DEALER PAYMENTS", b"49,999999999999999999,3/",
                              b"98,999999999999999999,1,5/", b"99,999999999999999999,1,7/"),
        10, 134, b"2,1,")
# Magnitudes are added without signs: with a minus in front (one byte more, amount at 135) 1 is
# good and gives -999999999999999997, 2 is not, though the sum is small.
accepted("k12_bound_minus.bai", lines(*K1[:2], b"03,0975312468,USD,010,-999999999999999998,,/",
                                      b"16,165,1,1,DD1620,,DEALER PAYMENTS",
                                      b"49,-999999999999999997,3/", b"98,-999999999999999997,1,5/",
                                      b"99,-999999999999999997,1,7/"),
         -999999999999999997, 1, 1, 1, 7)
refused("k12_over_minus.bai", lines(*K1[:2], b"03,0975312468,USD,010,-999999999999999998,,/",
                                    b"16,165,2,1,DD1620,,DEALER PAYMENTS",
                                    b"49,-999999999999999996,3/", b"98,-999999999999999996,1,5/",
                                    b"99,-999999999999999996,1,7/"),
        10, 135, b"2,1,")
# 10 comes after all field faults of its record: the same 16, whose text (after "2,1,DD1620,,",
# 12 bytes, at 146) begins with a slash.
refused("k12_over_bad_text.bai", lines(*K1[:2], b"03,0975312468,USD,010,999999999999999998,,/",
                                       b"16,165,2,1,DD1620,,/DEALER", b"49,1,3/", b"98,1,1,5/",
                                       b"99,1,1,7/"), 7, 146, b"/DEALER")
# Two amounts in one 03 pass the bound: the second (after 18 digits at 105, ",,,", "100,": 105 + 18
# + 3 + 4 = 130) is the one.
refused("k12_over_in_03.bai", account(b"03,0975312468,USD,010,999999999999999999,,,100,1,,,100,1,,/"),
        10, 130, b"1,,,100")
# Funds amounts stay out of the bound, and out of the total.
accepted("k12_funds_left_out.bai", account(
    b"03,0975312468,USD,010,-500,,/",
    b"88,100,0,,S,999999999999999999,999999999999999999,999999999999999999/"), 1000, 1, 1, 1, 8)

# ---- What splitting and combining K1 gives (K3, K4) ----

accepted("k03_result.bai", lines(K1[0], b"99,0,0,2/"), 0, 0, 0, 0, 2)
accepted("k04_result.bai", lines(*K1[:6], *K1[1:6], b"99,2000,2,12/"), 2000, 2, 2, 2, 12)

# ---- Source document 000, appendix D ----

DOC_000 = [
    b"01,122099999,123456789,040621,0200,1,65,,2/",
    b"02,031001234,122099999,1,040620,2359,,2/",
    b"03,0123456789,,010,+4350000,,,040,2830000,,/",
    b"88,072,1020000,,,074,500000,,/",
    b"16,,115,450000,S,100000,200000,150000,,,/",
    b"49,9150000,4/",
    b"03,9876543210,,010,-500000,,,100,1000000,,,400,2000000,,,190/",
    b"88,500000,,,110,1000000,,,072,500000,,,074,500000,,,040/",
    b"88,-1500000,,/",
    b"16,115,500000,S,,200000,300000,,,LOCK BOX NO.68751",
    b"49,4000000,5/",
    b"98,13150000,2,11/",
    b"02,053003456,122099999,1,040620,2359,,2/",
    b"03,4589761203,,010,10000000,,,040,5000000,,,074,4000000,,/",
    b"88,400,50000000,,,100,60000000,,,110,20000000,,,072,1000000,,/",
    b"16,218,20000000,V,040622,,SP4738,YRC065321/",
    b"88,PROCEEDS OF LETTER OF CREDIT FROM THE ARAMCO OIL CO",
    b"16,195,10000000,1,,,/",
    b"49,180000000,6/",
    b"98,180000000,1,8/",
    b"02,071207890,122099999,1,040620,2359,,2/",
    b"03,0975312468,,010,500000,,,190,70000000,4,0,110/",
    b"88,70000000,15,D,3,0,20000000,1,30000000,3,20000000/",
    b"49,140500000,3/",
    b"98,140500000,1,5/",
    b"02,071207890,122099999,3,040620,2359,,2/",
    b"03,7890654321,,010,800000,,,040,6000000,,,110,5000000/",
    b"88,4,/",
    b"49,11800000,3/",
    b"98,11800000,1,5/",
    b"99,345450000,4,31/",
]
# As printed: the first 16 has a comma too many, so its type is empty. Line 1 is 43 + 1 bytes, line 2
# 40 + 1, line 3 44 + 1, line 4 30 + 1: the 16 starts at 44 + 41 + 45 + 31 = 161, its type at 164.
refused("doc000_printed.bai", lines(*DOC_000), 8, 164, b",115,450000")
# As printed with the blank that the page has after each line: the blanks change nothing before the
# fault but the places, one byte for each of four lines.
refused("doc000_printed_blanks.bai", lines(*[row + b" " for row in DOC_000]), 8, 168, b",115,450000")
# Without that comma: groups 13150000 + 180000000 + 140500000 + 11800000 = 345450000; four groups;
# accounts 2 + 1 + 1 + 1; details 1 + 1 + 2; lines 1 + 11 + 8 + 5 + 5 + 1 = 31.
DOC_000_GOOD = [row.replace(b"16,,115", b"16,115") for row in DOC_000]
accepted("doc000_corrected.bai", lines(*DOC_000_GOOD), 345450000, 4, 5, 4, 31)
accepted("doc000_corrected_crlf.bai", lines(*DOC_000_GOOD).replace(b"\n", b"\r\n"),
         345450000, 4, 5, 4, 31)
# Filled with blanks to the 65 bytes that its header gives.
accepted("doc000_filled.bai", lines(*[row.ljust(65) for row in DOC_000_GOOD]), 345450000, 4, 5, 4, 31)
# One blank too many on line 2, which starts after 65 + 1 bytes: byte 66 + 65.
refused("doc000_filled_66.bai", lines(*[row.ljust(66 if i == 1 else 65)
                                       for i, row in enumerate(DOC_000_GOOD)]), 3, 131, b" \n")
# One blank too many on line 1, the header itself: held against L after its fields, byte 65.
refused("doc000_filled_header_66.bai", lines(DOC_000_GOOD[0].ljust(66), *DOC_000_GOOD[1:]), 3, 65, b" \n")

# ---- Source document 001, its single records in an envelope ----

# 03: 500000 + 70000000; 16: 1500000; 88 sample: 10000000; 890: nothing. Sum 82000000. Lines of the
# account: 03, 16, 16 with two 88s, 16, 49: seven. Document 000's commas in the 03. L is 65 here,
# since the 890 line has 57 bytes.
DOC_001 = [
    b"01,122099999,123456789,040621,0200,1,65,,2/",
    b"02,031001234,122099999,1,040620,2359,,2/",
    b"03,0975312468,,010,500000,,,190,70000000,4,0/",
    b"16,165,1500000,1,DD1620,, DEALER PAYMENTS",
    b"16,115,10000000,S,5000000,4000000,1000000/",
    b"88,AX13612,B096132,AMALGAMATED CORP. LOCKBOX",
    b"88,DEPOSIT-MISC. RECEIVABLES",
    b"16,890,,,,,detail reports will be delayed until 11:00 AM.",
    b"49,82000000,7/",
    b"98,82000000,1,9/",
    b"99,82000000,1,11/",
]
accepted("doc001_corrected.bai", lines(*DOC_001), 82000000, 1, 1, 3, 11)
# With the header as printed, L is 55: the 890 line starts at 44 + 41 + 46 + 42 + 43 + 45 + 29 = 290
# and its 56th byte is at 345.
refused("doc001_l_55.bai", lines(DOC_001[0].replace(b"65", b"55"), *DOC_001[1:]), 3, 345, b"M.\n")
# 001 prints the 03 with two commas only between its items: 190 stands in the funds of the status item
# 010. The 03 starts at 44 + 41 = 85; "03,0975312468,,010,500000,,": 3 + 11 + 1 + 4 + 7 + 1 = 27.
refused("doc001_printed_03.bai", lines(*DOC_001[:2], b"03,0975312468,,010,500000,,190,70000000,4,0/",
                                       *DOC_001[3:]), 8, 112, b"190,")
# The account without items, five commas and a slash; the 16 is then all its sum.
accepted("doc001_no_item.bai", lines(*K1[:2], b"03,5765432,,,,,/", K1[3], b"49,1500,3/",
                                     b"98,1500,1,5/", b"99,1500,1,7/"), 1500, 1, 1, 1, 7)
# One comma fewer: the slash ends the item count, and the funds are missing; the slash is at 83 + 14.
refused("doc001_no_item_four_commas.bai", lines(*K1[:2], b"03,5765432,,,,/", K1[3], b"49,1500,3/",
                                                b"98,1500,1,5/", b"99,1500,1,7/"), 8, 97, b"/\n")

# ---- Source document 004 ----

DOC_004_PRINTED = [
    b"01,0004,12345,060321,0829,001,80,1,2/",
    b"02,12345,0004,1,060317,,CAD,/",
    b"03,10200123456,CAD,040,+000000000000,,045,+000000000000,,/",
    b"88,100,000000000208500,00003,V,060316,,400,000000000208500,00",
    b"008,V,060316,/",
    b"16,409,000000000002500,V,060316,,,RETURNED CHEQUE /",
    b"16,409,000000000090000,V,060316,,,RTN-UNKNOWN /",
    b"16,409,000000000000500,V,060316,,,RTD CHQ SERVICE CHRG/",
    b"16,108,000000000203500,V,060316,,,TFR 1020 0345678 /",
    b"16,108,00000000002500,V,060316,,,MACLEOD MALL /",
    b"16,108,00000000002500,V,060316,,,MASCOCHE QUE /",
    b"16,409,00000000020000,V,060316,,,1000 ISLANDS MALL /",
    b"16,409,00000000090000,V,060316,,,PENHORA MALL /",
    b"16,409,00000000002000,V,060316,,,CAPILANO MALL /",
    b"16,409,00000000002500,V,060316,,,GALERIES LA CAPITALE/",
    b"16,409,00000000001000,V,060316,,,PLAZA ROCK FOREST /",
    b"49,+0000000000834000,00000014/",
    b"03,10200123456,CAD,040,+000000000000,,045,+000000000000,,/",
    b"88,100,000000000111500,00002,V,060317,,400,000000000111500,00",
    b"004,V,060317,/",
    b"16,108,000000000011500,V,060317,,,TFR 1020 0345678 /",
    b"16,108,000000000100000,V,060317,,,MONTREAL /",
    b"16,409,000000000100000,V,060317,,,GRANDFALL NB /",
    b"16,409,000000000090000,V,060317,,,HAMILTON ON /",
    b"16,409,00000000002000,V,060317,,,WOODSTOCK NB /",
    b"16,409,000000000000500,V,060317,,,GALERIES RICHELIEU /",
    b"49,+0000000000446000,00000009/",
    b"98,+00000000001280000,000000002,000000025/",
    b"99,+00000000001280000,000000001,000000027/",
]


def unwrapped(rows):
    """The 88s that the page broke, whole again: a row that starts with 00 belongs to the one before."""
    whole = []
    for row in rows:
        if row.startswith(b"00"):
            whole[-1] += row
        else:
            whole.append(row)
    return whole


def with_commas(row):
    """The commas of tables 3 and 5: ",,,045" in the 03, four commas before a 16's text."""
    if row.startswith(b"03,"):
        return row.replace(b",,045,", b",,,045,")
    return row.replace(b",,,", b",,,,") if row.startswith(b"16,") else row


# As printed: line 1 has 37 + 1 bytes, line 2 29 + 1, so the 03 starts at 68. 045 stands in the funds
# of the status item 040: 68 + "03,10200123456,CAD,040,+000000000000,,": 3 + 12 + 4 + 4 + 14 + 1 = 38.
refused("doc004_printed.bai", lines(*DOC_004_PRINTED), 8, 106, b"045,+")
DOC_004_UNWRAPPED = unwrapped(DOC_004_PRINTED)
refused("doc004_unwrapped.bai", lines(*DOC_004_UNWRAPPED), 8, 106, b"045,+")
# With the 03's comma, but the page's break in the 88: the 03 has 59 + 1 bytes, so the 88 starts at
# 128; it has 61 bytes and its last field no comma or slash: 128 + 61.
refused("doc004_wrapped.bai", lines(*[with_commas(row) for row in DOC_004_PRINTED]), 7, 189, b"\n008,V")
# With the 03's comma and the 88 whole (75 + 1 bytes), but three commas before the 16's text: the 16
# starts at 204; "RETURNED CHEQUE " is its customer reference and its text is missing, at the
# slash: 204 + "16,409,000000000002500,V,060316,,,RETURNED CHEQUE ": 3 + 4 + 16 + 2 + 7 + 2 + 16 = 50.
refused("doc004_three_commas.bai",
        lines(*[with_commas(row) if row.startswith(b"03,") else row for row in DOC_004_UNWRAPPED]),
        8, 254, b"/\n16,409")
# With all commas: first account 208500 twice and details 2500 + 90000 + 500 + 203500 + 2500 + 2500 +
# 20000 + 90000 + 2000 + 2500 + 1000 = 417000, so 834000 as stated, 14 lines. Second: 111500 twice
# and 11500 + 100000 + 100000 + 90000 + 2000 + 500 = 304000, so 527000, where its 49 says 446000.
# Bytes before that 49 (with LF): 38 + 30; 60 + 76; the first account's 16s: 53, 49, 57, 54, 49, 49,
# 54, 49, 50, 56, 54 = 574; its 49: 31; 60 + 76; the second's 16s: 54, 46, 50, 49, 49, 56 = 304.
# 68 + 136 + 574 + 31 + 136 + 304 = 1249, and its total three bytes on.
DOC_004_COMMAS = [with_commas(row) for row in DOC_004_UNWRAPPED]
refused("doc004_commas.bai", lines(*DOC_004_COMMAS), 11, 1252, b"+0000000000446000,00000009/")
# HAMILTON at 9000: 446000. 834000 + 446000 = 1280000; 11 + 6 details; 1 + 25 + 1 lines.
DOC_004_GOOD = [row.replace(b"90000,V,060317,,,,HAMILTON", b"09000,V,060317,,,,HAMILTON")
                for row in DOC_004_COMMAS]
accepted("doc004_corrected.bai", lines(*DOC_004_GOOD), 1280000, 1, 2, 17, 27)
# A loan's 03: a status item (056) with funds V is refused there: 68 + "03,1020123456701,CAD,056,
# +000000000000,,": 3 + 14 + 4 + 4 + 14 + 1 = 40.
refused("doc004_loan.bai",
        lines(*DOC_004_GOOD[:2],
              b"03,1020123456701,CAD,056,+000000000000,,V,060201,,056,+000000000000,,V,060228,/",
              b"49,0,2/", b"98,0,1,4/", b"99,0,1,6/"), 8, 108, b"V,060201")

# ---- 1 to 6 ----

# 1: no byte.
refused("empty.bai", b"", 1, 0, b"")

# 3: a 16 at 113 with a text of 4,074 bytes: "16,165,1500,1,DD1620,," has 22 bytes, 4,096 in all.
accepted("line_4096.bai", detail(b"16,165,1500,1,DD1620,," + b"T" * 4074), 1000, 1, 1, 1, 7)
# One more: its 4,097th byte is at 113 + 4096.
refused("line_4097.bai", detail(b"16,165,1500,1,DD1620,," + b"T" * 4074 + b"X"), 3, 4209, b"X\n")
# CR LF is not part of the 4,096.
accepted("line_4096_crlf.bai", detail(b"16,165,1500,1,DD1620,," + b"T" * 4074).replace(b"\n", b"\r\n"),
         1000, 1, 1, 1, 7)
# The header may have 4,096 bytes too, blanks after its slash; one more is refused at 4096.
accepted("header_4096.bai", k1(line1=K1[0].ljust(4096)), 1000, 1, 1, 1, 7)
refused("header_4097.bai", k1(line1=K1[0].ljust(4097)), 3, 4096, b" \n")
# L 4096: line 1 is 4 bytes longer, so the 16 starts at 117 and its 4,097th byte is at 4213.
HEADER_4096 = b"01,122099999,123456789,040621,0200,1,4096,,2/"
accepted("l_4096.bai", detail(b"16,165,1500,1,DD1620,," + b"T" * 4074).replace(K1[0], HEADER_4096),
         1000, 1, 1, 1, 7)
refused("l_4096_line_4097.bai",
        detail(b"16,165,1500,1,DD1620,," + b"T" * 4074 + b"X").replace(K1[0], HEADER_4096),
        3, 4213, b"X\n")
# L 4097 is over the bound; L starts at 37. Leading zeros are allowed in four digits, not a fifth.
refused("l_4097.bai", k1(line1=b"01,122099999,123456789,040621,0200,1,4097,,2/"), 8, 37, b"4097,")
accepted("l_0048.bai", k1(line1=b"01,122099999,123456789,040621,0200,1,0048,,2/"), 1000, 1, 1, 1, 7)
refused("l_00048.bai", k1(line1=b"01,122099999,123456789,040621,0200,1,00048,,2/"), 8, 37, b"00048,")
# L 48: line 1 is 2 bytes longer, so the 16 starts at 115. "16,165,1500,1,DD1620,," and 26 bytes are
# 48; with a 27th the 49th byte is at 115 + 48 = 163.
HEADER_48 = b"01,122099999,123456789,040621,0200,1,48,,2/"
accepted("l_48_line_48.bai",
         detail(b"16,165,1500,1,DD1620,,ABCDEFGHIJKLMNOPQRSTUVWXYZ").replace(K1[0], HEADER_48),
         1000, 1, 1, 1, 7)
refused("l_48_line_49.bai",
        detail(b"16,165,1500,1,DD1620,,ABCDEFGHIJKLMNOPQRSTUVWXYZ!").replace(K1[0], HEADER_48),
        3, 163, b"!\n")
# An 88 over L counts as any line; it starts at 115 + 38 = 153, and 153 + 48 = 201.
refused("l_48_88_over.bai", detail(K1[3], b"88," + b"P" * 45 + b"!").replace(K1[0], HEADER_48),
        3, 201, b"!\n")
# L known: the place is after L also where the line is over 4,096 (16 at 115, 115 + 48).
refused("l_48_line_4097.bai",
        detail(b"16,165,1500,1,DD1620,," + b"T" * 26 + b"!" + b"T" * 4048).replace(K1[0], HEADER_48),
        3, 163, b"!T")
# The header's own line: 43 bytes and six blanks are 49, held against L after its fields.
refused("l_48_header_49.bai", k1(line1=HEADER_48 + b"      "), 3, 48, b" \n")
# The header's 88 over L: line 1 "01,122099999,123456789/" is 23 + 1 bytes, the 88 starts at 24:
# "88,040621,0200,1,48,,2/" has 23, with 26 blanks 49; byte 24 + 48 = 72.
refused("l_48_header_88.bai", lines(b"01,122099999,123456789/", b"88,040621,0200,1,48,,2/" + b" " * 26,
                                    b"99,0,0,3/"), 3, 72, b" \n")
# Fields come first: the same header line with version 3, which is at 41.
refused("l_48_header_version.bai", k1(line1=b"01,122099999,123456789,040621,0200,1,48,,3/      "),
        9, 41, b"3/")

# 4: bytes 0x1F and 0x7F and a byte over 0x7F are not allowed, blank and 0x7E are; the text is at 135.
for name, byte in (("1f", b"\x1f"), ("7f", b"\x7f"), ("80", b"\x80"), ("00", b"\0"), ("tab", b"\t")):
    refused(f"byte_{name}.bai", detail(b"16,165,1500,1,DD1620,,A" + byte + b"B"), 4, 136, byte + b"B")
accepted("byte_20_7e.bai", detail(b"16,165,1500,1,DD1620,,A ~B"), 1000, 1, 1, 1, 7)
# 3 comes before 4 in a line: a bad byte at 113 + 22 = 135 in a line of 4,097 bytes.
refused("line_4097_bad_byte.bai", detail(b"16,165,1500,1,DD1620,,\x01" + b"T" * 4073 + b"X"),
        3, 4209, b"X\n")
# 4 comes before 5: the line "1\x01" at 113.
refused("bad_byte_no_code.bai", detail(b"1\x01"), 4, 114, b"\x01")

# 5: no code: an empty line (at 83), a code without comma, an unknown one, one digit, a leading blank.
refused("line_empty.bai", lines(*K1[:2], b"", *K1[2:]), 5, 83, b"\n03")
refused("line_empty_crlf.bai", lines(*K1[:2], b"\r", *K1[2:]), 5, 83, b"\r\n03")
refused("line_empty_first.bai", b"\n" + k1(), 5, 0, b"\n01")
refused("line_empty_last.bai", k1() + b"\n", 5, 188, b"\n")
refused("code_without_comma.bai", k1(line3=b"03/0975312468,USD,010,-500,,/"), 5, 83, b"03/")
refused("code_unknown.bai", k1(line3=b"04,0975312468,USD,010,-500,,/"), 5, 83, b"04,")
refused("code_89.bai", lines(*K1[:4], b"89,X/", *K1[4:]), 5, 151, b"89,")
refused("code_one_digit.bai", k1(line3=b"3,0975312468,USD,010,-500,,/"), 5, 83, b"3,0")
refused("code_after_blank.bai", k1(line3=b" 03,0975312468,USD,010,-500,,/"), 5, 83, b" 03")
refused("code_alone.bai", k1(line7=b"99"), 5, 175, b"99\n")
# "88" without its comma is no 88, so not the 16's continuation, and no code either.
refused("code_88_without_comma.bai", lines(*K1[:4], b"88", *K1[4:]), 5, 151, b"88\n")

# 6: out of order, at the line's start.
refused("order_02_first.bai", lines(*K1[1:]), 6, 0, b"02,")
refused("order_01_twice.bai", lines(K1[0], *K1), 6, 42, b"01,")
refused("order_16_before_03.bai", lines(*K1[:2], K1[3], *K1[4:]), 6, 83, b"16,")
refused("order_49_missing.bai", lines(*K1[:4], *K1[5:]), 6, 151, b"98,")
refused("order_98_missing.bai", lines(*K1[:5], K1[6]), 6, 162, b"99,")
refused("order_02_in_group.bai", lines(*K1[:5], K1[1]), 6, 162, b"02,")
refused("order_03_in_account.bai", lines(*K1[:4], K1[2]), 6, 151, b"03,")
refused("order_16_after_49.bai", lines(*K1[:5], K1[3]), 6, 162, b"16,")
# Behind the 99 nothing may stand; its 188 bytes come first.
refused("order_after_99.bai", k1() + b"16,165,1,,,,/\n", 6, 188, b"16,")
refused("order_second_file.bai", k1() + k1(), 6, 188, b"01,")
# A record after the 99 has its lines judged first: a bad byte (188 + 3) comes before 6.
refused("order_after_99_bad_byte.bai", k1() + b"16,\x01\n", 4, 191, b"\x01")
# An 88 after the 99 is the 99's: one field too many, at the 88's fourth byte, 188 + 3.
refused("88_after_99.bai", k1() + b"88,1/\n", 8, 191, b"1/")
# Leading 88s are one record, refused at 0, ...
refused("88_first.bai", b"88,A/\n88,B/\n" + k1(), 6, 0, b"88,A")
# ... but all its lines are judged before: a bad byte in the second 88, at 6 + 3.
refused("88_first_bad_byte.bai", b"88,A/\n88,\x01/\n" + k1(), 4, 9, b"\x01")
# All lines of a misplaced record come before its 6: the 16 at 83 has an 88 at 121 with a bad byte.
refused("order_88_bad_byte.bai", lines(*K1[:2], K1[3], b"88,X\x7fY", *K1[4:]), 4, 125, b"\x7fY")
# 6 comes before fields: a misplaced 98 with a wrong total.
refused("order_before_fields.bai", lines(*K1[:2], b"98,X,Y,Z/"), 6, 83, b"98,X")
# The file ends before its 99: at the file's length. 175 bytes are K1 without its last line.
refused("end_before_99.bai", lines(*K1[:6]), 6, 175, b"")
refused("end_after_01.bai", lines(K1[0]), 6, 42, b"")
refused("end_before_99_no_last_end.bai", lines(*K1[:6])[:-1], 6, 174, b"")
# A file without group is accepted (k03_result above); its figures are judged all the same: "99," at
# 42, total 45, groups 47, records 49.
refused("no_group_total.bai", lines(K1[0], b"99,1,0,2/"), 11, 45, b"1,0,2")
refused("no_group_groups.bai", lines(K1[0], b"99,0,1,2/"), 12, 47, b"1,2/")
refused("no_group_records.bai", lines(K1[0], b"99,0,0,1/"), 13, 49, b"1/")

# ---- 7: the line ends too soon, a byte after the slash, text ----

# Line 2 without its slash: 40 less 1 bytes from 42 on, so it ends at 81.
refused("no_slash.bai", k1(line2=K1[1][:-1]), 7, 81, b"\n03")
# With CR LF the end is before the CR: line 1 is one byte longer.
refused("no_slash_crlf.bai", k1(line2=K1[1][:-1]).replace(b"\n", b"\r\n"), 7, 82, b"\r\n03")
# At the file's end without LF: K1 less LF and slash has 186 bytes.
refused("no_slash_at_end.bai", k1()[:-2], 7, 186, b"")
# A field without comma or slash isn't judged: a bad modifier "9" (at 80) is 7 at 81 too.
refused("no_slash_bad_field.bai", k1(line2=b"02,031001234,122099999,1,040620,2359,,9"), 7, 81, b"\n03")
# A comma at the line's end: a further field starts after it and has no end. Line 3 then ends at
# 83 + 29; the comma stands where the slash was, at 111.
refused("comma_at_end.bai", k1(line3=b"03,0975312468,USD,010,-500,,,"), 7, 112, b"\n16")
# The code's comma alone.
refused("bare_03.bai", lines(*K1[:2], b"03,", *K1[3:]), 7, 86, b"\n16")
refused("bare_88.bai", lines(*K1[:3], b"88,", *K1[3:]), 7, 116, b"\n16")
# Blanks may follow the slash, anything else is 7 there: the 49's slash is at 160, X at 161 or 163.
accepted("blanks_after_slash.bai", k1(line5=b"49,1000,3/   "), 1000, 1, 1, 1, 7)
refused("byte_after_slash.bai", k1(line5=b"49,1000,3/X"), 7, 161, b"X\n")
refused("byte_after_blanks.bai", k1(line5=b"49,1000,3/  X"), 7, 163, b"X\n")
refused("two_slashes.bai", k1(line5=b"49,1000,3//"), 7, 161, b"/\n98")
# The field before the slash is judged first (records "A" at 159), ...
refused("bad_field_then_byte.bai", k1(line5=b"49,1000,A/X"), 8, 159, b"A/X")
# ... and a byte after the slash comes before what is missing (total 154, slash 158, X 159).
refused("byte_then_missing.bai", k1(line5=b"49,1000/X"), 7, 159, b"X\n")
# ... and before anything on the next line (the 88's field would be wrong).
refused("byte_then_88.bai", lines(*K1[:4], b"49,1000/X", b"88,A/", *K1[5:]), 7, 159, b"X\n")

# Text, whose place is 135: commas and slashes inside, a slash last, a comma first, a blank first.
accepted("text_slashes.bai", detail(b"16,165,1500,1,DD1620,,A/B, C//D,/"), 1000, 1, 1, 1, 7)
accepted("text_slash_last.bai", detail(b"16,165,1500,1,DD1620,,RETURNED CHEQUE /"), 1000, 1, 1, 1, 7)
accepted("text_comma_first.bai", detail(b"16,165,1500,1,DD1620,,,A"), 1000, 1, 1, 1, 7)
accepted("text_blank_first.bai", detail(b"16,165,1500,1,DD1620,,  /A  "), 1000, 1, 1, 1, 7)
# No text: a slash, with blanks after it.
accepted("text_none.bai", detail(b"16,165,1500,1,DD1620,,/"), 1000, 1, 1, 1, 7)
accepted("text_none_blanks.bai", detail(b"16,165,1500,1,DD1620,,/   "), 1000, 1, 1, 1, 7)
# Text that begins with a slash, is empty, or all blank: 7 at the text's place.
refused("text_slash_first.bai", detail(b"16,165,1500,1,DD1620,,/DEALER"), 7, 135, b"/DEALER")
refused("text_two_slashes.bai", detail(b"16,165,1500,1,DD1620,,//"), 7, 135, b"//")
refused("text_slash_blank_byte.bai", detail(b"16,165,1500,1,DD1620,,/ A"), 7, 135, b"/ A")
refused("text_empty.bai", detail(b"16,165,1500,1,DD1620,,"), 7, 135, b"\n49")
refused("text_blanks.bai", detail(b"16,165,1500,1,DD1620,,   "), 7, 135, b"   \n")
# Text at the start of an 88, where the 16 ended at its customer reference. "16,165,1500,1,DD1620,/" is
# 22 + 1 bytes, so the 88 starts at 136 and its text at 139.
accepted("text_in_88.bai", detail(b"16,165,1500,1,DD1620,/", b"88,PAYMENTS, A/B/"), 1000, 1, 1, 1, 8)
accepted("text_none_in_88.bai", detail(b"16,165,1500,1,DD1620,/", b"88,/"), 1000, 1, 1, 1, 8)
refused("text_slash_in_88.bai", detail(b"16,165,1500,1,DD1620,/", b"88,/A"), 7, 139, b"/A")
refused("text_empty_in_88.bai", detail(b"16,165,1500,1,DD1620,/", b"88,"), 7, 139, b"\n49")
# Several pieces; each later 88 is one, also one that looks like fields.
accepted("text_pieces.bai", detail(K1[3], b"88,OF JUNE", b"88,,,/", b"88, AND JULY/ "), 1000, 1, 1, 1, 10)
# On a later 88 a slash is a piece that begins with a slash: the 88 starts at 151, its piece at 154.
refused("text_piece_slash.bai", detail(K1[3], b"88,/"), 7, 154, b"/\n")
refused("text_piece_empty.bai", detail(K1[3], b"88,"), 7, 154, b"\n49")
refused("text_piece_blank.bai", detail(K1[3], b"88,A", b"88,  "), 7, 159, b"  \n")
# Behind "no text" an 88's field is one too many, at its fourth byte: "16,165,1500,1,DD1620,,/" is 23 +
# 1 bytes, the 88 starts at 137, its field at 140. Without comma or slash it is 7 at the line's end.
refused("text_none_then_88.bai", detail(b"16,165,1500,1,DD1620,,/", b"88,X/"), 8, 140, b"X/")
refused("text_none_then_88_open.bai", detail(b"16,165,1500,1,DD1620,,/", b"88,X"), 7, 141, b"\n49")
# A 16 that ends at its customer reference lacks its text: the slash at 134.
refused("text_missing.bai", detail(b"16,165,1500,1,DD1620,/"), 8, 134, b"/\n")

# ---- 8 and 9: fields ----

N76 = b"0087654 N" + b"a" * 66 + b"Z"
N77 = N76 + b"!"
# Names of 76 bytes, blanks inside; 77 are refused at the field's start.
accepted("name_76.bai", lines(b"01," + N76 + b"," + N76 + b",040621,0200,1,,,2/",
                              b"02," + N76 + b"," + N76 + b",1,040620,2359,,2/",
                              b"03," + N76 + b",USD,010,-500,,/",
                              b"16,165,1500,1," + N76 + b"," + N76 + b",/", *K1[4:]), 1000, 1, 1, 1, 7)
refused("sender_77.bai", k1(line1=b"01," + N77 + b",123456789,040621,0200,1,,,2/"), 8, 3, N77)
refused("file_receiver_77.bai", k1(line1=b"01,122099999," + N77 + b",040621,0200,1,,,2/"), 8, 13, N77)
refused("receiver_77.bai", k1(line2=b"02," + N77 + b",122099999,1,040620,2359,,2/"), 8, 45, N77)
refused("originator_77.bai", k1(line2=b"02,031001234," + N77 + b",1,040620,2359,,2/"), 8, 55, N77)
refused("account_77.bai", k1(line3=b"03," + N77 + b",USD,010,-500,,/"), 8, 86, N77)
refused("bank_reference_77.bai", k1(line4=b"16,165,1500,1," + N77 + b",,/"), 8, 127, N77)
refused("customer_reference_77.bai", k1(line4=b"16,165,1500,1,DD1620," + N77 + b",/"), 8, 134, N77)
# Empty names: only the 02's receiver and a 16's references may be.
accepted("receiver_empty.bai", k1(line2=b"02,,122099999,1,040620,2359,,2/"), 1000, 1, 1, 1, 7)
accepted("references_empty.bai", k1(line4=b"16,165,1500,1,,,DEALER PAYMENTS"), 1000, 1, 1, 1, 7)
refused("sender_empty.bai", k1(line1=b"01,,123456789,040621,0200,1,,,2/"), 8, 3, b",123")
refused("file_receiver_empty.bai", k1(line1=b"01,122099999,,040621,0200,1,,,2/"), 8, 13, b",040621")
refused("originator_empty.bai", k1(line2=b"02,031001234,,1,040620,2359,,2/"), 8, 55, b",1,04")
refused("account_empty.bai", k1(line3=b"03,,USD,010,-500,,/"), 8, 86, b",USD")

# 01: file number of 9 digits good, 10 or none not (35); block size likewise, but it may be empty (38).
accepted("file_number_9.bai", k1(line1=b"01,122099999,123456789,040621,0200,000000001,,999999999,2/"),
         1000, 1, 1, 1, 7)
refused("file_number_10.bai", k1(line1=b"01,122099999,123456789,040621,0200,0000000001,,,2/"),
        8, 35, b"0000000001")
refused("file_number_empty.bai", k1(line1=b"01,122099999,123456789,040621,0200,,,,2/"), 8, 35, b",,,2/")
refused("block_size_10.bai", k1(line1=b"01,122099999,123456789,040621,0200,1,,1234567890,2/"),
        8, 38, b"1234567890")
# 9: the version (39) is exactly "2".
refused("version_3.bai", k1(line1=b"01,122099999,123456789,040621,0200,1,,,3/"), 9, 39, b"3/")
refused("version_02.bai", k1(line1=b"01,122099999,123456789,040621,0200,1,,,02/"), 9, 39, b"02/")
refused("version_empty.bai", k1(line1=b"01,122099999,123456789,040621,0200,1,,,/"), 9, 39, b"/\n")
# Missing: the block size ends at the slash (38), so the version is missing there. One too many: after
# "2," at 41.
refused("version_missing.bai", k1(line1=b"01,122099999,123456789,040621,0200,1,,/"), 8, 38, b"/\n")
refused("header_too_many.bai", k1(line1=b"01,122099999,123456789,040621,0200,1,,,2,/"), 8, 41, b"/\n")

# 02: status 0 and 5 (65), currency of two letters and in small ones (79), modifier 5 (80).
refused("status_0.bai", k1(line2=b"02,031001234,122099999,0,040620,2359,,2/"), 8, 65, b"0,04")
refused("status_5.bai", k1(line2=b"02,031001234,122099999,5,040620,2359,,2/"), 8, 65, b"5,04")
accepted("status_4_currency.bai", k1(line2=b"02,031001234,122099999,4,040620,2359,CAD,/"), 1000, 1, 1, 1, 7)
refused("currency_2.bai", k1(line2=b"02,031001234,122099999,1,040620,2359,US,2/"), 8, 79, b"US,")
refused("currency_small.bai", k1(line2=b"02,031001234,122099999,1,040620,2359,usd,2/"), 8, 79, b"usd,")
refused("modifier_5.bai", k1(line2=b"02,031001234,122099999,1,040620,2359,,5/"), 8, 80, b"5/")
refused("modifier_missing.bai", k1(line2=b"02,031001234,122099999,1,040620,2359,/"), 8, 79, b"/\n")
refused("group_too_many.bai", k1(line2=b"02,031001234,122099999,1,040620,2359,,2,/"), 8, 82, b"/\n")

# 03: the type is at 101, the amount at 105.
for code in (b"000", b"800", b"889", b"890", b"891", b"899", b"10", b"0100", b"A10"):
    refused(f"item_type_{code.decode()}.bai", k1(line3=b"03,0975312468,USD," + code + b",0,,/"),
            8, 101, code + b",")
# 001, 099, 100, 400, 101, 399, 401, 799, 900, 999, on 88s of their own, 1 to 10: 55; with the
# status 010 at -555 the account's 03 is worth -500.
accepted("item_types.bai", account(
    b"03,0975312468,USD,010,-555,,/", b"88,001,1,,/", b"88,099,2,,/", b"88,100,3,,/", b"88,400,4,,/",
    b"88,101,5,,/", b"88,399,6,,/", b"88,401,7,,/", b"88,799,8,,/", b"88,900,9,,/", b"88,999,10,,/"),
    1000, 1, 1, 1, 17)
# The uniform list binds no file: 002, 102 and 925 are in the ranges and not listed; -505, 2 and 3 are
# -500. 701 is listed as a status, but in the ranges a summary, without a minus (105), or a detail.
accepted("unlisted_items.bai", account(b"03,0975312468,USD,002,-505,,/", b"88,102,2,,/", b"88,925,3,,/"),
         1000, 1, 1, 1, 9)
accepted("unlisted_detail.bai", detail(b"16,925,1500,1,DD1620,,DEALER PAYMENTS"), 1000, 1, 1, 1, 7)
refused("loan_status_minus.bai", k1(line3=b"03,0975312468,USD,701,-500,,/"), 8, 105, b"-500,")
accepted("loan_status_detail.bai", detail(b"16,701,1500,1,DD1620,,DEALER PAYMENTS"), 1000, 1, 1, 1, 7)
# A status item: count (110, after "-500," at 105) and funds (111) must be empty.
refused("status_count.bai", k1(line3=b"03,0975312468,USD,010,-500,1,/"), 8, 110, b"1,/")
refused("status_funds.bai", k1(line3=b"03,0975312468,USD,010,-500,,Z/"), 8, 111, b"Z/")
# Amount and count: 18 and 9 digits good, 19 and 10 not. "100," at 101, amount 105; count 107.
accepted("digits_18_9.bai", account(b"03,0975312468,USD,010,-000000000000000500,,,100,,000000009,/"),
         1000, 1, 1, 1, 7)
refused("digits_19.bai", k1(line3=b"03,0975312468,USD,010,-0000000000000000500,,/"),
        8, 105, b"-0000000000000000500,")
refused("count_10.bai", k1(line3=b"03,0975312468,USD,100,1,0000000009,/"), 8, 107, b"0000000009,")
# Signs: plus everywhere; alone, doubled, or after the digits never; -0 is zero.
accepted("plus_amounts.bai", lines(*K1[:2], b"03,0975312468,USD,010,+500,,,100,+1,,/",
                                   b"16,165,+1500,,,,/", b"49,+2001,3/", b"98,+2001,1,5/",
                                   b"99,+2001,1,7/"), 2001, 1, 1, 1, 7)
accepted("minus_zero.bai", lines(*K1[:2], b"03,0975312468,USD,010,-0,,/", b"49,-0,2/", b"98,+0,1,4/",
                                 b"99,-000,1,6/"), 0, 1, 1, 0, 6)
refused("sign_alone.bai", k1(line3=b"03,0975312468,USD,010,-,,/"), 8, 105, b"-,,/")
refused("sign_twice.bai", k1(line3=b"03,0975312468,USD,010,--5,,/"), 8, 105, b"--5")
refused("sign_after.bai", k1(line3=b"03,0975312468,USD,010,5-,,/"), 8, 105, b"5-,")
# The sole empty item: beside an empty type the first filled field is wrong (amount 102, count 103,
# funds 104); any field after it is one too many (105); a slash too soon is a field missing (103).
refused("no_item_amount.bai", k1(line3=b"03,0975312468,USD,,5,6,/"), 8, 102, b"5,6")
refused("no_item_count.bai", k1(line3=b"03,0975312468,USD,,,6,1/"), 8, 103, b"6,1")
refused("no_item_funds.bai", k1(line3=b"03,0975312468,USD,,,,1/"), 8, 104, b"1/")
refused("no_item_then_item.bai", k1(line3=b"03,0975312468,USD,,,,,010,-500,,/"), 8, 105, b"010,")
refused("no_item_too_short.bai", k1(line3=b"03,0975312468,USD,,,/"), 8, 103, b"/\n")
# From the second item on an empty type is itself wrong; "010,-500,,," ends at 112.
refused("second_type_empty.bai", k1(line3=b"03,0975312468,USD,010,-500,,,,,,/"), 8, 112, b",,,/")
# An item cut off at its type (slash 104) or its count (slash 110).
refused("item_type_only.bai", k1(line3=b"03,0975312468,USD,010/"), 8, 104, b"/\n")
refused("item_no_funds.bai", k1(line3=b"03,0975312468,USD,010,-500,/"), 8, 110, b"/\n")
# No item at all: the currency ends at the slash, 100.
refused("item_missing.bai", k1(line3=b"03,0975312468,USD/"), 8, 100, b"/\n")
# "The record's last slash" is that of its last line: 03 and 88, the 88 at 113, its slash at 121.
refused("item_missing_in_88.bai", lines(*K1[:3], b"88,100,1/", *K1[3:]), 8, 121, b"/\n")

# 16: types 001, 099, 100, 400, 800 are 03's or nobody's (116).
for code in (b"001", b"099", b"100", b"400", b"800", b"000", b""):
    refused(f"detail_type_{code.decode() or 'empty'}.bai",
            k1(line4=b"16," + code + b",1500,1,DD1620,,DEALER PAYMENTS"), 8, 116, code + b",1500")
# 890: references and text, but amount (120) and funds (121) empty.
accepted("note_890.bai", lines(*K1[:2], b"03,0975312468,USD,010,-500,,/", b"16,890,,,B,C,delayed, 11/12",
                               b"49,-500,3/", b"98,-500,1,5/", b"99,-500,1,7/"), -500, 1, 1, 1, 7)
refused("note_890_amount.bai", k1(line4=b"16,890,0,,B,C,delayed"), 8, 120, b"0,,B")
refused("note_890_funds.bai", k1(line4=b"16,890,,Z,B,C,delayed"), 8, 121, b"Z,B")
# A detail without amount adds nothing.
accepted("detail_amount_empty.bai", lines(*K1[:3], b"16,165,,1,,,/", b"49,-500,3/", b"98,-500,1,5/",
                                          b"99,-500,1,7/"), -500, 1, 1, 1, 7)

# Funds, at 125 in the 16. 0, 1, 2, Z and none; then S, V and D with all that follows.
for funds in (b"0", b"2", b"Z", b""):
    accepted(f"funds_{funds.decode() or 'none'}.bai", detail(b"16,165,1500," + funds + b",,,/"),
             1000, 1, 1, 1, 7)
refused("funds_3.bai", detail(b"16,165,1500,3,,,/"), 8, 125, b"3,")
refused("funds_small_z.bai", detail(b"16,165,1500,z,,,/"), 8, 125, b"z,")
refused("funds_00.bai", detail(b"16,165,1500,00,,,/"), 8, 125, b"00,")
# S: three amounts at 127, each may be empty, none may have a sign.
accepted("funds_s.bai", detail(b"16,165,1500,S,500,999999999999999999,,,,/"), 1000, 1, 1, 1, 7)
refused("funds_s_sign.bai", detail(b"16,165,1500,S,+500,,,,,/"), 8, 127, b"+500")
refused("funds_s_19.bai", detail(b"16,165,1500,S,0000000000000000500,,,,,/"), 8, 127, b"00000000")
# V: a date at 127, then a time that may be empty at 134.
accepted("funds_v.bai", detail(b"16,165,1500,V,040622,,,,/"), 1000, 1, 1, 1, 7)
accepted("funds_v_time.bai", detail(b"16,165,1500,V,040622,9999,,,/"), 1000, 1, 1, 1, 7)
refused("funds_v_no_date.bai", detail(b"16,165,1500,V,,1200,,,/"), 8, 127, b",1200")
refused("funds_v_bad_time.bai", detail(b"16,165,1500,V,040622,2500,,,/"), 8, 134, b"2500")
# D: X at 127, pairs of days (129) and amount (131).
accepted("funds_d.bai", detail(b"16,165,1500,D,3,0,500,1,500,999,500,,,/"), 1000, 1, 1, 1, 7)
accepted("funds_d_001.bai", detail(b"16,165,1500,D,001,000,0,,,/"), 1000, 1, 1, 1, 7)
refused("funds_d_0.bai", detail(b"16,165,1500,D,0,,,/"), 8, 127, b"0,")
refused("funds_d_1000.bai", detail(b"16,165,1500,D,1000,1,2,,,/"), 8, 127, b"1000,")
refused("funds_d_days_empty.bai", detail(b"16,165,1500,D,1,,5,,,/"), 8, 129, b",5,")
refused("funds_d_days_4.bai", detail(b"16,165,1500,D,1,0001,5,,,/"), 8, 129, b"0001,")
refused("funds_d_amount_empty.bai", detail(b"16,165,1500,D,1,0,,,,/"), 8, 131, b",,,/")
# Two pairs promised, one given: bank reference and customer reference are taken for the second pair,
# whose days "B" (133) are wrong.
refused("funds_d_too_few.bai", detail(b"16,165,1500,D,2,0,5,B,C,/"), 8, 133, b"B,C")
# 999 pairs "0,1" on 88s of their own, references and no text on one more: 1,000 lines beside K1's 7.
accepted("funds_d_999.bai", detail(b"16,165,1500,D,999/", *[b"88,0,1/"] * 999, b"88,,,/"),
         1000, 1, 1, 1, 1007)

# ---- 2026-02: 900 to 919 are status codes ----

# Good as a first item (the 16 adds 1500), and as a further item on an 88 (K1's own -500 too, one line
# more): a minus, a plus, no sign, no amount; the first and the last of them.
for name, item, first, further in (
        ("900_minus", b"900,-500,,", 1000, 500), ("905_minus", b"905,-500,,", 1000, 500),
        ("905_plus", b"905,+500,,", 2000, 1500), ("905_no_sign", b"905,500,,", 2000, 1500),
        ("905_no_amount", b"905,,,", 1500, 1000), ("919_minus", b"919,-500,,", 1000, 500)):
    accepted(f"status_{name}.bai", account(b"03,0975312468,USD," + item + b"/", total=first),
             first, 1, 1, 1, 7)
    accepted(f"status_{name}_further.bai", account(K1[2], b"88," + item + b"/", total=further),
             further, 1, 1, 1, 8)
# 920 is a summary as before, with count and funds, in both places; and a detail.
accepted("summary_920.bai", account(b"03,0975312468,USD,920,500,3,V,040620,0200/", total=2000),
         2000, 1, 1, 1, 7)
accepted("summary_920_further.bai", account(K1[2], b"88,920,+500,3,0/", total=1500), 1500, 1, 1, 1, 8)
accepted("detail_920.bai", detail(b"16,920,1500,0,DD1620,,DEALER PAYMENTS"), 1000, 1, 1, 1, 7)
# Wrong as a first item: in the 03 the type is at 101, the amount at 105, the count after "-500," at
# 110, the funds at 111. On an 88 at 113 the type is at 116, so each place is 15 further on.
for name, item, place, found in (
        ("status_905_count", b"905,-500,1,", 110, b"1,/"),
        ("status_905_count_0", b"905,-500,0,", 110, b"0,/"),
        ("status_905_funds_0", b"905,-500,,0", 111, b"0/"),
        ("status_905_funds_v", b"905,-500,,V,040620,0200", 111, b"V,04"),
        ("status_900_count", b"900,,7,", 106, b"7,/"), ("status_919_funds", b"919,-500,,Z", 111, b"Z/"),
        ("summary_920_minus", b"920,-500,,", 105, b"-500,"),
        ("summary_999_minus", b"999,-500,,", 105, b"-500,")):
    refused(f"{name}.bai", account(b"03,0975312468,USD," + item + b"/"), 8, place, found)
    refused(f"{name}_further.bai", account(K1[2], b"88," + item + b"/"), 8, place + 15, found)
# The same behind another item on its line: after "010,-400,,," at 101 the type is at 112, the count
# after "905,-100," at 121; -400 and -100 are -500.
accepted("status_905_same_line.bai", account(b"03,0975312468,USD,010,-400,,,905,-100,,/"), 1000, 1, 1, 1, 7)
refused("status_905_same_line_count.bai", account(b"03,0975312468,USD,010,-400,,,905,-100,1,/"),
        8, 121, b"1,/")
refused("item_type_899_further.bai", account(K1[2], b"88,899,500,,/"), 8, 116, b"899,")
# In a 16 the type itself is wrong (116), whatever stands behind it; 920's minus is at 120.
for name, row in (
        ("899", b"899,1500,1"), ("900", b"900,1500,1"), ("905", b"905,1500,1"), ("905_minus", b"905,-1500,1"),
        ("905_plus", b"905,+1500,1"), ("905_no_amount", b"905,,"), ("905_funds_0", b"905,1500,0"),
        ("905_funds_v", b"905,1500,V,040620,0200"), ("919", b"919,1500,1")):
    refused(f"detail_{name}.bai", detail(b"16," + row + b",DD1620,,DEALER PAYMENTS"), 8, 116, row[:3] + b",")
refused("detail_920_minus.bai", detail(b"16,920,-1500,0,DD1620,,DEALER PAYMENTS"), 8, 120, b"-1500,")


def after_short_headers(*rows):
    """A 01 of 26 bytes and a 02 of 20, then the rows: the 03 is at 46, its type at 52, its amount at 56."""
    return lines(b"01,A,B,040621,0200,1,,,2/", b"02,R,O,1,040620,,,/", *rows)


# The next ten, with their answers, were worked out by somebody who had the two documents alone.
# -0 + 700 + none in the 03, 300 in the 16; 8 lines.
accepted("customised_mixed.bai", after_short_headers(
    b"03,X,,900,-0,,,905,+700,,/", b"88,919,,,/", b"16,920,+300,0,,,/",
    b"49,1000,4/", b"98,1000,1,6/", b"99,1000,1,8/"), 1000, 1, 1, 1, 8)
# Items broken inside, the 920 also between the pairs of its D: -250 + 40, the pairs left out.
accepted("customised_broken.bai", after_short_headers(
    b"03,X,,905/", b"88,-250/", b"88,,/", b"88,920,+40/", b"88,2,D,2,0,10/", b"88,1,30/",
    b"49,-210,7/", b"98,-210,1,9/", b"99,-210,1,11/"), -210, 1, 1, 0, 11)
# All kinds of funds with 920 to 925 and 999, S over two lines in the 03 and in the 16; then a status:
# 1 + 2 + 3 + 4 + 5 - 15.
accepted("customised_all_funds.bai", after_short_headers(
    b"03,X,,920,1,1,0,921,2,,1,922,+3,999999999,2/", b"88,999,,,Z,923,4,0,S,,5/",
    b"88,,924,5,,V,040620,2400,925,,,D,1,007,000000000000000009,919,-15,,/",
    b"16,999,0,S,1/", b"88,,2,BR,,TXT/,  ", b"49,0,6/", b"98,0,1,8/", b"99,0,1,10/"), 0, 1, 1, 1, 10)
# A 16 over five lines, V without a time; the 905 is text.
accepted("detail_920_over_88s.bai", after_short_headers(
    b"03,X,,,,,/", b"16,920/", b"88,+9,V/", b"88,040620,/", b"88,BANK,CUST/", b"88,TEXT 905,-0/",
    b"49,9,7/", b"98,9,1,9/", b"99,9,1,11/"), 9, 1, 1, 1, 11)
# The count is the first field of the 88 at 60, so at 63; the funds after it are not reached.
refused("status_905_count_on_88.bai", after_short_headers(
    b"03,X,,905,-1/", b"88,5,1/", b"49,-1,3/", b"98,-1,1,5/", b"99,-1,1,7/"), 8, 63, b"5,1/")
# Lines of 15 and 12 bytes before the 88 at 73, whose first field is the funds.
refused("status_919_funds_s_on_88.bai", after_short_headers(
    b"03,X,,010,5,,/", b"88,919,-5,/", b"88,S,1,2,3/", b"49,0,4/", b"98,0,1,6/", b"99,0,1,8/"), 8, 76, b"S,1,")
# D is at 60, behind "919,+1,,".
refused("status_919_funds_d.bai", after_short_headers(
    b"03,X,,919,+1,,D,1,0,5/", b"49,1,2/", b"98,1,1,4/", b"99,1,1,6/"), 8, 60, b"D,1,")
# -0 is good with 919, and with 920 a minus: "919,-0,,,920," is before it.
refused("summary_920_minus_0.bai", after_short_headers(
    b"03,X,,919,-0,,,920,-0,1,2/", b"49,0,2/", b"98,0,1,4/", b"99,0,1,6/"), 8, 65, b"-0,1")
# The 88 is at 60.
refused("item_type_899_after_900.bai", after_short_headers(
    b"03,X,,900,,,/", b"88,899,,,Z/", b"49,0,3/", b"98,0,1,5/", b"99,0,1,7/"), 8, 63, b"899,")
# The type, at 65, is judged before the byte after its slash.
refused("detail_905_byte_after_slash.bai", after_short_headers(
    b"03,X,,905,-3,,/", b"16,905/X", b"88,3,,,,/", b"49,0,4/", b"98,0,1,6/", b"99,0,1,8/"), 8, 65, b"905/X")

# ---- 2026-03: an amount is empty, unsigned, with plus, with minus; what is accepted stays ----

ZEROS = b"0" * 18

# K1 with another amount in its 03, which adds to the 16's 1500: of a status, and of a summary.
for name, amount, total in (
        ("empty", b"", 1500), ("unsigned", b"500", 2000), ("0", b"0", 1500), ("plus_0", b"+0", 1500),
        ("007", b"007", 1507), ("plus_007", b"+007", 1507), ("18_zeros", ZEROS, 1500),
        ("plus_18_zeros", b"+" + ZEROS, 1500)):
    accepted(f"status_amount_{name}.bai", account(b"03,0975312468,USD,010," + amount + b",,/", total=total),
             total, 1, 1, 1, 7)
    accepted(f"summary_amount_{name}.bai", account(b"03,0975312468,USD,100," + amount + b",,/", total=total),
             total, 1, 1, 1, 7)
# A minus is for a status alone: zeros that leave 1500, and 1500 - 7.
for name, amount, total in (("minus_000", b"-000", 1500), ("minus_007", b"-007", 1493),
                            ("minus_18_zeros", b"-" + ZEROS, 1500)):
    accepted(f"status_amount_{name}.bai", account(b"03,0975312468,USD,010," + amount + b",,/", total=total),
             total, 1, 1, 1, 7)
# K1 with another amount in its 16, which adds to the 03's -500.
for name, amount, total in (
        ("0", b"0", -500), ("plus_0", b"+0", -500), ("007", b"007", -493), ("plus_007", b"+007", -493),
        ("18_zeros", ZEROS, -500), ("plus_18_zeros", b"+" + ZEROS, -500),
        ("18_digits", b"000000000000001500", 1000)):
    accepted(f"detail_amount_{name}.bai", detail(b"16,165," + amount + b",1,DD1620,,/", total=total),
             total, 1, 1, 1, 7)
# 18 zeros after S, an empty amount between them; and in a pair of D.
accepted("funds_s_18_zeros.bai", detail(b"16,165,1500,S," + ZEROS + b",," + ZEROS + b",,,/"), 1000, 1, 1, 1, 7)
accepted("funds_d_18_zeros.bai", detail(b"16,165,1500,D,1,0," + ZEROS + b",,,/"), 1000, 1, 1, 1, 7)
# All forms in one account: 5 + 6 - 7 in its statuses, 8 + 9 in its summaries, 10 + 11 in its details.
accepted("every_form.bai", after_short_headers(
    b"03,X,,010,,,,015,5,,,040,+6,,,045,-7,,/", b"88,100,,,,110,8,,,190,+9,2,S,,5,/",
    b"16,165,,,,,/", b"16,165,10,,,,/", b"16,165,+11,,,,/", b"49,+42,6/", b"98,000042,1,8/", b"99,42,1,10/"),
    42, 1, 1, 3, 10)
# Zeros of every form still fit where an amount is all that the bound allows, ...
accepted("bound_then_zeros.bai", lines(
    *K1[:2], b"03,0975312468,USD,010,+999999999999999999,,,015,-0,,,100,+0,,/", b"16,165," + ZEROS + b",,,,/",
    b"49,999999999999999999,3/", b"98,+999999999999999999,1,5/", b"99,999999999999999999,1,7/"),
    999999999999999999, 1, 1, 1, 7)
# ... and -1 does not: after 19 bytes at 105, ",,,", "015,", "-0,,,", "015," it is at 140, its minus first.
refused("bound_then_minus_1.bai", lines(
    *K1[:2], b"03,0975312468,USD,010,+999999999999999999,,,015,-0,,,015,-1,,/", K1[3],
    b"49,1000,3/", b"98,1000,1,5/", b"99,1000,1,7/"), 10, 140, b"-1,,/")


def with_totals(first, *totals):
    """K1 with that amount in its 03, and with those totals in its 49, 98 and 99."""
    return lines(*K1[:2], b"03,0975312468,USD,010," + first + b",,/", K1[3],
                 *[start + total + end for start, total, end in zip(
                     (b"49,", b"98,", b"99,"), totals, (b",3/", b",1,5/", b",1,7/"))])


# -1500 + 1500 is 0, which each trailer may give in any form: the others give it as 0.
for name, zero in (("minus_0", b"-0"), ("plus_0", b"+0"), ("18_zeros", ZEROS), ("plus_18_zeros", b"+" + ZEROS),
                   ("minus_18_zeros", b"-" + ZEROS)):
    accepted(f"total_49_{name}.bai", with_totals(b"-1500", zero, b"0", b"0"), 0, 1, 1, 1, 7)
    accepted(f"total_98_{name}.bai", with_totals(b"-1500", b"0", zero, b"0"), 0, 1, 1, 1, 7)
    accepted(f"total_99_{name}.bai", with_totals(b"-1500", b"0", b"0", zero), 0, 1, 1, 1, 7)
# K1's own 1000, with a plus or leading zeros in one trailer; and -2000 + 1500 with zeros in each.
for name, total in (("plus", b"+1000"), ("zeros", b"0001000")):
    accepted(f"total_49_{name}.bai", with_totals(b"-500", total, b"1000", b"1000"), 1000, 1, 1, 1, 7)
    accepted(f"total_98_{name}.bai", with_totals(b"-500", b"1000", total, b"1000"), 1000, 1, 1, 1, 7)
    accepted(f"total_99_{name}.bai", with_totals(b"-500", b"1000", b"1000", total), 1000, 1, 1, 1, 7)
accepted("totals_minus_zeros.bai", with_totals(b"-2000", b"-0500", b"-000000000000000500", b"-00500"),
         -500, 1, 1, 1, 7)
# K1's 1000 with a minus is another total: in the 49 at 154, in the 98 at 165, in the 99 at 178. So is 500
# for -500, where the 03 has a byte more and the 49's total is at 155.
refused("total_49_minus.bai", with_totals(b"-500", b"-1000", b"1000", b"1000"), 11, 154, b"-1000,3/")
refused("total_98_minus.bai", with_totals(b"-500", b"1000", b"-1000", b"1000"), 11, 165, b"-1000,1,5/")
refused("total_99_minus.bai", with_totals(b"-500", b"1000", b"1000", b"-1000"), 11, 178, b"-1000,1,7/")
refused("total_49_minus_lost.bai", with_totals(b"-2000", b"500", b"-500", b"-500"), 11, 155, b"500,3/")
# What is no total, in each trailer at the same places: a sign alone, two signs, a sign behind the digits, 19
# digits behind a sign. And none or 19 digits in the 98 and the 99.
for name, total in (("plus_alone", b"+"), ("minus_alone", b"-"), ("two_signs", b"+-1000"),
                    ("two_minuses", b"--1000"), ("minus_behind", b"1000-"), ("plus_behind", b"1000+"),
                    ("plus_19", b"+0000000000000001000"), ("minus_19", b"-0000000000000000000")):
    refused(f"total_49_{name}.bai", with_totals(b"-500", total, b"1000", b"1000"), 8, 154, total + b",3/")
    refused(f"total_98_{name}.bai", with_totals(b"-500", b"1000", total, b"1000"), 8, 165, total + b",1,5/")
    refused(f"total_99_{name}.bai", with_totals(b"-500", b"1000", b"1000", total), 8, 178, total + b",1,7/")
for name, total in (("empty", b""), ("19", b"0000000000000001000")):
    refused(f"total_98_{name}.bai", with_totals(b"-500", b"1000", total, b"1000"), 8, 165, total + b",1,5/")
    refused(f"total_99_{name}.bai", with_totals(b"-500", b"1000", b"1000", total), 8, 178, total + b",1,7/")
# A count has no sign: records of the 49 (159), accounts and records of the 98 (170, 172), groups and
# records of the 99 (183, 185).
for name, sign in (("plus", b"+"), ("minus", b"-")):
    refused(f"records_49_{name}.bai", k1(line5=b"49,1000," + sign + b"3/"), 8, 159, sign + b"3/")
    refused(f"accounts_98_{name}.bai", k1(line6=b"98,1000," + sign + b"1,5/"), 8, 170, sign + b"1,5/")
    refused(f"records_98_{name}.bai", k1(line6=b"98,1000,1," + sign + b"5/"), 8, 172, sign + b"5/")
    refused(f"groups_99_{name}.bai", k1(line7=b"99,1000," + sign + b"1,7/"), 8, 183, sign + b"1,7/")
    refused(f"records_99_{name}.bai", k1(line7=b"99,1000,1," + sign + b"7/"), 8, 185, sign + b"7/")

# What is no amount of any kind: of a status and of a summary at 105, of a detail at 120.
for name, amount in (("plus_alone", b"+"), ("two_pluses", b"++5"), ("plus_minus", b"+-5"), ("plus_behind", b"5+"),
                     ("plus_blank", b"+ 5"), ("blank_plus", b" +5"), ("19_zeros", b"0" + ZEROS),
                     ("plus_19_zeros", b"+0" + ZEROS)):
    refused(f"status_amount_{name}.bai", k1(line3=b"03,0975312468,USD,010," + amount + b",,/"),
            8, 105, amount + b",,/")
    refused(f"summary_amount_{name}.bai", k1(line3=b"03,0975312468,USD,100," + amount + b",,/"),
            8, 105, amount + b",,/")
    refused(f"detail_amount_{name}.bai", detail(b"16,165," + amount + b",1,DD1620,,/"), 8, 120, amount + b",1,DD")
# A minus of a summary and of a detail, before zeros, alone, or behind the digits.
for name, amount in (("minus_0", b"-0"), ("minus_18_zeros", b"-" + ZEROS), ("minus_alone", b"-"),
                     ("minus_behind", b"5-")):
    refused(f"summary_amount_{name}.bai", k1(line3=b"03,0975312468,USD,100," + amount + b",,/"),
            8, 105, amount + b",,/")
    refused(f"detail_amount_{name}.bai", detail(b"16,165," + amount + b",1,DD1620,,/"), 8, 120, amount + b",1,DD")
# Of a status: a minus before a plus, and before an 88 that has the digits.
refused("status_amount_minus_plus.bai", k1(line3=b"03,0975312468,USD,010,-+5,,/"), 8, 105, b"-+5,")
refused("status_amount_minus_then_88.bai", account(b"03,0975312468,USD,010,-/", b"88,500,,/"), 8, 105, b"-/\n88")
# An item count has no sign; behind "100,1," it is at 107.
for name, count in (("plus", b"+1"), ("minus", b"-1"), ("minus_0", b"-0"), ("plus_alone", b"+")):
    refused(f"count_{name}.bai", k1(line3=b"03,0975312468,USD,100,1," + count + b",/"), 8, 107, count + b",/")
# Nor has an amount after S: in the 16 the three are at 127, 129 and 131; in a 03, behind "100,5,,S,", the
# first is at 110.
refused("funds_s_minus.bai", detail(b"16,165,1500,S,-500,,,,,/"), 8, 127, b"-500,")
refused("funds_s_minus_0.bai", detail(b"16,165,1500,S,-0,,,,,/"), 8, 127, b"-0,")
refused("funds_s_second_plus.bai", detail(b"16,165,1500,S,5,+0,,,,/"), 8, 129, b"+0,")
refused("funds_s_third_minus.bai", detail(b"16,165,1500,S,5,5,-5,,,/"), 8, 131, b"-5,")
refused("funds_s_plus_alone.bai", detail(b"16,165,1500,S,+,,,,,/"), 8, 127, b"+,")
refused("funds_s_plus_in_03.bai", k1(line3=b"03,0975312468,USD,100,5,,S,+5,,/"), 8, 110, b"+5,,/")
# Nor what follows D: X at 127, the days at 129, the amount at 131; in a 03, behind "100,5,,D,1,0,", at 114.
refused("funds_d_x_plus.bai", detail(b"16,165,1500,D,+1,0,5,,,/"), 8, 127, b"+1,0")
refused("funds_d_days_plus.bai", detail(b"16,165,1500,D,1,+0,5,,,/"), 8, 129, b"+0,5")
refused("funds_d_plus.bai", detail(b"16,165,1500,D,1,0,+5,,,/"), 8, 131, b"+5,")
refused("funds_d_minus.bai", detail(b"16,165,1500,D,1,0,-5,,,/"), 8, 131, b"-5,")
refused("funds_d_minus_0.bai", detail(b"16,165,1500,D,1,0,-0,,,/"), 8, 131, b"-0,")
refused("funds_d_19.bai", detail(b"16,165,1500,D,1,0,0" + ZEROS + b",,,/"), 8, 131, b"0" + ZEROS + b",")
refused("funds_d_minus_in_03.bai", k1(line3=b"03,0975312468,USD,100,5,,D,1,0,-5/"), 8, 114, b"-5/")

# ---- 2026-04: leading zeros are skipped first; answers, refusals and places stay ----

# Two amounts, both as summaries of the 03 and both as details, so the total is twice their sum. Lines:
# 01, 02, 03, two 16s, 49, 98, 99; the account has 4, the group 6, the file 8.
for name, one, other, total in (
        # 14 and 18 digits, 7 zeros first: 1234567 + 10000000001 = 10001234568.
        ("8th", b"0" * 7 + b"1234567", b"0" * 7 + b"10000000001", 20002469136),
        # 15 and 16 digits, 8 zeros first: 8765432 + 10000000 = 18765432.
        ("9th", b"0" * 8 + b"8765432", b"0" * 8 + b"10000000", 37530864),
        # 16 and 17 digits, 9 zeros first: 1020304 + 90000009 = 91020313.
        ("10th", b"0" * 9 + b"1020304", b"0" * 9 + b"90000009", 182040626),
        # 16 and 17 digits, 15 zeros first: 9 + 10 = 19.
        ("16th", b"0" * 15 + b"9", b"0" * 15 + b"10", 38),
        # 17 and 18 digits, 16 zeros first: 7 + 20 = 27.
        ("17th", b"0" * 16 + b"7", b"0" * 16 + b"20", 54),
        # 18 digits each, 17 zeros first: 6 + 5 = 11.
        ("18th", b"0" * 17 + b"6", b"+" + b"0" * 17 + b"5", 22),
        # No zeros, but eight nines: 99999999 + 999999991234567 = 1000000091234566.
        ("not_nines", b"99999999", b"999999991234567", 2000000182469132),
        # Zeros at the end, 17 behind the 1, and in the middle, 14 between 2 and 3, all count:
        # 100000000000000000 + 2000000000000003 = 102000000000000003.
        ("not_first", b"100000000000000000", b"2000000000000003", 204000000000000006)):
    accepted(f"zeros_{name}.bai", after_short_headers(
        b"03,X,,100," + one + b",,,110," + other + b",,/", b"16,165," + other + b",,,,/",
        b"16,165," + one + b",,,,/", b"49,%d,4/" % total, b"98,%d,1,6/" % total, b"99,%d,1,8/" % total),
        total, 1, 1, 2, 8)
# Nothing but zeros, 1, 8, 9, 15, 16 and 17 of them: in each of six accounts a summary, a detail and the
# total, so all is 0. 03, 16 and 49 six times are 18 lines, the group has 20, the file 22.
accepted("zeros_alone.bai", after_short_headers(
    *[row for zeros in (b"0", b"0" * 8, b"0" * 9, b"0" * 15, b"0" * 16, b"0" * 17)
      for row in (b"03,X,,100," + zeros + b",000000000,/", b"16,165," + zeros + b",,,,/",
                  b"49," + zeros + b",3/")],
    b"98,0,6,20/", b"99,0,1,22/"), 0, 1, 6, 6, 22)
# Behind a sign 15, 16 and 17 zeros: 25 + 4 + 3 = 32 on the 03, -900 - 60 - 8 = -968 on its 88; -936 in
# all. The account has 03, 88 and 49.
accepted("zeros_status.bai", after_short_headers(
    b"03,X,,010,+" + b"0" * 15 + b"25,,,015,+" + b"0" * 16 + b"4,,,040,+" + b"0" * 17 + b"3,,/",
    b"88,045,-" + b"0" * 15 + b"900,,,050,-" + b"0" * 16 + b"60,,,055,-" + b"0" * 17 + b"8,,/",
    b"49,-936,3/", b"98,-936,1,5/", b"99,-936,1,7/"), -936, 1, 1, 0, 7)

# Totals of 16, 17 and 18 digits in 49, 98 and 99: -1493 + 1500 = 7 behind 15, 16 and 17 zeros; ...
accepted("zeros_totals.bai", with_totals(
    b"-1493", b"0" * 15 + b"7", b"0" * 16 + b"7", b"0" * 17 + b"7"), 7, 1, 1, 1, 7)
# ... -1509 + 1500 = -9 likewise; K1's own 1000 behind a plus and 12, 13 and 14 zeros; ...
accepted("zeros_totals_minus.bai", with_totals(
    b"-1509", b"-" + b"0" * 15 + b"9", b"-" + b"0" * 16 + b"9", b"-" + b"0" * 17 + b"9"),
    -9, 1, 1, 1, 7)
accepted("zeros_totals_plus.bai", with_totals(
    b"-500", b"+" + b"0" * 12 + b"1000", b"+" + b"0" * 13 + b"1000", b"+" + b"0" * 14 + b"1000"),
    1000, 1, 1, 1, 7)
# ... and 12344178 + 1500 = 12345678 behind 8, 9 and 10.
accepted("zeros_totals_9th.bai", with_totals(
    b"12344178", b"0" * 8 + b"12345678", b"0" * 9 + b"12345678", b"0" * 10 + b"12345678"),
    12345678, 1, 1, 1, 7)
# K1 with every count behind eight zeros.
accepted("zeros_counts.bai", k1(line5=b"49,1000,000000003/", line6=b"98,1000,000000001,000000005/",
                                line7=b"99,1000,000000001,000000007/"), 1000, 1, 1, 1, 7)
# No group: a total of 17 zeros, nine zeros for the groups, two lines.
accepted("zeros_no_group.bai", lines(K1[0], b"99," + b"0" * 17 + b",000000000,000000002/"),
         0, 0, 0, 0, 2)

# The digits behind the zeros, or between them, make another total: 1001 for K1's 1000, in the 49 at
# 154; ...
refused("zeros_total_49_off.bai", with_totals(b"-500", b"0" * 12 + b"1001", b"1000", b"1000"),
        11, 154, b"0000000000001001,3/")
# ... 17 for 7, its 1 in the 16th place: -1493 has one byte more than -500, so the 49 is at 152; it has
# 7 + 1 bytes, the 98 is at 160 and its total at 163; ...
refused("zeros_total_98_off.bai", with_totals(b"-1493", b"7", b"0" * 15 + b"17", b"7"),
        11, 163, b"00000000000000017,1,5/")
# ... 10000001000 for 1000, its first 1 in the 8th place: in the 99 at 178.
refused("zeros_total_99_off.bai", with_totals(b"-500", b"1000", b"1000", b"0" * 7 + b"10000001000"),
        11, 178, b"000000010000001000,1,7/")
# Four records for three, in the 49 at 159; ten groups for one, in the 99 at 183.
refused("zeros_records_49_off.bai", k1(line5=b"49,1000,000000004/"), 13, 159, b"000000004/")
refused("zeros_groups_99_off.bai", k1(line7=b"99,1000,000000010,000000007/"),
        12, 183, b"000000010,000000007/")
# No digit behind 8 or 15 zeros: the amount is wrong at its start, of a detail at 120, of a 03 at 105.
# The colon is the byte above 9; the slash is the one below 0 and ends a field, so the dot below it.
refused("zeros_8_colon.bai", detail(b"16,165,00000000:1500,1,DD1620,,/"), 8, 120, b"00000000:1500,1")
refused("zeros_8_dot.bai", k1(line3=b"03,0975312468,USD,100,00000000.,,/"), 8, 105, b"00000000.,,/")
refused("zeros_15_letter.bai", detail(b"16,165,000000000000000A5,1,DD1620,,/"),
        8, 120, b"000000000000000A5,1")
refused("zeros_15_colon.bai", k1(line3=b"03,0975312468,USD,010,-000000000000000:,,/"),
        8, 105, b"-000000000000000:,,/")
# 18 zeros and a 5 are 19 digits, however small the number.
refused("zeros_19_digits.bai", detail(b"16,165," + ZEROS + b"5,1,DD1620,,/"),
        8, 120, b"0000000000000000005,1")

# ---- Long continuations ----

# Every record broken at every field: 01 in 8 lines, 02 in 7, 03 in 6, 16 in 6 (the text is on the
# last), 49 in 2, 98 and 99 in 3 each. Account 6 + 6 + 2 = 14; group 14 + 7 + 3 = 24; file 24 + 8 + 3.
accepted("every_field_on_88.bai", lines(
    b"01,122099999/", b"88,123456789/", b"88,040621/", b"88,0200/", b"88,1/", b"88,/", b"88,/", b"88,2/",
    b"02,031001234/", b"88,122099999/", b"88,1/", b"88,040620/", b"88,2359/", b"88,/", b"88,2/",
    b"03,0975312468/", b"88,USD/", b"88,010/", b"88,-500/", b"88,/", b"88,/",
    b"16,165/", b"88,1500/", b"88,1/", b"88,DD1620/", b"88,/", b"88,DEALER PAYMENTS",
    b"49,1000/", b"88,14/", b"98,1000/", b"88,1/", b"88,24/", b"99,1000/", b"88,1/", b"88,35/"),
    1000, 1, 1, 1, 35)
# An 88 counted with its parent as one: the 49 says 3 where there are 4 lines. The 88 at 151 has
# 11 + 1 bytes, so the 49 starts at 163 and its count is 8 bytes on.
refused("88_not_counted.bai", lines(*K1[:4], b"88,AND MORE", *K1[4:]), 13, 171, b"3/")
# 500 items 072 of 1 and 500 items 073 of -1, each on its own 88: 1,000 lines more, worth 0.
accepted("long_account.bai", account(K1[2], *[b"88,072,1,,/"] * 500, *[b"88,073,-1,,/"] * 500),
         1000, 1, 1, 1, 1007)
# 300 further pieces of text.
accepted("long_text.bai", detail(K1[3], *[b"88,PIECE/, %d" % i for i in range(300)]), 1000, 1, 1, 1, 307)

# ---- 11, 12, 13 in all trailers, and their order ----

refused("total_98.bai", k1(line6=b"98,1001,1,5/"), 11, 165, b"1001,")
refused("total_99.bai", k1(line7=b"99,999,1,7/"), 11, 178, b"999,")
refused("accounts_98.bai", k1(line6=b"98,1000,2,5/"), 12, 170, b"2,5/")
refused("groups_99.bai", k1(line7=b"99,1000,0,7/"), 12, 183, b"0,7/")
refused("records_98.bai", k1(line6=b"98,1000,1,4/"), 13, 172, b"4/")
refused("records_99.bai", k1(line7=b"99,1000,1,8/"), 13, 185, b"8/")
# All three wrong: 11; the last two: 12.
refused("all_wrong_98.bai", k1(line6=b"98,1,9,9/"), 11, 165, b"1,9,9")
refused("counts_wrong_99.bai", k1(line7=b"99,1000,9,9/"), 12, 183, b"9,9/")
# Leading zeros and a plus are fine; 19 digits or ten are 8, before any 11.
accepted("trailer_zeros.bai", k1(line5=b"49,+000000000000001000,000000003/",
                                 line6=b"98,001000,000000001,05/", line7=b"99,+1000,01,007/"),
         1000, 1, 1, 1, 7)
refused("total_19.bai", k1(line5=b"49,0000000000000001000,3/"), 8, 154, b"0000000000000001000,")
refused("records_10.bai", k1(line5=b"49,1000,0000000003/"), 8, 159, b"0000000003/")
refused("total_empty.bai", k1(line5=b"49,,3/"), 8, 154, b",3/")
refused("records_missing.bai", k1(line5=b"49,1000/"), 8, 158, b"/\n")
refused("trailer_too_many.bai", k1(line5=b"49,1000,3,/"), 8, 161, b"/\n98")
# A second account balances by itself: the first 49 right, the second wrong. Second 03 at 162, 30
# bytes; its 49 at 192, total at 195.
refused("second_account.bai", lines(*K1[:5], K1[2], b"49,500,2/", b"98,1500,2,7/", b"99,1500,1,9/"),
        11, 195, b"500,2/")
accepted("two_accounts.bai", lines(*K1[:5], K1[2], b"49,-500,2/", b"98,500,2,7/", b"99,500,1,9/"),
         500, 1, 2, 1, 9)

write_list("stdout", EXPECTED)
write_list("args", [line.split(":")[0] for line in EXPECTED])
print(f"{len(EXPECTED)} samples", file=sys.stderr)
