"""The totals of a round (R-12 of document 02) as a model: the text that goes in, and the report that has to come out.

It goes from standard input to standard output. With --self-test it is held to reports that were worked out from the paper by hand.
"""

import argparse
import collections
import re
import sys

HEADER = b"line\tkind\tcount\tminutes\n"
MOST_ALARMS = 65535
BAD_LINE, TOO_MANY_ALARMS = 14, 15
FIRST_LINE, LAST_LINE = 1, 32
FIRST_KIND, LAST_KIND = 1, 6

# Box name, tab, the eight bytes of a record.
GRAMMAR = re.compile(rb"[^\t\n]{1,32}\t([0-9A-F]{16})")


def alarm_of(text_line):
    """Line, kind and minutes of the alarm that a line of the text stands for, or None where it is bad."""
    match = GRAMMAR.fullmatch(text_line)
    if match is None:
        return None
    record = bytes.fromhex(match[1].decode("ascii"))
    line, kind, minutes = record[4], record[5], int.from_bytes(record[6:8], "big")
    if not FIRST_LINE <= line <= LAST_LINE or not FIRST_KIND <= kind <= LAST_KIND:
        return None
    return line, kind, minutes


def lines_of(text):
    """The lines without their newlines. A last line needs none."""
    lines = text.split(b"\n")
    if lines[-1] == b"":
        lines.pop()
    return lines


def refusal(outcome, number):
    return b"%d\t%d\n" % (outcome, number)


def report(text):
    """What the program prints for a text."""
    counts, sums = collections.Counter(), collections.Counter()
    for number, text_line in enumerate(lines_of(text), 1):
        alarm = alarm_of(text_line)
        if alarm is None:
            return refusal(BAD_LINE, number)
        if number > MOST_ALARMS:
            return refusal(TOO_MANY_ALARMS, number)
        line, kind, minutes = alarm
        counts[line, kind] += 1
        sums[line, kind] += minutes
    rows = [b"%d\t%d\t%d\t%d\n" % (line, kind, counts[line, kind], sums[line, kind]) for line, kind in sorted(counts)]
    return HEADER + b"".join(rows)


# ---- worked out by hand

GOOD = b"Box 7\t0000000103010005\n"  # number 1, line 3, kind 1, five minutes
OF_GOOD = HEADER + b"3\t1\t1\t5\n"


def of_record(digits, name=b"Box 7"):
    return name + b"\t" + digits + b"\n"


def worked_out():
    """What is tried, the text, and its report: both sides of each edge of the paper."""
    bad, too_many = b"14\t%d\n", b"15\t65536\n"
    yield "no line", b"", HEADER
    yield "one alarm", GOOD, OF_GOOD
    yield "no last newline", GOOD[:-1], OF_GOOD
    yield "no last newline, behind another line", GOOD + GOOD[:-1], HEADER + b"3\t1\t2\t10\n"
    yield "no last newline and a digit less", GOOD + GOOD[:-2], bad % 2
    yield "an empty line", b"\n", bad % 1
    yield "an empty line between others", GOOD + b"\n" + GOOD, bad % 2
    yield "an empty line at the end", GOOD + b"\n", bad % 2
    yield "two empty lines", b"\n\n", bad % 1
    yield "a CR", GOOD[:-1] + b"\r\n", bad % 1
    yield "a CR at the end of the text", GOOD + GOOD[:-1] + b"\r", bad % 2
    yield "a CR in a name", of_record(b"0000000103010005", b"\r"), OF_GOOD

    # Lines and kinds. The first byte of a record is its running number's highest.
    for line, row in ((0, None), (1, b"1\t1\t1\t5\n"), (32, b"32\t1\t1\t5\n"), (33, None), (0x83, None), (255, None)):
        yield f"line {line}", of_record(b"00000001%02X010005" % line), HEADER + row if row else bad % 1
    for kind, row in ((0, None), (1, b"3\t1\t1\t5\n"), (6, b"3\t6\t1\t5\n"), (7, None), (0x81, None), (255, None)):
        yield f"kind {kind}", of_record(b"0000000103%02X0005" % kind), HEADER + row if row else bad % 1
    yield "line 0 and kind 0", of_record(b"0000000100000005"), bad % 1
    yield "line 6 and kind 32", of_record(b"0000000106200005"), bad % 1
    yield "line 32 and kind 6", of_record(b"0000000120060005"), HEADER + b"32\t6\t1\t5\n"

    # Minutes, high byte first, and running numbers, which count for nothing.
    for digits, minutes in ((b"0000", 0), (b"0001", 1), (b"00FF", 255), (b"0100", 256), (b"ABCD", 43981), (b"FFFF", 65535)):
        yield f"{minutes} minutes", of_record(b"000000010301" + digits), HEADER + b"3\t1\t1\t%d\n" % minutes
    for number in (b"00000000", b"00000001", b"7FFFFFFF", b"80000000", b"FFFFFFFF"):
        yield f"number {number.decode()}", of_record(number + b"03010005"), OF_GOOD
    yield "a box read twice", GOOD + GOOD, HEADER + b"3\t1\t2\t10\n"
    yield "an alarm of no minutes is counted", of_record(b"0000000103010000") * 2, HEADER + b"3\t1\t2\t0\n"
    yield "the sum goes over 65,535", of_record(b"000000010301FFFF") + of_record(b"0000000203010001"), HEADER + b"3\t1\t2\t65536\n"

    # Names: any bytes but tab and newline, 1 to 32 of them.
    for name, good in (
        (b"", False), (b"A", True), (b"A" * 32, True), (b"A" * 33, False), (b"\x00", True), (b"\x00" * 32, True), (b"\x00" * 33, False),
        (b"\x7f\x80\xff", True), (b"\xff" * 32, True), (b"\xff" * 33, False), ("\u00fc".encode() * 16, True), ("\u00fc".encode() * 17, False),
        (b" ", True), (b" Box 7 ", True), (b"\xef\xbb\xbf", True), (b"\xef\xbb\xbf" + b"A" * 30, False), (b"\t", False), (b"Box\t7", False),
        (b"Box 7\t", False), (b"\tBox 7", False),
        (b"0000000103010005", True), (b"line", True), (b"<script>", True), (b"%s%n", True), (b"\x1a", True), (b"\x04", True), (b"\r", True),
    ):
        yield f"the name {name!r}", of_record(b"0000000103010005", name), OF_GOOD if good else bad % 1
    names = [bytes([byte]) for byte in range(256) if byte not in b"\t\n"]
    yield "each byte as a name", b"".join(of_record(b"0000000103010005", name) for name in names), HEADER + b"3\t1\t254\t1270\n"

    # Digits: sixteen, in upper case, and nothing else.
    for digits in (
        b"", b"0", b"00000001", b"000000010301000", b"00000001030100050", b"00000001030100", b"000000010301000500", b"0000000103010005" * 2,
        b"00000001 3010005", b" 0000000103010005", b"0000000103010005 ", b"0000000103010005\t", b"0000000103010005\x00", b"\x000000001030100050",
        b"0x00000103010005", b"0X00000103010005", b"+000000103010005", b"-000000103010005", b"0000_00103010005", b"000000010301000G",
        b"000000010301000a", b"0000000103010a05", b"a000000103010005", b"000000010301000f", b"abcdefab03010005", b"000000010301000:", b"000000010301000/",
        b"000000010301000@", b"000000010301000`", b"0000000103010\xb05", b"0000000103010005\r",
    ):
        yield f"the digits {digits!r}", of_record(digits), bad % 1
    for place in range(16):
        for byte in b"/:@G`afg \x00\x80\xb0\xc1":
            digits = bytearray(b"0000000103010005")
            digits[place] = byte
            yield f"the byte {byte} as digit {place + 1}", of_record(bytes(digits)), bad % 1
        for byte in b"09AF":  # in the number and the minutes each is good
            if not 8 <= place < 12:
                digits = bytearray(b"0000000103010005")
                digits[place] = byte
                minutes = 5 if place < 8 else int(digits[12:], 16)
                yield f"the digit {chr(byte)} as digit {place + 1}", of_record(bytes(digits)), HEADER + b"3\t1\t1\t%d\n" % minutes
    yield "a name and nothing more", b"Box 7\n", bad % 1
    yield "a name and a tab", b"Box 7\t\n", bad % 1
    yield "a record and nothing more", b"0000000103010005\n", bad % 1
    yield "a blank for the tab", b"Box 7 0000000103010005\n", bad % 1
    yield "a third field", GOOD[:-1] + b"\t1\n", bad % 1
    yield "the report as a text", OF_GOOD, bad % 1
    yield "a NUL alone", b"\x00", bad % 1
    yield "a NUL behind the last line", GOOD + b"\x00", bad % 2

    # Order, by number and not by text, and every row.
    some = [of_record(b"00000001%02X%02X0001" % at) for at in ((10, 1), (9, 6), (2, 2), (2, 1), (32, 6), (1, 6))]
    yield "by line, then kind", b"".join(some), HEADER + b"1\t6\t1\t1\n2\t1\t1\t1\n2\t2\t1\t1\n9\t6\t1\t1\n10\t1\t1\t1\n32\t6\t1\t1\n"
    every = [(line, kind) for line in range(1, 33) for kind in range(1, 7)]
    rows = HEADER + b"".join(b"%d\t%d\t1\t%d\n" % (line, kind, 256 * line + kind) for line, kind in every)
    each = [of_record(b"00000001%02X%02X%02X%02X" % (line, kind, line, kind)) for line, kind in every]
    yield "every line and kind", b"".join(each), rows
    yield "every line and kind, from the last", b"".join(reversed(each)), rows

    # The first bad line is told of, and none of the report.
    yield "bad in the first line", of_record(b"") + GOOD * 3, bad % 1
    yield "bad in the last line", GOOD * 9 + of_record(b""), bad % 10
    yield "two bad lines", GOOD * 4 + of_record(b"") + GOOD + of_record(b""), bad % 5

    # Lists of 1,000, and all that are taken.
    for count in (999, 1000, 1001, 1999, 2000, 2001, 10000):
        yield f"{count} alarms", GOOD * count, HEADER + b"3\t1\t%d\t%d\n" % (count, 5 * count)
        yield f"a bad line behind {count} alarms", GOOD * count + b"\n", bad % (count + 1)
    yield "another line and kind behind 1,000", GOOD * 1000 + of_record(b"0000000102030004"), HEADER + b"2\t3\t1\t4\n3\t1\t1000\t5000\n"
    yield "65,534 alarms", GOOD * 65534, HEADER + b"3\t1\t65534\t327670\n"
    yield "65,535 alarms", GOOD * 65535, HEADER + b"3\t1\t65535\t327675\n"
    yield "65,535 alarms, no last newline", (GOOD * 65535)[:-1], HEADER + b"3\t1\t65535\t327675\n"
    yield "65,535 alarms, the last one bad", GOOD * 65534 + b"\n", bad % 65535
    yield "65,535 alarms of 65,535 minutes", of_record(b"000000010301FFFF") * 65535, HEADER + b"3\t1\t65535\t4294836225\n"
    yield "65,536 alarms", GOOD * 65536, too_many
    yield "65,536 alarms, no last newline", (GOOD * 65536)[:-1], too_many
    yield "65,536 alarms, the last one bad", GOOD * 65535 + of_record(b"0000000100010005"), bad % 65536
    yield "65,536 alarms, the last one empty", GOOD * 65535 + b"\n", bad % 65536
    yield "65,536 alarms, the last one bad, no newline", GOOD * 65535 + b"Box 7", bad % 65536
    yield "65,537 alarms, the last one bad", GOOD * 65536 + b"\n", too_many
    yield "70,000 alarms", GOOD * 70000, too_many
    yield "70,000 alarms, an early one bad", GOOD * 30000 + b"\n" + GOOD * 39999, bad % 30001

    # Lines longer than any buffer.
    long = b"A" * (10 << 20)
    yield "a line of 10 MiB", long + b"\n", bad % 1
    yield "a line of 10 MiB, no newline", GOOD + long, bad % 2
    yield "a name of 10 MiB", long + GOOD, bad % 1
    yield "10 MiB of digits", GOOD + b"Box 7\t" + b"0" * (10 << 20) + b"\n" + GOOD, bad % 2
    yield "10 MiB of tabs", b"\t" * (10 << 20), bad % 1
    yield "10 MiB of NUL", b"\x00" * (10 << 20), bad % 1
    yield "10 MiB of newlines", b"\n" * (10 << 20), bad % 1
    for size in sorted({power + more for power in (64, 128, 256, 512, 1024, 4096, 8192, 16384, 65536) for more in (-1, 0, 1)}):
        yield f"what fills {size} bytes, and a good line in the same line", b"A" * size + GOOD, bad % 1
        yield f"a good line, what fills {size} bytes, and no newline", GOOD[:-1] + b"0" * (size - len(GOOD) + 1), bad % 1
        before = (size - 19) // 23  # of 23 bytes each; the last line has 19 to 41
        last = of_record(b"0000000103010005", b"B" * (size - 23 * before - 18))
        yield f"good lines that end at byte {size}", GOOD * before + last + GOOD, HEADER + b"3\t1\t%d\t%d\n" % (before + 2, 5 * (before + 2))


def self_test():
    """Prints the cases that the model has another report for. How many are right and how many wrong."""
    passed = failed = 0
    for name, text, due in worked_out():
        if report(text) == due:
            passed += 1
        else:
            failed += 1
            print(f"FAILED: {name}: {report(text)[:200]!r}")
    return passed, failed


def main():
    parser = argparse.ArgumentParser(prog="python3 tests/model/totals.py", description=__doc__)
    parser.add_argument("--self-test", action="store_true", help="hold the model to what was worked out")
    if parser.parse_args().self_test:
        passed, failed = self_test()
        print(f"{passed} passed, {failed} failed")
        sys.exit(failed > 0)
    sys.stdout.buffer.write(report(sys.stdin.buffer.read()))


if __name__ == "__main__":
    main()
