"""What a line of a round is, as R-12 of document 02 has it: box name, tab, sixteen upper-case hex digits. ./limpet totals and tools/round
go by it where they explain what the proved program has refused."""
import re

MOST_ALARMS = 65535
BAD_LINE, TOO_MANY = 14, 15  # the program's refusals
LINE = re.compile(rb"([^\t\n]{1,32})\t([0-9A-F]{8})([0-9A-F]{2})([0-9A-F]{2})([0-9A-F]{4})")
LOOKED_AT = 200  # bytes of a line, which mends make shorter


def fields_of(line):
    """Name, running number, line, kind and minutes; None where it is a bad line."""
    found = LINE.fullmatch(line)
    if found is None:
        return None
    name, *numbers = found.groups()
    number, at, kind, minutes = (int(digits, 16) for digits in numbers)
    return (name, number, at, kind, minutes) if 1 <= at <= 32 and 1 <= kind <= 6 else None


def with_tab(line):
    """The last run of blanks in the place of the tab: a name may have blanks too."""
    return line if b"\t" in line else re.sub(rb" +([^ ]*)\Z", rb"\t\1", line)


def with_one_tab(line):
    return re.sub(rb"\t[\t ]+|[\t ]+\t", b"\t", line)


def in_upper_case(line):
    name, tab, digits = line.partition(b"\t")
    return name + tab + digits.upper()


# In this order, since blanks may stand before a CR, and digits are only seen once there is a tab.
MENDS = (
    (lambda line: line.removesuffix(b"\r"), "without the CR at its end"),
    (lambda line: line.rstrip(b" \t"), "without the blanks or tabs at its end"),
    (with_tab, "with a tab in place of the blanks before its digits"),
    (with_one_tab, "with one tab and no blanks around it"),
    (in_upper_case, "with hex in upper case"),
)


def what_is_wrong(line):
    """Why a bad line is bad, in words: the fewest mends that make it good, or what no mend helps against."""
    if not line:
        return "it is empty"
    ways = {line: []}
    for number, (mend, _) in enumerate(MENDS):
        for mended, mends in list(ways.items()):
            ways.setdefault(mend(mended), mends + [number])
    helpful = [mends for mended, mends in ways.items() if fields_of(mended)]
    if helpful:
        return "it would be good " + " and ".join(MENDS[number][1] for number in min(helpful, key=lambda mends: (len(mends), mends)))
    found = LINE.fullmatch(line)
    if found:
        at, kind = int(found[3], 16), int(found[4], 16)
        return f"its alarm is of line {at} and kind {kind}, and lines are 1 to 32, kinds 1 to 6"
    name, tab, digits = line.partition(b"\t")
    if not tab:
        return "it has no tab"
    if not 1 <= len(name) <= 32:
        return f"its box name has {'no' if not name else 'more than 32'} bytes, and 1 to 32 are to be there"
    return "behind the tab there are to be sixteen upper-case hex digits and nothing else"
