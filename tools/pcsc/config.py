"""What a firm's boxes have in their files: the file of --config, or what stands here, for the card of examples/box.script."""
import configparser
import re
import types

from .commands import LARGEST_FILE, short_number
from .inputs import opened
from .words import Failure, Misuse, legible

KINDS = 6  # of alarms: 1 to 6
CONFIG_MAX = 65536  # bytes
NAME = "1 to 40 printable characters"


def decimal(text, least=0, greatest=999_999_999):
    """A number, and None where the text is none or not within."""
    number = int(text) if re.fullmatch("0|[1-9][0-9]{0,8}", text) else None
    return number if number is not None and least <= number <= greatest else None


def wanted(text, what, least, greatest, unit=""):
    """A number that a person has given."""
    number, within = decimal(text), f"from {least} to {greatest}{unit}"
    if number is None:
        raise Misuse(f"{what} is to be a decimal number {within}, and not {legible(text)}; nothing was sent")
    if not least <= number <= greatest:
        raise Misuse(f"{what} is to be {within}, and not {number}; nothing was sent")
    return number


def a_number(least, greatest):
    return f"a decimal number from {least} to {greatest}", lambda text: decimal(text, least, greatest)


def fid_in(text):
    fid = bytes.fromhex(text) if re.fullmatch("[0-9A-Fa-f]{4}", text) else b""
    return fid if fid and 1 <= short_number(fid) <= 30 else None


def printable(longest):
    return lambda text: text if 1 <= len(text) <= longest and text.isprintable() else None


FID = "the four hex digits of a file, whose low five bits are 1 to 30", fid_in
# By section and key: what it is where the file does not say it, what it has to be, and the value of a text or None
KEYS = {
    "alarms": {"fid": ("A101", *FID), "records": ("4", *a_number(2, 254))},
    "limits": {
        "fid": ("A102", *FID),
        "lines": ("32", *a_number(1, LARGEST_FILE)),
        "unit": ("A", "1 to 8 printable characters", printable(8)),
        "least": ("1", *a_number(0, 255)),
        "greatest": ("63", *a_number(0, 255)),
        "offset": ("0", *a_number(0, LARGEST_FILE - 1)),
    },
    "notes": {"fid": ("A103", *FID), "room": ("64", *a_number(2, LARGEST_FILE))},
}
NAMED = ("lines", "kinds")  # sections with names by number


def sections_of(text, where):
    parser = configparser.RawConfigParser(default_section="", delimiters=("=",), comment_prefixes=("#",), empty_lines_in_values=False)
    parser.optionxform = str
    try:
        parser.read_string(text, where)
    except configparser.DuplicateSectionError as error:
        raise Misuse(f"{where}: section [{error.section}] is there twice (line {error.lineno})") from None
    except configparser.DuplicateOptionError as error:
        raise Misuse(f"{where}: [{error.section}] {error.option} is there twice (line {error.lineno})") from None
    except configparser.MissingSectionHeaderError as error:
        raise Misuse(f"{where}: line {error.lineno} stands before the first section, such as [limits]") from None
    except configparser.ParsingError as error:
        line = error.errors[0][0]
        raise Misuse(f"{where}: line {line} is neither a section, such as [limits], nor a key and its value, such as unit = A") from None
    return parser


def checked(where, section, key, text, due, value_of):
    value = value_of(text)
    if value is None:
        raise Misuse(f"{where}: [{section}] {key} = {legible(text)} is not {due}")
    return value


def names_in(section, found, most, where):
    names = {}
    for key, text in found[section].items() if found.has_section(section) else ():
        number = decimal(key, 1, most)
        if number is None:
            raise Misuse(f"{where}: [{section}] {legible(key)}: a key of this section is a decimal number from 1 to {most}")
        names[number] = checked(where, section, key, text, NAME, printable(40))
    return names


def config_of(text, where):
    """config_of(...).limits.unit and so on, and names by number in lines and kinds."""
    found = sections_of(text, where)
    for section in found.sections():
        if section not in KEYS and section not in NAMED:
            raise Misuse(f"{where}: there is no section [{legible(section)}]; they are {', '.join(f'[{name}]' for name in (*KEYS, *NAMED))}")
        for key in found[section] if section in KEYS else ():
            if key not in KEYS[section]:
                raise Misuse(f"{where}: [{section}] has no key {legible(key)}; its keys are {', '.join(KEYS[section])}")
    config = types.SimpleNamespace()
    for section, keys in KEYS.items():
        values = {key: checked(where, section, key, found.get(section, key, fallback=default), due, value_of)
                  for key, (default, due, value_of) in keys.items()}
        setattr(config, section, types.SimpleNamespace(**values))
    config.lines = names_in("lines", found, config.limits.lines, where)
    config.kinds = names_in("kinds", found, KINDS, where)
    return config


def in_order(config, where):
    """What a key cannot say by itself."""
    limits = config.limits
    if limits.least > limits.greatest:
        raise Misuse(f"{where}: [limits] least = {limits.least} is more than greatest = {limits.greatest}")
    if limits.offset + limits.lines > LARGEST_FILE:
        raise Misuse(f"{where}: [limits] offset = {limits.offset} and lines = {limits.lines}: a file has at most {LARGEST_FILE} bytes")
    fids = {"alarms": config.alarms.fid, "limits": limits.fid, "notes": config.notes.fid}
    for section, fid in fids.items():
        other = next(name for name in fids if short_number(fids[name]) == short_number(fid))
        if other != section:
            same = (f"is that of [{other}] too" if fids[other] == fid else
                    f"has the short number {short_number(fid)}, as that of [{other}] has, and no card has both in its root")
            raise Misuse(f"{where}: [{section}] fid = {fid.hex().upper()} {same}")
    return config


def read_config(path):
    if path is None:
        return in_order(config_of("", "the default"), "the default")
    where = legible(path)
    try:
        text = b""
        with opened(path) as file:
            while len(text) <= CONFIG_MAX and (more := file.read(CONFIG_MAX)):
                text += more
    except Failure as failure:
        raise Misuse(str(failure)) from None
    if len(text) > CONFIG_MAX:
        raise Misuse(f"{where}: a config file has at most {CONFIG_MAX} bytes")
    try:
        return in_order(config_of(text.decode("utf-8-sig"), where), where)
    except UnicodeDecodeError:
        raise Misuse(f"{where}: it is no text in UTF-8") from None
