"""What tests/mutants and tests/wrong-code share: a list of edits, an edit made in a copy, and rattle check over that copy."""
import concurrent.futures
import functools
import importlib.machinery
import importlib.util
import os
import re
import resource
import shutil
import subprocess
import sys
import time

ROOT = os.path.dirname(os.path.dirname(os.path.abspath(__file__)))
CRATES = os.path.join(ROOT, "crates")


class Malformed(Exception):
    pass


def read(*path):
    with open(os.path.join(*path), encoding="utf-8") as file:
        return file.read()


def write(text, *path):
    with open(os.path.join(*path), "w", encoding="utf-8") as file:
        file.write(text)


def closed(relation, start):
    """All that the relation leads to from the start, and the start."""
    found, more = set(), set(start)
    while more:
        found |= more
        more = {after for one in more for after in relation.get(one, ())} - found
    return found


def read_list(path, once, standing):
    """The entries of a list, in its order: each a dict with its name, its heading, its pairs of old and new text, the fields
    of `once`, which it has itself (those that end in '?' may be missing, and are then None), and those of `standing`,
    which hold from where they are given on."""
    where = os.path.relpath(path, ROOT)
    entries, stands, heading = [], dict.fromkeys(standing), None
    for number, line in enumerate(read(path).split("\n"), 1):
        if line.startswith("# ---- "):
            heading = line.removeprefix("# ---- ")
        if not line.strip() or line.startswith("#"):
            continue
        field, _, text = line.partition(":")
        text = text.removeprefix(" ").replace("\\n", "\n")
        entry = entries[-1] if entries else None
        if field in standing:
            stands[field] = text
        elif field == "name":
            entries.append({"name": text, "heading": heading, "pairs": [], **stands})
        elif entry and field in [one.rstrip("?") for one in once] and field not in entry:
            entry[field] = text
        elif entry and field == "old":
            entry["pairs"].append([text, None])
        elif entry and field == "new" and entry["pairs"] and entry["pairs"][-1][1] is None:
            entry["pairs"][-1][1] = text
        else:
            sys.exit(f"{where}:{number}: not expected here: {field}")
    names = [entry["name"] for entry in entries]
    for entry in entries:
        for field in once:
            if field.endswith("?"):
                entry.setdefault(field.rstrip("?"), None)
            elif field not in entry:
                sys.exit(f"{where}: {entry['name']}: it has no {field}")
        if names.count(entry["name"]) > 1:
            sys.exit(f"{where}: {entry['name']}: two entries have this name")
        if not entry["pairs"] or any(new is None for _, new in entry["pairs"]):
            sys.exit(f"{where}: {entry['name']}: it has no pair of old and new text")
    return entries


def refuse(reason):
    """Ends a script that cannot be called so."""
    print(f"{sys.argv[0]}: {reason}\n{sys.argv[0]} --help explains it", file=sys.stderr)
    sys.exit(2)


def chosen(entries, words, gate):
    """The entries that the words of the command line ask for: those of the gate, all (--all), or those that are named."""
    names = [word for word in words if word != "--all"]
    unknown = [name for name in names if name not in [entry["name"] for entry in entries]]
    if unknown:
        refuse(f"not in the list: {' '.join(unknown)}")
    if names:
        return [entry for entry in entries if entry["name"] in names]
    return entries if "--all" in words else gate(entries)


def applied(place, pairs):
    """Puts the new texts into a file."""
    if not os.path.isfile(place):
        raise Malformed(f"there is no file {os.path.basename(place)}")
    text = read(place)
    for old, new in pairs:
        if text.count(old) != 1:
            raise Malformed(f"its old text is {text.count(old)} times in {os.path.basename(place)}: {old!r}")
        text = text.replace(old, new)
    write(text, place)


@functools.lru_cache(maxsize=None)
def kit():
    """The folder of the toolchain."""
    rt = shutil.which("rt")
    if rt is None:
        sys.exit(f"{sys.argv[0]}: no rt on the path")
    return os.environ.get("RATTLE_HOME") or os.path.dirname(os.path.dirname(os.path.realpath(rt)))


@functools.lru_cache(maxsize=None)
def rtlib():
    """rt's own module, which tells what it has proved."""
    loader = importlib.machinery.SourceFileLoader("rtlib", os.path.join(kit(), "bin", "rtlib.py"))
    module = importlib.util.module_from_spec(importlib.util.spec_from_loader("rtlib", loader))
    written, sys.dont_write_bytecode = sys.dont_write_bytecode, True
    loader.exec_module(module)
    sys.dont_write_bytecode = written
    return module


def rlib(crate):
    """Where rt puts the library of a proved crate."""
    return os.path.join(CRATES, crate, "out", "rlib", crate + ".rlib")


def kept_of(crate):
    """Where rt keeps what it checked of a crate."""
    return os.path.join(CRATES, crate, "out", "incremental")


def check(name, source, libraries, kept=None):
    """rattle check of a crate over libraries, each a source folder or a proved rlib: exit status and output, with whole paths. What
    an earlier check left in the folder kept, and is still the same, is not checked again."""
    home = kit()
    words = [os.path.join(home, "bin", "rattle"), "check", "--crate-name", name, "src/lib.rt"]
    words += ["--extern", f"std={home}/rlibs/std.rlib", "-L", f"dependency={home}/rlibs"]
    if not all(place.endswith(".rlib") for place in libraries.values()):
        words += ["--extern", f"core={home}/rlibs/core.rlib"]
    for library, place in libraries.items():
        words += ["--extern", f"{library}={place}"] if place.endswith(".rlib") else ["--lib", f"{library}:{','.join(['core', 'std', *[one for one in cited(library) if one in libraries]])}={place}/src/lib.rt"]
    for below in sorted(closed({crate: cited(crate) for crate in listed()}, [library for library, place in libraries.items() if place.endswith(".rlib")])):
        words += ["-L", f"dependency={os.path.dirname(rlib(below))}"]
    words += ["--antt-project", f"{home}/rattle/logic/antt-project.json", "--logic-built", f"{home}/logic_built"]
    words += ["--jobs", "1", "--links", f"{name}="]
    words += ["--incremental", kept] if kept else []
    done = subprocess.run(words, cwd=source, stdin=subprocess.DEVNULL, capture_output=True, text=True, errors="replace")
    return done.returncode, re.sub(r"^\./", lambda found: source + os.sep, done.stdout + done.stderr, flags=re.M)


def shared(kept, copy):
    """A copy of a folder that check keeps modules in, with the same files for modules where that can be: rattle writes one that it checks
    again into a new file, which takes the old one's place. When it was last used it writes into the file."""
    def one(old, new):
        try:
            if old.endswith(".oantt"):
                return os.link(old, new)
        except OSError:
            pass
        return shutil.copy2(old, new)

    shutil.copytree(kept, copy, copy_function=one)


def as_it_was(kept, since):
    """Ends a script where a file of such a folder was written into after that time: then one try has changed what others start from."""
    for folder, _, names in os.walk(kept):
        for name in names:
            if os.stat(os.path.join(folder, name)).st_mtime_ns > since:
                sys.exit(f"{sys.argv[0]}: rattle has written into a file that others share: {name}")


def proved(status, output):
    return status == 0 and re.search(r"^logic=proved", output, re.M) is not None


def errors(output):
    return [line for line in output.splitlines() if re.match(r"\S+:\d+:\d+: error", line)]


@functools.lru_cache(maxsize=None)
def listed():
    """The crates of crates.txt, lowest first, each with the crates that it cites."""
    return dict(re.findall(r"^(\w+)[^:\n]*:(.*)$", read(ROOT, "crates.txt"), re.M))


def cited(crate):
    """The crates that crates.txt has behind a crate's name."""
    return [one for one in listed()[crate].split() if one in listed()]


@functools.lru_cache(maxsize=None)
def is_proved(crate):
    """Whether rt has made the library of the crate as its files and those below now are, which it does of a proved crate alone. In the gate
    its rt ci has made those that are newer than the file that proved_since names."""
    since, made = os.environ.get("proved_since"), os.path.join(rlib(crate), "toolchain", "mir.json")
    if since and os.path.exists(made) and os.stat(rlib(crate)).st_mtime_ns > os.stat(since).st_mtime_ns and all(map(is_proved, cited(crate))):
        return True
    return rtlib().Crate(os.path.join(CRATES, crate), ROOT, {}).is_built()


def prove(crates):
    """Has rt prove the crates and those below, where they are not, and make their libraries."""
    below = closed({crate: cited(crate) for crate in listed()}, crates)
    for crate in [one for one in listed() if one in below and not is_proved(one)]:
        if subprocess.run(["rt", "lib"], cwd=os.path.join(CRATES, crate), stdin=subprocess.DEVNULL, stdout=subprocess.DEVNULL).returncode:
            sys.exit(f"{sys.argv[0]}: not proved: {crate}")
    is_proved.cache_clear()


def all_tried(what, tasks):
    """Runs tasks, as many at a time as there are processors, prints what each says when those before it have, and counts
    those that were good and those that were not. The processors' time says more than the clock's where others are at work."""
    passed = failed = 0
    start = time.monotonic()
    with concurrent.futures.ThreadPoolExecutor(len(os.sched_getaffinity(0))) as pool:
        for good, said in pool.map(lambda task: task(), tasks):
            passed += good
            failed += not good
            print(said, flush=True)
    spent = resource.getrusage(resource.RUSAGE_CHILDREN)
    print(f"{what} in {time.monotonic() - start:.0f} s, {spent.ru_utime + spent.ru_stime:.0f} s of processor time")
    print(f"{passed} passed, {failed} failed")
    return 0 if failed == 0 else 1
