"""The command line of ./frapmast: words to calls, and statuses as diff has them. This is not proved."""
import argparse
import os
import re
import subprocess
import sys
import traceback

import frapmast

from . import TOP
from .differences import report
from .explain import explained
from .sessions import Trouble, content
from .text import WrongText, session_of, text_of
from .vcd import vcd_of

GOOD, FOUND, TROUBLE = 0, 1, 2
MOST_TEXT = 16  # MiB
COLOURS = {"error": "\033[31m", "frame": "\033[36m", "quiet": "\033[2m"}
PLAIN = "\033[0m"
EPILOG = """Exit status: 0 done; 1 done, and something is not as it should be: listings that differ, a session that ends in `bad`, a line of
`explain --only errors`; 2 nothing could be done, and a message says why.
docs/TOOLS.md has examples."""
UNPROVED = "This tool is not proved."
RESTS = f"{UNPROVED} It shows nothing that the proved player's listing does not rest on: docs/TOOLS.md says how."


def library():
    """The library, built where it is missing or older than a source."""
    if subprocess.run([os.path.join(TOP, "library", "build")], stdin=subprocess.DEVNULL, stdout=sys.stderr).returncode:
        raise Trouble("the library is not built")
    return frapmast.load(frapmast.SHARED)


def written(path, data):
    """Writes to a file, or to standard output without one."""
    if path == "-":
        path = None
    if path is None and sys.stdout is None:
        raise Trouble("standard output is closed")
    try:
        if path is None:
            sys.stdout.buffer.write(data)
            sys.stdout.buffer.flush()
        else:
            with open(path, "wb") as file:
                file.write(data)
    except BrokenPipeError:
        os.dup2(os.open(os.devnull, os.O_WRONLY), sys.stdout.fileno())
    except OSError as why:
        raise Trouble(f"{'standard output' if path is None else path}: {why.strerror}")


def apart(source, output):
    """An output that is the input would destroy it."""
    if output is not None and os.path.exists(source) and os.path.exists(output) and os.path.samefile(source, output):
        raise Trouble(f"{output}: it is the input")


def print_lines(path, lines):
    written(path, "".join(line + "\n" for line in lines).encode())


def explain(words):
    session = content(words.session)
    lines = explained(library(), session)
    count = max((line.last + 1 for line in lines if line.last is not None), default=0)
    if words.events and words.events[0] >= count:
        raise Trouble(f"--events: the session has {count} events, from 0 on")
    kept = [line for line in lines if wanted(line, words.only, words.events)]
    colour = sys.stdout is not None and sys.stdout.isatty() and "NO_COLOR" not in os.environ
    print_lines(None, [coloured(line) if colour else line.words for line in kept])
    asked = "errors" in (words.only or [])
    return FOUND if any("error" in line.kinds and asked or is_bad(line) for line in kept) else GOOD


def is_bad(line):
    return line.first is None and "error" in line.kinds


def wanted(line, only, events):
    """The lines asked for. That a session is broken is always told."""
    if events and line.first is None or events and (line.last < events[0] or line.first > events[1]):
        return is_bad(line)
    return not only or is_bad(line) or any(f"{kind}s" in only for kind in line.kinds)


def coloured(line):
    kind = next((kind for kind in ("error", "frame", "quiet") if kind in line.kinds), None)
    return f"{COLOURS[kind]}{line.words}{PLAIN}" if kind else line.words


def text(words):
    apart(words.session, words.output)
    session = content(words.session)
    lines, good = text_of(library(), session)
    print_lines(words.output, lines)
    return GOOD if good else FOUND


def session(words):
    apart(words.text, words.output)
    data = content(words.text, MOST_TEXT)
    if words.output is None and sys.stdout is not None and sys.stdout.isatty():
        raise Trouble("a session is not text; name a file with -o, or send standard output to one")
    try:
        made = session_of(library(), data)
    except WrongText as why:
        raise Trouble(f"{words.text}: {why}")
    written(words.output, made)
    return GOOD


def vcd(words):
    apart(words.session, words.output)
    session = content(words.session)
    lines, good = vcd_of(library(), session, 1000 * words.slot, words.gtkwave)
    print_lines(words.output, lines)
    return GOOD if good else FOUND


def diff(words):
    if words.old == words.new == "-":
        raise Trouble("standard input can be one listing, not both")
    lines = report(content(words.old), content(words.new))
    print_lines(None, lines)
    return FOUND if lines else GOOD


def events_range(word):
    found = re.fullmatch(r"(\d+)(?:-(\d+))?", word)
    if not found:
        raise argparse.ArgumentTypeError(f"{word}: events are a number, or two as in 21-191")
    first, last = int(found[1][:9]), int((found[2] or found[1])[:9])
    if last < first:
        raise argparse.ArgumentTypeError(f"{word}: the first event comes before the last")
    return first, last


def slot_length(word):
    if not re.fullmatch(r"\d{1,4}", word) or int(word) == 0:
        raise argparse.ArgumentTypeError(f"{word}: a slot lasts 1 to 9,999 microseconds")
    return int(word)


def parser():
    tools = argparse.ArgumentParser(prog="./frapmast", description="Tools for bench sessions and their listings. They are not proved.", epilog=EPILOG,
                                    formatter_class=argparse.RawDescriptionHelpFormatter)
    every = tools.add_subparsers(title="tools", metavar="TOOL", required=True)
    output = {"metavar": "FILE", "help": "where to write; standard output without it"}

    def tool(name, words):
        return every.add_parser(name, help=words, description=f"Writes {words}. {UNPROVED if name in ('session', 'diff') else RESTS}")

    one = tool("explain", "the listing of a session, with what each line means")
    one.add_argument("session", metavar="SESSION", help="a session, or - for standard input")
    one.add_argument("--only", action="append", choices=["frames", "errors"], help="these lines alone; given twice: both")
    one.add_argument("--events", metavar="A-B", type=events_range, help="the lines of events A to B alone")
    one.set_defaults(call=explain)

    one = tool("text", "a session as lines that people write")
    one.add_argument("session", metavar="SESSION", help="a session, or - for standard input")
    one.add_argument("-o", dest="output", **output)
    one.set_defaults(call=text)

    one = tool("session", "the session that such lines say")
    one.add_argument("text", metavar="TEXT", help="a text, or - for standard input")
    one.add_argument("-o", dest="output", **output)
    one.set_defaults(call=session)

    one = tool("vcd", "wave forms of a session, a VCD file")
    one.add_argument("session", metavar="SESSION", help="a session, or - for standard input")
    one.add_argument("-o", dest="output", **output)
    one.add_argument("--slot", metavar="US", type=slot_length, default=8, help="microseconds that a slot is drawn; 8 without it")
    one.add_argument("--gtkwave", action="store_true", help="with mode and part as text, and the event's number: PulseView cannot read these")
    one.set_defaults(call=vcd)

    one = tool("diff", "the differences of two listings")
    one.add_argument("old", metavar="OLD", help="a listing, or - for standard input")
    one.add_argument("new", metavar="NEW", help="a listing, or - for standard input")
    one.set_defaults(call=diff)
    return tools


def main(words):
    try:
        chosen = parser().parse_args(words)
        return chosen.call(chosen)
    except (Trouble, OSError) as why:
        print(f"frapmast: {why}", file=sys.stderr)
    except KeyboardInterrupt:
        print("frapmast: interrupted", file=sys.stderr)
    return TROUBLE


def run(words):
    """The exit status; also where argparse ends the program, and where its help cannot be written."""
    try:
        status = main(words)
    except SystemExit as end:
        status = end.code
    except Exception:  # a fault of the tool: not a status that says something of the session
        traceback.print_exc()
        status = TROUBLE
    try:
        if sys.stdout is not None:
            sys.stdout.flush()
    except OSError as why:
        print(f"frapmast: standard output: {why.strerror}", file=sys.stderr)
        os.dup2(os.open(os.devnull, os.O_WRONLY), sys.stdout.fileno())
        status = TROUBLE
    return status
