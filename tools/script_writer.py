"""Writes scripts of `swss run`: what tools/from-rec and tools/from-dump have in common.

A script begins with the port plan, which is known only at the end of the input. So the rounds are kept in a temporary file, in memory
while they are short, and go to standard output behind the plan once all input was found good. Where input is refused, nothing is written.
"""
import argparse
import json
import os
import re
import shutil
import signal
import sys
import tempfile
import time

# What a script may have (docs/FORMATS.md).
MOST_LINES = 1_000_000
MOST_BYTES = 67_108_864
LONGEST_LINE = 65_536
MOST_PORTS = 256
MOST_LANES = 8
MOST_LANE = 511
MOST_ETHERNET = 999_999

# A line of the input may be so long, and of a faulty one so much is repeated.
LONGEST_INPUT = 1_048_576
LONGEST_QUOTE = 60
LONGEST_REMARK = 60_000

# So many notes of a kind are printed one by one, and so many comments of the input stand at the head of the script.
MOST_NOTES = 10
MOST_NOTES_OF_HEAD = 100

# Rounds up to this many bytes stay in memory.
IN_MEMORY = 1_048_576

SHOWS = ("chip", "tables", "ignored", "waiting", "warm", "ready", "calls", "counts")
UNPLAIN = re.compile(rb"[\x00-\x20]")
NUMBER = re.compile(rb"0|[1-9][0-9]{0,8}")
PRODUCER = re.compile(r"[A-Za-z0-9_-]+")


class Refusal(Exception):
    """Input that makes no script, with the number of its line, or 0 for the input as a whole."""

    def __init__(self, line, reason, is_final=False):
        super().__init__(reason)
        self.line = line
        self.reason = reason
        self.is_final = is_final


def printable(raw):
    """Returns bytes as a text that can be printed on one line."""
    text = raw.decode("utf-8", "backslashreplace")
    return "".join(it if it.isprintable() else it.encode("unicode_escape").decode() for it in text)


def quoted(raw):
    """Returns the front of bytes as a text that can be printed."""
    return f"'{printable(raw[:LONGEST_QUOTE])}'" + (" .." if len(raw) > LONGEST_QUOTE else "")


def name_of(path):
    """Returns how a script names the file that it was made from."""
    return "standard input" if path == "-" else printable(os.fsencode(path.rpartition("/")[2]))


def counted(number, one, many=None):
    return f"{number:,} {one if number == 1 else many or one + 's'}"


def kept(number, noun):
    """Returns the words for what stands as comments, or nothing."""
    return f", {counted(number, noun)} kept as {'a comment' if number == 1 else 'comments'}" if number else ""


class Voice:
    """What a tool says on standard error: notes, the first few of each kind, and how far a long input has come."""

    def __init__(self, tool, name, size=0):
        self.tool = tool
        self.name = name
        self.size = size
        self.notes = {}
        self.is_terminal = sys.stderr.isatty()
        self.pause = 0.5 if self.is_terminal else 5.0
        self.due = time.monotonic() + self.pause
        self.is_open = False

    def say(self, text):
        if self.is_open:
            print(file=sys.stderr)
            self.is_open = False
        print(f"{self.tool}: {text}", file=sys.stderr)

    def note(self, kind, line, text):
        """Says something of a line; of a kind that came often it only counts."""
        self.notes[kind] = self.notes.get(kind, 0) + 1
        if self.notes[kind] <= MOST_NOTES:
            self.say(f"{self.name}: line {line}: {text}")

    def progress(self, line, place):
        """Says how far the input has come, where it takes long."""
        now = time.monotonic()
        if now < self.due:
            return
        self.due = now + self.pause
        share = f", {100 * place // self.size} % of the input" if self.size else ""
        text = f"{self.tool}: {line:,} lines read{share}"
        if self.is_terminal:
            print(f"\r{text}", end="", file=sys.stderr, flush=True)
            self.is_open = True
        else:
            print(text, file=sys.stderr, flush=True)

    def finish(self):
        for kind, count in self.notes.items():
            if count > MOST_NOTES:
                self.say(f"{self.name}: {counted(count - MOST_NOTES, 'more line')} of this kind: {kind}")
        if self.is_open:
            print(file=sys.stderr)


class Plan:
    """The ports of the switch, as the rows of PORT_TABLE with `lanes` name them: of each port the lanes that came first."""

    def __init__(self, voice):
        self.voice = voice
        self.ports = {}
        self.owners = {}

    def row(self, line, name, lanes):
        """Takes a row's lanes; where they make no port of the plan, this is said, and the row is listed by `show ignored`."""
        if name in (b"PortInitDone", b"PortConfigDone"):
            return
        fault = self.fault_of(name, lanes)
        if fault:
            self.voice.note("rows of ports that are not in the port plan", line, f"PORT_TABLE:{printable(name)}: {fault}; `show ignored` lists the row")

    def fault_of(self, name, lanes):
        if name in self.ports and self.ports[name] == lanes:
            return None
        numbers = lanes.split(b",")
        if not (name.startswith(b"Ethernet") and NUMBER.fullmatch(name[8:]) and int(name[8:]) <= MOST_ETHERNET):
            return "no port has such a name, which is Ethernet and a number"
        if not all(NUMBER.fullmatch(it) and int(it) <= MOST_LANE for it in numbers):
            return f"lanes {quoted(lanes)} are no numbers up to {MOST_LANE}"
        if len(numbers) > MOST_LANES or len(set(numbers)) < len(numbers):
            return f"lanes {quoted(lanes)} are not 1 to {MOST_LANES} different numbers"
        if name in self.ports:
            if set(numbers) == set(self.ports[name].split(b",")):
                return None
            return f"lanes {quoted(lanes)} are others than {quoted(self.ports[name])}, which came first and are those of the plan"
        for it in numbers:
            if it in self.owners:
                return f"lane {it.decode()} is one of {self.owners[it].decode()}, which came first"
        if len(self.ports) >= MOST_PORTS:
            return f"the plan has {MOST_PORTS} ports already"
        self.ports[name] = lanes
        self.owners.update((it, name) for it in numbers)
        return None

    def lines(self):
        return [b"port " + name + b" " + lanes + b"\n" for name, lanes in self.ports.items()]


class Script:
    """The script that comes about: its rounds, and how much of it there is."""

    def __init__(self, words, voice):
        self.words = words
        self.voice = voice
        self.plan = Plan(voice)
        self.rounds = 0
        self.is_in_round = False
        self.is_due = False
        self.sets = 0
        self.deletions = 0
        self.remarks = 0
        self.head = []
        self.body_lines = 0
        self.body_bytes = 0
        self.last_that_fits = None
        self.body = tempfile.SpooledTemporaryFile(max_size=IN_MEMORY)
        self.producer = b"producer " + words.producer.encode() + b"\n"
        self.shows = [b"show " + it.encode() + b"\n" for it in words.show]

    def write(self, text):
        self.body_lines += 1
        self.body_bytes += len(text)
        self.body.write(text)

    def check(self, line):
        """Remembers a line of the input up to which the script is within its limits, with room left for its head and its end."""
        size = self.body_bytes + sum(map(len, self.head))
        if self.body_lines < MOST_LINES - MOST_PORTS - MOST_NOTES_OF_HEAD - 100 and size < MOST_BYTES - MOST_BYTES // 64:
            self.last_that_fits = line

    def stand_still(self):
        """Ends the round before the next write, where there is one."""
        self.is_due = self.is_in_round

    def begin(self, line, place):
        """Begins a round where none is open, with a comment on its place in the input."""
        if self.is_due:
            self.end_round(self.shows)
        if not self.is_in_round:
            self.is_in_round = True
            if place:
                self.write(f"# Round {self.rounds + 1} begins at line {line}, {place}.\n".encode())
            self.write(self.producer)

    def set(self, key, pairs, is_plain):
        self.sets += 1
        if is_plain:
            text = b" ".join([b"set", key, *[name + b"=" + value for name, value in pairs]])
            if len(text) <= LONGEST_LINE:
                self.write(text + b"\n")
                return
        self.write(batch_of(key, pairs, "SET"))

    def delete(self, key, pairs, is_plain):
        self.deletions += 1
        if is_plain and not pairs and len(key) + 4 <= LONGEST_LINE:
            self.write(b"del " + key + b"\n")
        else:
            self.write(batch_of(key, pairs, "DEL"))

    def remark(self, line, text):
        """Keeps as a comment what makes no write."""
        self.remarks += 1
        self.write(f"# line {line}: ".encode() + self.shortened(line, text) + b"\n")

    def shortened(self, line, text):
        """Returns what a line has room for of a text that stands as a comment."""
        if len(text) <= LONGEST_REMARK:
            return text
        self.voice.note("comments that are cut", line, f"the comment has room for {LONGEST_REMARK:,} bytes of {len(text):,}: the rest is left out")
        return text[:LONGEST_REMARK].decode("utf-8", "ignore").encode() + b" .."

    def comment(self, line, text):
        """Keeps a comment of the input: the first ones at the head of the script."""
        text = self.shortened(line, text) + b"\n"
        if self.sets or self.deletions or self.remarks or len(self.head) >= MOST_NOTES_OF_HEAD:
            self.write(text)
        else:
            self.head.append(text)

    def end_round(self, shows):
        self.is_in_round = False
        self.is_due = False
        self.rounds += 1
        if self.words.restart == self.rounds:
            self.write(b"restart\n")
        self.write(b"settle\n")
        for it in shows:
            self.write(it)

    def finish(self):
        """Ends the last round, and shows what waits; a script without any write has one round all the same."""
        if not self.is_in_round:
            self.write(self.producer)
        last = [it for it in self.shows if it not in (b"show waiting\n", b"show ready\n")]
        self.end_round([*last, b"show waiting\n", b"show ready\n"])
        if (self.words.restart or 0) > self.rounds:
            raise Refusal(0, f"there is no round {self.words.restart} to restart in: the script has {counted(self.rounds, 'round')}")

    def give(self, output, title):
        """Writes the script, and says so where it is larger than a script may be."""
        head = [*self.head, f"# {title}\n".encode(), *self.plan.lines()]
        lines = len(head) + self.body_lines
        size = sum(map(len, head)) + self.body_bytes
        if lines > MOST_LINES or size > MOST_BYTES:
            self.voice.say(
                f"{self.voice.name}: the script has {counted(lines, 'line')} and {counted(size, 'byte')}, and `swss run` takes up to "
                f"{MOST_LINES:,} and {MOST_BYTES:,}: it is written, and will be refused"
            )
            if self.words.hint and self.last_that_fits:
                self.voice.say(f"{self.voice.name}: the input up to line {self.last_that_fits} makes a script that is taken: {self.words.hint(self.last_that_fits)}")
        output.writelines(head)
        self.body.seek(0)
        shutil.copyfileobj(self.body, output, IN_MEMORY)
        output.flush()


def batch_of(key, pairs, operation):
    """Returns a write as a batch of one, for what the words of a line can't hold."""
    fields = {name.decode(): value.decode() for name, value in pairs}
    return b"json " + json.dumps([{key.decode(): fields, "OP": operation}], ensure_ascii=False, separators=(",", ":")).encode() + b"\n"


def producer_name(word):
    if not PRODUCER.fullmatch(word):
        raise argparse.ArgumentTypeError(f"{word!r} is not of ASCII letters, digits, _ and -")
    return word


def show_words(word):
    if word not in SHOWS and not re.fullmatch(r"forward (Vrf[A-Za-z0-9_-]{0,12} )?[0-9a-fA-F.:]+", word):
        raise argparse.ArgumentTypeError(f"{word!r} is none of {', '.join(SHOWS)}, 'forward ADDRESS', 'forward ROUTER ADDRESS'")
    return word


def round_number(word):
    if not re.fullmatch(r"[1-9][0-9]{0,8}", word):
        raise argparse.ArgumentTypeError(f"{word!r} is no number of a round")
    return int(word)


def parser_of(text, producer, epilog):
    """Returns a parser of the words that both tools have."""
    it = argparse.ArgumentParser(description=text, epilog=epilog, formatter_class=argparse.RawDescriptionHelpFormatter, allow_abbrev=False)
    it.add_argument("file", nargs="?", default="-", metavar="FILE", help="what is read; without it, or with -, standard input")
    it.add_argument("--producer", type=producer_name, default=producer, metavar="NAME", help=f"the name of the one producer ({producer})")
    it.add_argument(
        "--show",
        type=show_words,
        action="append",
        default=[],
        metavar="WHAT",
        help="shows WHAT behind each settle, as calls or 'forward 10.0.0.1'; may stand several times",
    )
    it.add_argument("--restart", type=round_number, metavar="ROUND", help="the service restarts in this round; rounds count from 1")
    return it


def close_quietly():
    """Lets the end of the program write nothing more to a reader that went away."""
    os.dup2(os.open(os.devnull, os.O_WRONLY), sys.stdout.fileno())


def run(tool, words, read):
    """Reads the input into a script and writes it; returns the exit status, which is 1 where the input is refused."""
    signal.signal(signal.SIGINT, signal.SIG_DFL)
    name = "standard input" if words.file == "-" else printable(os.fsencode(words.file))
    voice = Voice(tool, name)
    if sys.stdout is None or sys.stdin is None and words.file == "-":
        voice.say("standard input or output is closed")
        return 1
    try:
        with sys.stdin.buffer if words.file == "-" else open(words.file, "rb") as source:
            voice.size = os.fstat(source.fileno()).st_size
            script = Script(words, voice)
            title = read(source, script, voice)
    except Refusal as it:
        voice.finish()
        place = f"line {it.line}: " if it.line else ""
        voice.say(f"{name}: {place}{it.reason}")
        return 1
    except OSError as it:
        place = "" if it.filename else f" (rounds are kept in {tempfile.gettempdir()}, or where TMPDIR says)"
        voice.say(f"{name}: {it.strerror}{place}")
        return 1
    voice.finish()
    try:
        script.give(sys.stdout.buffer, title)
    except BrokenPipeError:
        close_quietly()
    except OSError as it:
        voice.say(f"standard output: {it.strerror}")
        close_quietly()
        return 1
    return 0
