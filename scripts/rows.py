#!/usr/bin/env python3
"""Runs rows over the built program: rows.py NCC [FILE..], without a FILE those in tests/*.rows. The last line is
`N passed, M failed`.

A row is a call, ` -> ` and its answer. A line that begins with a space goes on with the call, `> ` has the answer's
next line, `#` begins a comment. The calls:

    bytes NAME WORD..              the file NAME
    use FILE                       the rows of another file
    check [--max-header N] WORD..  a verdict; --strict, --explain, --json, list, layout and extend by 0 must agree with it
    explain [--max-header N] WORD.. a verdict in words; --json must agree with it
    json COMMAND WORD..            the object of check, layout, list or list --decimal, with FILE for the path
    list [--decimal] WORD..        the lines of the header; --json must agree with it
    layout WORD..                  where everything lies; --json and --svg must agree with it
    picture WORD..                 the picture of layout
    fronts WORD..                  check and list: each shorter front ends early in the field that it cuts
    csv NAME VARIABLE OPTION..     the sheet of a variable, whose name may stand in double quotes
    extend NAME N                  records that are added; NAME is the file then
    convert NAME VERSION NEW       NEW is the file in that version; without `ok` there is none
    same NAME WORD..               NAME has these bytes
    each LIST CALL                 the row for each item of the list, for which `$` stands: `1,2,5` or `0..9`
    wrong CALL                     the row must be found wrong, or not understood: it tests this script

Words spell bytes as the netCDF classic standard does, in the version that the file's first word has:

    CDF-1 NC_DIMENSION NC_SHORT ABSENT STREAMING   what the standard calls so
    5 2^31-1     a NON_NEG             @80      an OFFSET
    "x"          a name: its length, its bytes and its padding; `\\x20` is a byte
    'abc' 0x8001 bytes                 short:1,-2 uint:0..9 float:0x7fc00000   values
    NAME         a file                NAME:85  its first 85 bytes
    ^v ^         mark a place, by a name or none: `v`, `v-1` is its number (`@v`, `FIXED:v`), `^v` in an answer
    v=WORD 4=WORD   what stands at a place is this word instead
    WORD*3       the word three times  upto:2^40   zeros up to this length, which take no room

In an answer, `{TEXT*3}` is the text three times, `{0..9}` the numbers with spaces between them, and `{0..9|#,v}` a
line for each number, for which `#` stands.
"""
import collections, glob, json, os, re, struct, subprocess, sys, tempfile
import objects
import pictures

KINDS = {"byte": "b", "char": "B", "short": "h", "int": "i", "float": "I", "double": "Q",
         "ubyte": "B", "ushort": "H", "uint": "I", "int64": "q", "uint64": "Q"}
TAGS = {"NC_DIMENSION": 10, "NC_VARIABLE": 11, "NC_ATTRIBUTE": 12}
TAGS.update({f"NC_{kind.upper()}": code for code, kind in enumerate(KINDS, 1)})
OF_THE_LAYOUT = ("TooLarge", "InHeader", "Overlap", "RecordWindow", "FixedAfterRecords", "Truncated")
NOT_UNDERSTOOD = (KeyError, IndexError, ValueError, OverflowError, OSError, struct.error)
Row = collections.namedtuple("Row", "path line call wanted")


class File:
    """Bytes, the places that are marked in them, where fields begin, and the length up to which zeros follow."""

    def __init__(self):
        self.bytes, self.marks, self.fields, self.length = bytearray(), {}, [], 0

    def put(self, *fields):
        for field in filter(None, fields):
            self.fields.append(len(self.bytes))
            self.bytes += field
        return self

    def put_file(self, other, end=None, times=1):
        """Another file, or its bytes up to an end, so many times."""
        at, piece = len(self.bytes), other.bytes[:end]
        self.bytes += piece * times
        self.marks.update({mark: at + place for mark, place in other.marks.items()})
        for start in range(at, len(self.bytes), len(piece) or 1):
            self.fields += [start + place for place in other.fields if place < len(piece)]
        if end is None and other.length:
            self.length = other.length
        return self


def number(text, marks):
    """A number (`5`, `2^31-1`) or a place (`v-1`). As long as there are no marks each place is 0."""
    found = re.fullmatch(r"(?:(\d+)(?:\^(\d+))?|([a-z]\w*))([+-]\d+)?", text)
    if not found:
        raise ValueError(f"no number: {text}")
    base, power, mark, more = found.groups()
    if mark and marks is None:
        return 0
    return (marks[mark] if mark else int(base) ** int(power or 1)) + int(more or 0)


def raw(text):
    """The bytes of a text, in which `\\x20` is a byte."""
    return text.encode("latin1").decode("unicode_escape").encode("latin1")


def values(kind, text):
    for item in filter(None, text.split(",")):
        first, dots, last = item.partition("..")
        for value in range(int(first), int(last) + 1) if dots else [int(item, 0)]:
            yield struct.pack(">" + KINDS[kind], value)


class Spelling:
    """Spells words, among them the names of files."""

    def __init__(self, files):
        self.files = files

    def file(self, words):
        """A place may be named before it is marked, so that words are spelled twice."""
        return self.spell(words, self.spell(words, None).marks)

    def spell(self, words, marks):
        file = File()
        for word in words:
            if change := re.fullmatch(r"(\w+)=(\S+)", word):
                at = number(change[1], file.marks)
                new = self.piece(change[2], marks, file.bytes[:4]).bytes
                file.bytes[at : at + len(new)] = new
            elif times := re.fullmatch(r"(.+)\*(\d+)", word):
                file.put_file(self.piece(times[1], marks, file.bytes[:4]), times=int(times[2]))
            else:
                file.put_file(self.piece(word, marks, file.bytes[:4]))
        return file

    def piece(self, word, marks, front):
        """What a word spells in a file that begins with this front."""
        piece = File()
        name, colon, end = word.partition(":")
        if word[0] == "^":
            piece.marks[word[1:]] = 0
        elif name == "upto":
            piece.length = number(end, marks)
        elif name in self.files:
            piece.put_file(self.files[name], number(end, self.files[name].marks) if colon else None)
        else:
            piece.put(*fields(word, marks, front))
        return piece


def fields(word, marks, front):
    """The fields of a word that has no name of a file."""
    count = ">Q" if front == b"CDF\5" else ">I"
    kind, colon, items = word.partition(":")
    if word[0] == '"' and word[-1] == '"':
        name = raw(word[1:-1])
        return struct.pack(count, len(name)), name, bytes(-len(name) % 4)
    if word[0] == "'" and word[-1] == "'":
        return (raw(word[1:-1]),)
    if word.startswith("0x"):
        return (bytes.fromhex(word[2:]),)
    if word[0] == "@":
        return (struct.pack(">I" if front == b"CDF\1" else ">Q", number(word[1:], marks)),)
    if colon:
        return (b"".join(values(kind, items)),)
    if word.startswith("CDF-"):
        return b"CDF", bytes([int(word[4:])])
    if word == "ABSENT":
        return bytes(4), struct.pack(count, 0)
    if word == "STREAMING":
        return (b"\xff" * struct.calcsize(count),)
    if word in TAGS:
        return (struct.pack(">I", TAGS[word]),)
    return (struct.pack(count, number(word, marks)),)


class Bench:
    """The files of a file of rows, and the program that is asked about them."""

    def __init__(self, ncc, folder, rows):
        self.ncc, self.rows, self.files, self.marks, self.lines = ncc, rows, {}, {}, []
        self.path, self.new = f"{folder}/file", f"{folder}/new"
        self.spelling = Spelling(self.files)

    def say(self, *words, status=None):
        """What the program prints, and its status where it isn't this one, or else 1 for a fault or a refusal, or 0."""
        run = subprocess.run([self.ncc, *words], capture_output=True, stdin=subprocess.DEVNULL)
        text = (run.stdout + run.stderr).decode(errors="backslashreplace")
        due = text.startswith(("fault ", "refused ")) if status is None else status
        text = text[:-1] if text.endswith("\n") else text + "\n(no line feed)"
        return text if run.returncode == due else f"{text}\nstatus {run.returncode}"

    def place(self, file):
        with open(self.path, "wb") as out:
            out.write(file.bytes)
            out.truncate(max(file.length, len(file.bytes)))
        self.marks = file.marks

    def kept(self, file):
        """A line where the placed file isn't as it was."""
        with open(self.path, "rb") as now:
            length = os.fstat(now.fileno()).st_size
            same = length == max(file.length, len(file.bytes)) and now.read(len(file.bytes)) == file.bytes
        return "" if same else "\nthe file was changed"

    def agreed(self, command, *options, text):
        """What the object of the placed file stands for, of which a command says this text."""
        status = int(text.startswith("fault "))
        line = self.say(command, *options, "--json", self.path, status=status)
        self.lines.append(line)
        found = json.loads(line)
        if (found["file"], found["status"]) != (self.path, status):
            raise ValueError(line)
        if command == "list":
            return objects.listed(line, decimal="--decimal" in options)
        return objects.told(found) if command == "check" else objects.laid(found)

    def pictured(self, text):
        """How the picture of the placed file differs from what layout says of it, or nothing."""
        try:
            return pictures.differs(self.say("layout", "--svg", self.path), text)
        except (SyntaxError, AttributeError, TypeError) as error:
            return f"no picture: {error}"

    def with_object(self, command, *options, text):
        """What a command says of the placed file, and what its object stands for where that is something else."""
        said = self.agreed(command, *options, text=text)
        return text if said == text else f"{text}\nwith --json\n{said}"

    def object(self, command, *options, file):
        """An object, to the letter; its status is the program's."""
        self.place(file)
        line = self.say(command, *options, "--json", self.path, status=0)
        return line.replace("\nstatus 1", "" if '"status":1,' in line else "\nstatus 1").replace(self.path, "FILE") + self.kept(file)

    def check(self, words):
        """What check says; and what the others say that don't agree with it."""
        limit = limit_of(words)
        file = self.spelling.file(words[len(limit) :])
        self.place(file)
        text = self.say("check", *limit, self.path)
        lines = [text]
        bad = text.startswith("fault ") or "\nnote " in text
        if (strict := self.say("check", "--strict", *limit, self.path, status=bad)) != text:
            lines += ["with --strict", strict]
        told = self.say("check", "--explain", *limit, self.path, status=text.startswith("fault "))
        if (short := "\n".join(line for line in told.split("\n") if not line.startswith("    "))) != text:
            lines += ["with --explain", short]
        if (said := self.agreed("check", *limit, text=told)) != told:
            lines += ["with --json", said]
        if not limit:
            passed = re.match(r"ok CDF-\d records (\d+) ", text)
            if (opened := self.say("extend", self.path, "0")) != (f"records {passed[1]}" if passed else text):
                lines += ["extend by 0", opened]
            has_header = passed or text.startswith(tuple(f"fault {kind} " for kind in OF_THE_LAYOUT))
            listed = self.say("list", self.path)
            if not (listed.startswith("format CDF-") if has_header else listed == text):
                lines += ["list", listed]
            laid = self.say("layout", self.path)
            if not (is_laid(laid, passed) if has_header and "TooLarge" not in text else laid == text):
                lines += ["layout", laid]
            if (said := self.agreed("list", text=listed)) != listed:
                lines += ["list with --json", said]
            if (said := self.agreed("layout", text=laid)) != laid:
                lines += ["layout with --json", said]
            if said := self.pictured(laid):
                lines += ["layout with --svg", said]
        return "\n".join(lines) + self.kept(file)

    def fronts(self, words):
        """The first line that is another one, of those that check and list say of all shorter fronts."""
        file = self.spelling.file(words)
        paths = [f"{self.path}{cut}" for cut in range(len(file.bytes))]
        starts = [max([0, *(at for at in file.fields if at <= cut)]) for cut in range(len(file.bytes))]
        for cut, path in enumerate(paths):
            with open(path, "wb") as out:
                out.write(file.bytes[:cut])
        for command in "check", "list":
            wanted = [f"{path}: fault EndsEarly at {start}" for path, start in zip(paths, starts)]
            said = self.say(command, *paths, status=1).split("\n")
            if said != wanted:
                at = first_other(said, wanted)
                return f"{command} of {at} bytes: {said[at:at + 1]}, not {wanted[at:at + 1]}"
        return ""

    def read(self, words, file):
        """What a command says that changes nothing."""
        self.place(file)
        return self.say(*words) + self.kept(file)

    def extend(self, name, more):
        self.place(self.files[name])
        text = self.say("extend", self.path, more)
        with open(self.path, "rb") as now:
            self.files[name] = File().put(now.read(1 << 24))
        self.files[name].marks = self.marks
        return text

    def convert(self, name, version, new):
        text = self.read(["convert", "--to", version, self.path, self.new], self.files[name])
        made = [path for path in (self.new, self.new + ".part") if os.path.exists(path)]
        if made != ([self.new] if text.startswith("ok ") else []):
            text += f"\nmade: {' '.join(made) or 'nothing'}"
        self.files[new] = File()
        for path in made:
            with open(path, "rb") as out:
                self.files[new].put(out.read())
            os.remove(path)
        return text

    def same(self, name, words):
        is_, wanted = self.files[name].bytes, self.spelling.file(words).bytes
        if is_ == wanted:
            return ""
        at = first_other(is_, wanted)
        is_from, wanted_from = is_[at : at + 32].hex(), wanted[at : at + 32].hex()
        return f"{len(is_)} bytes, from {at} on {is_from}, not {len(wanted)}: {wanted_from}"

    def use(self, path):
        said = [self.run(call) for row in rows_of(path) for call, _ in each(row)]
        return "\n".join(filter(None, said))

    def run(self, call):
        """The answer of a call."""
        match call.split():
            case ["bytes", name, *words]:
                self.files[name] = self.spelling.file(words)
                return ""
            case ["use", other]:
                return self.use(f"{self.rows}/{other}")
            case ["check", *words]:
                return self.check(words)
            case ["explain", *words]:
                limit = limit_of(words)
                text = self.read(["check", "--explain", *limit, self.path], self.spelling.file(words[len(limit) :]))
                return self.with_object("check", *limit, text=text)
            case ["json", "list", "--decimal", *words]:
                return self.object("list", "--decimal", file=self.spelling.file(words))
            case ["json", command, *words]:
                return self.object(command, file=self.spelling.file(words))
            case ["list", "--decimal", *words]:
                text = self.read(["list", "--decimal", self.path], self.spelling.file(words))
                return self.with_object("list", "--decimal", text=text)
            case ["list", *words]:
                text = self.read(["list", self.path], self.spelling.file(words))
                return self.with_object("list", text=text)
            case ["layout", *words]:
                text = self.read(["layout", self.path], self.spelling.file(words))
                shown = self.pictured(text)
                return self.with_object("layout", text=text) + (f"\nwith --svg\n{shown}" if shown else "")
            case ["picture", *words]:
                return self.read(["layout", "--svg", self.path], self.spelling.file(words))
            case ["fronts", *words]:
                return self.fronts(words)
            case ["csv", name, variable, *options]:
                powers = [re.sub(r"\d+\^\d+([+-]\d+)?", lambda it: str(number(it[0], {})), word) for word in options]
                words = [raw(word) for word in [variable.strip('"'), *powers]]
                return self.read(["csv", self.path, *words], self.spelling.file([name]))
            case ["extend", name, more]:
                return self.extend(name, more)
            case ["convert", name, version, new]:
                return self.convert(name, version, new)
            case ["same", name, *words]:
                return self.same(name, words)
        raise ValueError(call)

    def numbered(self, answer):
        """An answer with the places of the last file that was placed."""
        return re.sub(r"\^([a-z]\w*|)([+-]\d+|)", lambda it: str(self.marks[it[1]] + int(it[2] or 0)), answer)

    def is_right(self, row, call, wanted):
        """Whether a call has this answer. What is wrong is printed, where it isn't to be."""
        to_be_wrong = call.startswith("wrong ")
        try:
            said = self.run(call.removeprefix("wrong "))
            wanted = grown(self.numbered(wanted))
        except NOT_UNDERSTOOD as error:
            said = f"not understood: {error}"
        if (said != wanted) == to_be_wrong:
            return True
        print(f"{row.path}:{row.line}: {call}\nis      {indented(said)}\nwanted  {indented(wanted)}")
        return False


def limit_of(words):
    """The option for another limit of the header's length, as the program takes it, if the words begin with it."""
    return ["--max-header", str(number(words[1], {}))] if words[:1] == ["--max-header"] else []


def is_laid(text, passed):
    """Whether a layout says nothing else than a check that passed: the number of records, and that nothing is missing."""
    if not text.startswith("file "):
        return False
    counted = re.search(r"^records (\d+) ", text, re.M)
    has_room = text.split("\n")[-1].startswith("after ") and " overlap " not in text
    return not passed or (has_room and (not counted or counted[1] == passed[1]))


def first_other(one, other):
    """Where two lists differ first."""
    return next((at for at, (a, b) in enumerate(zip(one, other)) if a != b), min(len(one), len(other)))


def grown(answer):
    """An answer without braces."""

    def numbers(found):
        text, between = (found[3], "\n") if found[3] else ("#", " ")
        return between.join(text.replace("#", str(n)) for n in range(int(found[1]), int(found[2]) + 1))

    answer = re.sub(r"\{(\d+)\.\.(\d+)(?:\|([^{}]*))?\}", numbers, answer)
    return re.sub(r"\{([^{}]*)\*(\d+)\}", lambda it: it[1] * int(it[2]), answer)


def indented(text):
    return text[:2000].replace("\n", "\n        ")


def rows_of(path):
    """The rows of a file: a row's first line, its call, and its answer."""
    row = None
    with open(path, encoding="ascii") as lines:
        for at, line in enumerate(lines, 1):
            line = line.rstrip("\n")
            if not line.strip() or line[0] == "#":
                continue
            call, _, wanted = line.partition(" -> ")
            if line.startswith(">"):
                row = row._replace(wanted=f"{row.wanted}\n{line[2:]}".removeprefix("\n"))
            elif line[0] == " ":
                row = row._replace(call=f"{row.call} {call.strip()}", wanted=wanted)
            else:
                if row:
                    yield row
                row = Row(path, at, call.strip(), wanted)
    if row:
        yield row


def each(row):
    """The calls of a row, with their answers."""
    found = re.fullmatch(r"((?:wrong )?)each (\S+) (.*)", row.call)
    if not found:
        return [(row.call, row.wanted)]
    items = []
    for item in found[2].split(","):
        first, dots, last = item.partition("..")
        items += range(int(first), int(last) + 1) if dots else [item]
    return [(found[1] + found[3].replace("$", str(item)), row.wanted.replace("$", str(item))) for item in items]


def main(ncc, paths):
    passed = failed = 0
    lines = []
    top = os.path.dirname(os.path.dirname(os.path.realpath(__file__)))
    if not os.access(ncc, os.X_OK):
        sys.exit(f"rows.py: there is no program {ncc}")
    with tempfile.TemporaryDirectory() as folder:
        for path in paths or sorted(glob.glob(f"{top}/tests/*.rows")):
            bench = Bench(os.path.realpath(ncc), folder, os.path.dirname(os.path.realpath(path)))
            for row in rows_of(path):
                for call, wanted in each(row):
                    right = bench.is_right(row, call, wanted)
                    passed += right and not call.startswith(("bytes ", "use "))
                    failed += not right
            lines += bench.lines
    if lines and (other := objects.differs_from_jq(lines)):
        print(f"jq doesn't read this as Python does: {other}")
        failed += 1
    print(f"{passed} passed, {failed} failed")
    return 1 if failed or not passed else 0


if __name__ == "__main__":
    sys.exit(main(sys.argv[1], sys.argv[2:]) if len(sys.argv) > 1 else __doc__)
