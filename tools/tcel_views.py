"""Reads what `tcel run` and `tcel timeline` print, and what of a program the pictures need (docs/formats.md, docs/language.md)."""
import re
import sys

NAME = rb"[A-Za-z_][A-Za-z0-9_]{0,31}"
NUMBER = rb"(?:0|[1-9][0-9]{0,19})"
VALUE = rb"(?:0|-?[1-9][0-9]{0,18})"
STATE = rb"(?: %b=(?:%b|true|false|\[%b(?:,%b)*\]))" % (NAME, VALUE, VALUE, VALUE)
ENTRY = re.compile(
    rb"(%b) (%b) (%b) (?:(receive|send) (%b) (%b)|(first)|(end)(%b*))\Z" % (NUMBER, NAME, NUMBER, NAME, VALUE, STATE)
)
STRETCH = re.compile(rb"(%b) (%b) (%b)\Z" % (NUMBER, NUMBER, NAME))
LATEST = 2**53  # later times have no exact place in a picture
RESERVED = frozenset(
    b"task priority input output state local int bool every finish within start after before do receive from send to "
    b"if else for while limit true false and or not".split()
)


class Fault(Exception):
    """Something that a tool can't go on with; its text is told to the user."""


def read_bytes(path):
    """The bytes of a file, or of standard input for `-`."""
    try:
        if path == "-":
            return sys.stdin.buffer.read()
        with open(path, "rb") as file:
            return file.read()
    except OSError as error:
        raise Fault(f"{path}: {error.strerror or error}") from None


def lines_of(path):
    """The lines of a file with their numbers from 1; each ends with a line feed."""
    data = read_bytes(path)
    if data and not data.endswith(b"\n"):
        raise Fault(f"{path}:{data.count(10) + 1}: the last line has no line feed")
    return enumerate(data.split(b"\n")[:-1], 1)


def whole(text, limit, path, number):
    value = int(text)
    if value >= limit:
        raise Fault(f"{path}:{number}: {text.decode()} is too large")
    return value


def value_of(text, path, number):
    value = int(text)
    if not -(2**63) <= value < 2**63:
        raise Fault(f"{path}:{number}: {text.decode()} has no 64 bits")
    return value


class Trace:
    """The entries of a trace, as columns. `kinds` has 0 for receive, 1 for send, 2 for first and 3 for end; `tasks` and
    `ports` are numbers into `task_names` and `port_names` (pairs of task number and name); `states` holds what stands
    behind `end`, by the entry's number."""

    RECEIVE, SEND, FIRST, END = range(4)

    def __init__(self):
        self.times, self.tasks, self.frames, self.kinds, self.ports, self.values = [], [], [], [], [], []
        self.states = {}
        self.task_names, self.port_names = [], []


def read_trace(path):
    """The trace in a file; the first line that isn't one of a trace is a fault, and so is a time before an earlier one."""
    trace = Trace()
    task_numbers, port_numbers = {}, {}
    last = 0
    for number, line in lines_of(path):
        found = ENTRY.match(line)
        if not found:
            raise Fault(f"{path}:{number}: no line of a trace: {line[:60].decode('utf-8', 'replace')!r}")
        time, name, frame, way, port, value, first, end, state = found.groups()
        if name in RESERVED or port in RESERVED:
            raise Fault(f"{path}:{number}: a reserved word is no name")
        time = whole(time, LATEST, path, number)
        if time < last:
            raise Fault(f"{path}:{number}: time {time} stands behind time {last}")
        last = time
        task = task_numbers.setdefault(name, len(task_numbers))
        trace.times.append(time)
        trace.tasks.append(task)
        trace.frames.append(whole(frame, LATEST, path, number))
        if way:
            key = (task, way, port)
            trace.kinds.append(Trace.RECEIVE if way == b"receive" else Trace.SEND)
            trace.ports.append(port_numbers.setdefault(key, len(port_numbers)))
            trace.values.append(value_of(value, path, number))
        else:
            trace.kinds.append(Trace.FIRST if first else Trace.END)
            trace.ports.append(-1)
            trace.values.append(0)
            if state:
                trace.states[len(trace.times) - 1] = state.decode()
    trace.task_names = [name.decode() for name in task_numbers]
    trace.port_names = [(task, way.decode(), port.decode()) for task, way, port in port_numbers]
    return trace


def states_of(text, path="", number=0):
    """The states behind `end`: name, kind (int, bool, array) and value, a number or a list of numbers."""
    states = []
    for word in text.split():
        name, value = word.split("=")
        if value in ("true", "false"):
            states.append((name, "bool", int(value == "true")))
        elif value.startswith("["):
            states.append((name, "array", [int(part) for part in value[1:-1].split(",")]))
        else:
            states.append((name, "int", int(value)))
    return states


def read_timeline(path):
    """The stretches of a timeline: start, end and task name, or `idle`; they follow one another from time 0."""
    stretches = []
    last = 0
    for number, line in lines_of(path):
        found = STRETCH.match(line)
        if not found:
            raise Fault(f"{path}:{number}: no line of a timeline: {line[:60].decode('utf-8', 'replace')!r}")
        start, end = (whole(text, LATEST, path, number) for text in found.groups()[:2])
        if start != last or end <= start:
            raise Fault(f"{path}:{number}: a stretch begins at {start} where the one before ended at {last}")
        last = end
        stretches.append((start, end, found.group(3).decode()))
    return stretches


TOKEN = re.compile(rb"//[^\n]*|[A-Za-z_][A-Za-z0-9_]*|[0-9]+|:=|==|!=|<=|>=|[{}()\[\];=<>+*/%-]")


def read_program(path):
    """The name, priority, period and deadline in ticks of each task of a program, the highest priority first."""
    words = [word for word in TOKEN.findall(read_bytes(path)) if not word.startswith(b"//")]
    tasks = []
    place = 0
    while place < len(words):
        head = words[place : place + 4]
        if len(head) < 4 or head[0] != b"task" or head[2] != b"priority" or not head[3].isdigit():
            raise Fault(f"{path}: no program: a task begins with `task NAME priority NUMBER`")
        try:
            every = words.index(b"every", place)
            period = int(words[every + 1])
            deadline = int(words[every + 4]) if words[every + 2 : every + 4] == [b"finish", b"within"] else period
        except (ValueError, IndexError):
            raise Fault(f"{path}: no program: task {head[1].decode()} has no period") from None
        if period == 0:
            raise Fault(f"{path}: task {head[1].decode()} has the period 0")
        tasks.append((head[1].decode(), int(head[3]), period, deadline))
        place = every
        while place < len(words) and words[place] != b"task":
            place += 1
    if not tasks:
        raise Fault(f"{path}: no program: it has no task")
    return sorted(tasks, key=lambda task: -task[1])


def tell(program, fault):
    """Ends a tool with what it can't go on with, on standard error."""
    print(f"{program}: {fault}", file=sys.stderr)
    return 1


def write_out(text):
    """Writes to standard output; a closed pipe is no fault of the tool."""
    try:
        sys.stdout.write(text)
        sys.stdout.flush()
    except BrokenPipeError:
        sys.stderr.close()
        return 1
    return 0
