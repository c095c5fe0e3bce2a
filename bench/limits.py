"""Runs the program at each of its limits and one past it, and tells the seconds and the memory of each run.

    python3 bench/limits.py [WORD..]

The greatest graph has as many events, nodes and layers as there may be, in an events file of exactly as many bytes: record
`i` has 64 bytes and is an edge at the time `i` from the node `i`, reckoned modulo their number, to the one that is 1 to 4
places on, by whether the record stands in the first, the second, the third or the last quarter. So each node leads to four
others, four lead to it, all are one part, and each has the core number 8. It is asked one question in each run. The other
files reach one limit each, and some of the most bytes hold no graph, one of which has 3.1 GB of refusals, for which there
must be room among the temporary files. Every output is compared with what these rules say of it, which is written down here
and not taken from a run. Words choose the runs whose names hold one of them. The last line is `N passed, M failed`.
"""
import itertools
import os
import sys
import tempfile
import time

ROOT = os.path.dirname(os.path.dirname(os.path.abspath(__file__)))
PROGRAM = os.path.join(ROOT, "crates", "query_cli", "out", "query_cli")
EVENTS, NODES, LAYERS, KEYS, TYPES, WINDOWS = 4194304, 1048576, 64, 256, 4096, 65536
EVENTS_BYTES, SCRIPT_BYTES = 268435456, 1048576
LO, HI = -2 ** 62, 2 ** 62
DEGREE, ASK_EVENTS = '{"ask":["degree"]}\n', '{"ask":["events"]}\n'


def greatest():
    """The records of the greatest graph, of 64 bytes each."""
    for i in range(EVENTS):
        place, quarter = i % NODES, i // NODES
        yield "edge,%08d,n%07d,n%07d,layer%02d,w:i=%019d\n" % (i, place, (place + quarter + 1) % NODES, i % LAYERS, i % 7)


def graph(events, refused=0):
    """The row of a graph."""
    return ["graph,event,%d,%d,%d,%d" % (LO, HI, events, refused)]


def block(line, question, rows, count):
    """The rows of an answer in one world."""
    return itertools.chain(["query,%d,%s,1" % (line, question), "world,%d,%d,%d" % (LO, HI, count)], rows)


def each_node(question, field):
    """The answer about the greatest graph that has one row a node."""
    rows = ("n%07d,%s" % (node, field(node)) for node in range(NODES))
    return itertools.chain(graph(EVENTS), block(1, question, rows, NODES))


def in_windows(line, count, width, row):
    """An answer in so many windows of a width, the first of which begins at 0, with one row each."""
    yield "query,%d,events,%d" % (line, count)
    for number in range(count):
        yield "world,%d,%d,1" % (number * width, (number + 1) * width)
        yield row(number)


def of_the_greatest():
    """The runs on the greatest graph: name, script, status and rows."""
    width = EVENTS // WINDOWS
    yield "events", ASK_EVENTS, 0, lambda: graph(EVENTS) + list(block(1, "events", ["%d,0,%d" % (EVENTS, EVENTS - 1)], 1))
    yield "degree", DEGREE, 0, lambda: each_node("degree", lambda node: "4,4,8")
    yield "weak", '{"ask":["weak"]}\n', 0, lambda: each_node("weak", lambda node: "n0000000")
    yield "core_numbers", '{"ask":["core_numbers"]}\n', 0, lambda: each_node("core_numbers", lambda node: "8")
    yield "hops", '{"ask":["hops","n0000000"]}\n', 0, lambda: each_node("hops", lambda node: "%d" % ((node + 3) // 4))
    # In the first quarter each node passes on what came to it one time before.
    yield ("arrival", '{"ask":["arrival",0,["n0000000"]]}\n', 0,
           lambda: each_node("arrival", lambda node: "%d" % (node - 1) if node else "start"))
    yield ("events in the most windows", '{"each":["rolling",%d],"ask":["events"]}\n' % width, 0,
           lambda: itertools.chain(graph(EVENTS), in_windows(1, WINDOWS, width, lambda number: "%d,%d,%d" % (
               width, number * width, (number + 1) * width - 1))))
    yield ("events in too many windows", '{"each":["rolling",%d],"ask":["events"]}\n' % (width - 1), 1,
           lambda: graph(EVENTS) + ["query,1,refused,windows"])


def one_limit(name, most, record, answer):
    """The runs on files that reach one limit, and that go one past it."""
    for count in (most, most + 1):
        refused = ["refused,%d,limit" % count] if count > most else []
        yield ("%d %s" % (count, name), lambda count=count: (record(i) for i in range(count)), ASK_EVENTS, len(refused),
               lambda refused=refused: refused + graph(answer[0], len(refused)) + list(block(1, "events", [answer[1]], 1)))


def of_one_limit():
    """All runs on files that reach one limit: name, records, script, status and rows."""
    yield from one_limit("updates of one node", EVENTS, lambda i: "node,%d,a\n" % i, (EVENTS, "%d,0,%d" % (EVENTS, EVENTS - 1)))
    yield from one_limit("updates of one node in falling order", EVENTS, lambda i: "node,%d,a\n" % -i,
                         (EVENTS, "%d,%d,0" % (EVENTS, 1 - EVENTS)))
    yield from one_limit("nodes", NODES, lambda i: "node,0,n%d\n" % i, (NODES, "%d,0,0" % NODES))
    yield from one_limit("nodes with a type", NODES, lambda i: "type,n%d,t\n" % i, (0, "0,none,none"))
    yield from one_limit("layers", LAYERS, lambda i: "edge,0,a,b,l%d\n" % i, (LAYERS, "%d,0,0" % LAYERS))
    yield from one_limit("keys of nodes", KEYS, lambda i: "node,0,a,k%d:i=1\n" % i, (KEYS, "%d,0,0" % KEYS))
    yield from one_limit("keys of edges", KEYS, lambda i: "edge,0,a,b,l,k%d:i=1\n" % i, (KEYS, "%d,0,0" % KEYS))
    yield from one_limit("types", TYPES, lambda i: "type,n%d,t%d\n" % (i, i), (0, "0,none,none"))


def of_no_graph():
    """The runs on files of the most bytes that hold no graph: name, pieces, status, and the number of refused records, each of
    them refused for its shape."""
    piece = 1 << 20
    pieces = EVENTS_BYTES // piece
    yield "blank lines", lambda: itertools.repeat("\n" * piece, pieces), 0, 0
    first = '"' + "a" * (piece - 1)
    yield "a field that no quote ends", lambda: itertools.chain([first], itertools.repeat("a" * piece, pieces - 1)), 1, 1
    yield "one record of empty fields", lambda: itertools.repeat("," * piece, pieces), 1, 1
    yield "records of one byte", lambda: itertools.repeat("x\n" * (piece // 2), pieces), 1, EVENTS_BYTES // 2


def longest_script(work):
    """A script of the most bytes, on three events: one query in the most windows, one in one window too many, and as many
    others as there is room for."""
    events, script = os.path.join(work, "few.csv"), os.path.join(work, "long.jsonl")
    each = '"each":["rolling",1],"ask":["events"]}\n'
    lines = ['{"views":[["before",%d]],' % WINDOWS + each, "{" + each]
    room = SCRIPT_BYTES - sum(map(len, lines))
    others = room // len(ASK_EVENTS)
    with open(events, "w") as file:
        file.write("".join("node,%d,a\n" % at for at in (0, WINDOWS - 1, WINDOWS)))
    with open(script, "w") as file:
        file.write("".join(lines) + ASK_EVENTS * others + " " * (room % len(ASK_EVENTS)))

    def rows():
        yield from graph(3)
        ends = {0: "1,0,0", WINDOWS - 1: "1,%d,%d" % (WINDOWS - 1, WINDOWS - 1)}
        yield from in_windows(1, WINDOWS, 1, lambda number: ends.get(number, "0,none,none"))
        yield "query,2,refused,windows"
        for line in range(3, 3 + others):
            yield from block(line, "events", ["3,0,%d" % WINDOWS], 1)
    return events, script, rows


def write(path, records):
    """Writes a file in a process of its own, so that this one stays small: the memory of a program that it starts is
    never told as less than its own."""
    child = os.fork()
    if child == 0:
        with open(path, "w") as file:
            file.writelines(records())
        os._exit(0)
    os.waitpid(child, 0)


def run(events, script, output, fault):
    """The status of a run whose output goes to files, its seconds from start to end, those of the processor, and its greatest
    memory."""
    words = [PROGRAM, "--model", "event", "--events", events, "--script", script]
    begin = time.perf_counter()
    child = os.fork()
    if child == 0:
        for path, number in ((output, 1), (fault, 2)):
            os.dup2(os.open(path, os.O_WRONLY | os.O_CREAT | os.O_TRUNC), number)
        os.execv(words[0], words)
    _, status, used = os.wait4(child, 0)
    seconds = time.perf_counter() - begin
    return os.waitstatus_to_exitcode(status), seconds, used.ru_utime + used.ru_stime, used.ru_maxrss * 1024


def difference(path, rows):
    """The first row of a file that is not as it should be."""
    with open(path, newline="\n") as file:
        for number, (given, should) in enumerate(itertools.zip_longest(file, rows), 1):
            if given is None or should is None or given != should + "\n":
                return "row %d is %r and should be %r" % (number, given and given[:100], should)
    return None


class Report:
    """Runs the program, says what each run took, and counts those that were as they should be."""

    def __init__(self, work, chosen):
        self.work, self.chosen = work, chosen
        self.passed = self.failed = 0

    def wants(self, name):
        return not self.chosen or any(word in name for word in self.chosen)

    def take(self, name, events, script, status, rows, line=""):
        if not self.wants(name):
            return
        output, fault = os.path.join(self.work, "output"), os.path.join(self.work, "fault")
        ended, seconds, processor, memory = run(events, script, output, fault)
        with open(fault) as file:
            said = file.read()
        wrong = difference(output, rows())
        if ended != status or said != line:
            wrong = "status %d, %r on standard error" % (ended, said)
        self.passed, self.failed = self.passed + (wrong is None), self.failed + (wrong is not None)
        print("%-48s %4d MB  status %d  %6.2f s  processor %6.2f s  memory %5.0f MB%s" % (
            name, os.path.getsize(events) // 1000000, ended, seconds, processor, memory / 1e6,
            "  FAILED: " + wrong if wrong else ""), flush=True)


def main():
    os.system("%s --help 2>/dev/null" % os.path.join(ROOT, "query"))
    with tempfile.TemporaryDirectory() as work:
        report = Report(work, sys.argv[1:])
        events, script = os.path.join(work, "events.csv"), os.path.join(work, "script.jsonl")
        for name, records, query, status, rows in of_one_limit():
            if report.wants(name):
                write(events, records)
                write(script, lambda query=query: [query])
                report.take(name, events, script, status, rows)
        for name, pieces, status, refused in of_no_graph():
            if report.wants(name):
                write(events, pieces)
                write(script, lambda: [DEGREE])
                causes = ("refused,%d,shape" % number for number in range(1, refused + 1))
                rows = itertools.chain(causes, graph(0, refused), block(1, "degree", [], 0))
                report.take(name, events, script, status, lambda rows=rows: rows)
        few, long, rows = longest_script(work)
        report.take("the longest script", few, long, 1, rows)
        with open(long, "a") as file:
            file.write(" ")
        report.take("a script one byte longer", few, long, 6, lambda: [], "the script is too long\n")
        write(events, greatest)
        if os.path.getsize(events) != EVENTS_BYTES:
            sys.exit("limits: the file has not the bytes that it should have")
        for name, query, status, rows in of_the_greatest():
            write(script, lambda query=query: [query])
            report.take("the greatest graph, " + name, events, script, status, rows)
        with open(events, "a") as file:
            file.write("\n")
        report.take("an events file one byte longer", events, script, 6, lambda: [], "the events file is too long\n")
    print("%d passed, %d failed" % (report.passed, report.failed))
    return 1 if report.failed else 0


if __name__ == "__main__":
    sys.exit(main())
