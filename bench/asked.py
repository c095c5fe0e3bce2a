"""What questions about a large graph add to the loading of it, for the benchmarks that ask one question each."""
import importlib.machinery
import importlib.util
import os
import resource
import sys
import tempfile

HERE = os.path.dirname(os.path.abspath(__file__))
ROUNDS = 3


def load_bench():
    """The functions of `bench/load`."""
    loader = importlib.machinery.SourceFileLoader("load", os.path.join(HERE, "load"))
    module = importlib.util.module_from_spec(importlib.util.spec_from_loader("load", loader))
    sys.dont_write_bytecode = True
    loader.exec_module(module)
    return module


LOAD = load_bench()


def processor_seconds():
    """The processor's seconds of all runs that have ended."""
    used = resource.getrusage(resource.RUSAGE_CHILDREN)
    return used.ru_utime + used.ru_stime


def deleted_later(lines, count):
    """The same records, with a deletion of every third edge a hundredth of the times later."""
    for number, line in enumerate(lines):
        yield line
        if number % 3 == 0:
            _, time, source, target, layer, _ = line.split(",")
            yield "delete,%d,%s,%s,%s\n" % (int(time) + count // 100, source, target, layer)


def took(model, events, query, work):
    """The processor's seconds of a run on an events file and one query, the least of some, and its greatest memory."""
    script = os.path.join(work, "script.jsonl")
    with open(script, "w") as file:
        file.write(query)
    words = LOAD.command(events, script)
    words[words.index("event")] = model
    runs = []
    for _ in range(ROUNDS):
        before = processor_seconds()
        _, peak = LOAD.run(words)
        runs.append((processor_seconds() - before, peak))
    return min(runs)


def tell(asked, models=("event",), count=None, orders=("in time",)):
    """Prints, for each kind of graph of `bench/load`, each model and each order of the records, what each of some named
    queries adds to loading."""
    count = count or (int(sys.argv[1]) if len(sys.argv) > 1 else 1000000)
    os.system("%s --help 2>/dev/null" % os.path.join(LOAD.ROOT, "query"))
    with tempfile.TemporaryDirectory() as work:
        events = os.path.join(work, "events.csv")
        for kind in ("contacts", "random"):
            for model, order in ((model, order) for model in models for order in orders):
                if model == "event":
                    LOAD.write_records(events, kind, count, order)
                else:
                    with open(events, "w") as file:
                        file.writelines(deleted_later(LOAD.ordered(LOAD.records(kind, count), order), count))
                alone, memory = took(model, events, "", work)
                print("%-8s %-10s %8d edges %s loaded: %.2f s, %.0f MB"
                      % (kind, model, count, order, alone, memory / 1e6), flush=True)
                for name, query in asked(count):
                    seconds, peak = took(model, events, query + "\n", work)
                    print("  %-44s %+7.2f s, %6.3f of the loading, %+6.0f MB"
                          % (name, seconds - alone, (seconds - alone) / alone, (peak - memory) / 1e6), flush=True)
