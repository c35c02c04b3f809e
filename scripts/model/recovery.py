"""Going over a whole device: which sectors can be had, which are lost, and what a copy has then."""

from charts import chart_lines
from configuration import Refused
from files import Stop
from rescue_map import FAULTS, MapFault, bad_sectors_of, is_of_scan, marks_of, tail_of, text_of
from session import SUBMISSION_RULES
from stack import SECTOR, Fault

OUT_RULES = ["TooSmall", "Device"]


def looked_up(configuration, name):
    device = configuration.devices.get(name)
    if device is None:
        raise Refused("NoSuchDevice", SUBMISSION_RULES)
    return device


def answers(stack, device, marks):
    """Of each sector in turn its bytes, or the fault that its reading ends in; of one that was had before neither."""
    for at in range(device.sectors):
        if marks and marks[at]:
            yield None, None
            continue
        try:
            yield stack.read_run(device, at, 1), None
        except Fault as fault:
            yield None, fault.text


def recovered(stack, device, out, marks=()):
    """Of each sector the fault that it is lost by, or None; and whether it is had, now or before.

    What can be had is put into `out`, where there is one; what is lost stays as it was there."""
    faults, had = [], []
    for at, (data, fault) in enumerate(answers(stack, device, marks)):
        had.append(fault is None)
        faults.append(fault)
        if data is not None and out is not None:
            out[at * SECTOR:(at + 1) * SECTOR] = data
    return faults, had


def runs_of(faults):
    """The longest runs of sectors that are lost by one fault."""
    runs = []
    for at, fault in enumerate(faults):
        if fault is None:
            continue
        if runs and runs[-1][2] == fault and sum(runs[-1][:2]) == at:
            runs[-1][1] += 1
        else:
            runs.append([at, 1, fault])
    return runs


def lines_of(runs, had):
    """A line for each run, and the sums."""
    lines = [b"lost %d %d %s" % (first, count, fault.removeprefix("fault ").encode())
             for first, count, fault in runs]
    return lines + [b"read %d lost %d" % (sum(had), len(had) - sum(had))]


def chart_of(had):
    """A map of the sectors: at most 16 rows of 64 characters, `x` for some sectors of which one is lost, and else `.`."""
    return [line.encode() for line in chart_lines(["." if it else "x" for it in had])]


def facts_of(runs, had):
    """The same as JSON."""
    return {"lost": len(had) - sum(had), "read": sum(had), "runs": [run_facts(*run) for run in runs]}


def run_facts(first, count, fault):
    _, _, name, *leaf = fault.split(" ")
    return {"first": first, "count": count, "fault": name, **({"leaf": int(leaf[0])} if leaf else {})}


def with_map(stack, device, out, path, files, again):
    """The runs where a map says what was had before: that isn't read again, nor what is lost, by the fault of no binding, unless
    lost sectors are read again. The map is as it is then. Where nothing was read its file stays as it is. A copy takes nothing for
    copied by a scan's map."""
    of_scan = out is None
    try:
        text = bytes(files.text(path))
        marks = marks_of(text, device.sectors)
        bad, tail = bad_sectors_of(text, device.sectors), tail_of(text, device.sectors)
        if is_of_scan(text) and not of_scan:
            marks, bad, tail = (), [], []
    except MapFault as fault:
        raise Stop(b"refused %d Map%s" % (24 + FAULTS.index(str(fault)), str(fault).encode())) from None
    except Stop as stop:
        if not stop.line.startswith(b"refused 1 "):
            raise
        marks, bad, tail = (), [], []
    lost = set(bad)
    settled = [had or not again and at in lost for at, had in enumerate(marks)]
    faults, had = recovered(stack, device, out, settled)
    reads = not marks or not all(settled)
    if not again:
        had = [it and at not in lost for at, it in enumerate(had)]
        faults = ["fault 3 Device 0" if at in lost else it for at, it in enumerate(faults)]
    if reads:
        files.replace(path, text_of(had, of_scan, tail))
    return runs_of(faults), had


def check_size(device, out):
    """An image to which is copied has at least the device's sectors."""
    if len(out) // SECTOR < device.sectors:
        raise Refused("TooSmall", OUT_RULES, " needed %d" % device.sectors)
