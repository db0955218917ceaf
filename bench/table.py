"""Lays the times side by side, a line for each job, and tells which bars are missed."""

PEERS = ["Foimukad", "crate", "kit", "cpython", "pypy"]
HEAD = ["Job", "Units", "Foimukad", "crate", "kit", "CPython", "PyPy", "to crate", "to kit",
        "to CPython", "Bar", "Note"]
LEFT_OUT = 0.02  # nanoseconds a unit below which the compiler has worked out the sum by a formula

# what the ratio to the crate is to be at most, by kind; a product of other lengths has no bar
BARS = {"product": 0.75, "combinations": 0.45, "replacement": 0.45, "permutations": 0.45}
PRODUCT_PLACES = {"2", "8", "32", "64"}


def nanos(results, job, peer):
    """The nanoseconds a unit, or nothing where the peer did not play the job."""
    if peer not in results[job]:
        return None
    (units, _), total = results[job][peer]
    return total / max(units, 1)


def ratio(results, job, peer):
    """This library's time in parts of the peer's, where neither is left out by the compiler."""
    ours, theirs = nanos(results, job, "Foimukad"), nanos(results, job, peer)
    if theirs is None or ours < LEFT_OUT or theirs < LEFT_OUT:
        return None
    return ours / theirs


def bar(job):
    """The bar of a job, if it has one."""
    words = job.split(" ")
    if words[0] == "product" and words[2] not in PRODUCT_PLACES:
        return None
    return BARS.get(words[0])


def shown_time(time):
    if time is None:
        return ""
    return "left out" if time < LEFT_OUT else f"{time:.2f}"


def shown_ratio(value):
    if value is None:
        return ""
    return f"{value:.2f}" if value >= 0.1 else f"{value:.3f}"


def shown_bar(results, job):
    if bar(job) is None:
        return ""
    met = ratio(results, job, "crate") <= bar(job)
    return f"{bar(job):.2f} {'met' if met else 'missed'}"


def rows(jobs, results, loops):
    """The lines of the table; `loops` tells what to note of a job."""
    lines = ["| " + " | ".join(HEAD) + " |", "|---" * len(HEAD) + "|"]
    for job in jobs:
        times = [shown_time(nanos(results, job, peer)) for peer in PEERS]
        ratios = [shown_ratio(ratio(results, job, peer)) for peer in ("crate", "kit", "cpython")]
        units = results[job]["Foimukad"][0][0]
        cells = [job, str(units), *times, *ratios, shown_bar(results, job), loops.note(job)]
        lines.append("| " + " | ".join(cells) + " |")
    return lines


def missed(jobs, results, loops):
    """A line for each bar that is missed, with what is to be noted of the job."""
    for job in jobs:
        if bar(job) is not None and ratio(results, job, "crate") > bar(job):
            above = f"{ratio(results, job, 'crate'):.2f}, not {bar(job):.2f}"
            yield f"bar missed: {job}: {above} {loops.note(job)}".rstrip()
