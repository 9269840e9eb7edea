"""The lanes of processes and the bars of requests, by the rows of a page that they go beside."""


def lanes_of(facts, row_of, final):
    """A lane for each process: from the row of its first line to that of its end, or to the final row."""
    lanes = []
    for process in facts.processes.values():
        end = process["end"]
        lanes.append({
            "number": process["process"], "first": row_of[process["line"]], "last": row_of[end["line"]] if end else final,
            "lock": None if process["lock_line"] is None else row_of[process["lock_line"]],
            "end": end["kind"] if end else None,
        })
    return lanes


def bars_of(facts, row_of, final):
    """A bar for each request: from the row of its message to that of its end, or to where its document goes."""
    bars = []
    for request in facts.requests.values():
        head, end = request["head"], request["end"]
        document = facts.navigations.get(request["document"])
        lost = document["gone_line"] if document and end is None else None
        line = end["line"] if end else lost
        bars.append({
            "number": request["request"], "first": row_of[request["line"]], "last": final if line is None else row_of[line],
            "head": row_of[head["line"]] if head else None, "hops": [row_of[hop["line"]] for hop in request["hops"]],
            "how": end["kind"] if end else "lost" if lost else "open",
            "allowed": head["rule"] if head else None, "refused": end["rule"] if end else None,
        })
    return bars
