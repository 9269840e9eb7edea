"""Scripts that are made by number, for many workers to run."""
import random

SITES = ["a.com", "b.com", "c.org", "d.net"]
KINDS = ["text/html", "text/plain", "application/json", "image/png", "text/css", "text/javascript", "application/xml"]
BODIES = ["", "x", "hello world", "<html><p>", '{"a": 1}', "<?xml version", ")]}'1", "<!-- c --><script>", "0123456789" * 20]


LEAVES = ["p", "q"]


def url(chance, paths):
    """A URL of one of the sites."""
    host = chance.choice(SITES)
    scheme = "http" if chance.random() < 0.1 else "https"
    return f"{scheme}://{host}/{chance.choice(paths)}"


def frame_name(chance):
    return chance.choice(["self", "parent", "top", "opener", "child 0", "child 1"])


def forged(chance):
    """A forged message that begins no navigation."""
    claim = f"https://{chance.choice(SITES)}/"
    return chance.choice(
        [
            {"is": "fetch", "url": url(chance, LEAVES), "mode": "cors", "initiator": claim},
            {"is": "post", "frame": chance.randrange(6), "target": "*", "source": claim, "text": "forged"},
            {"is": "ask", "service": "store", "origin": claim, "request": "get k"},
            {"is": "commit", "nav": chance.randrange(6), "url": url(chance, LEAVES), "origin": claim},
        ]
    )


def quiet_action(chance):
    """An action that begins no navigation."""
    kind = chance.random()
    if kind < 0.45:
        return {"do": "fetch", "url": url(chance, LEAVES), "mode": chance.choice(["cors", "no-cors"])}
    if kind < 0.6:
        return {"do": "post", "frame": frame_name(chance), "target": chance.choice(["*", "/", "https://a.com/"]), "text": "hi"}
    if kind < 0.7:
        return {"do": "ask", "service": "store", "request": chance.choice(["set k v", "get k", "del k", "list"])}
    if kind < 0.88:
        return {"do": chance.choice(["wait", "recv"])}
    if kind < 0.92:
        return {"do": "crash"}
    return {"do": "raw", "message": forged(chance)}


def action(chance):
    """An action of a page: navigations lead to leaves, whose documents begin none, so every run is short."""
    kind = chance.random()
    if kind < 0.25:
        return {"do": "frame", "src": url(chance, LEAVES), "sandbox": chance.random() < 0.2}
    if kind < 0.35:
        return {"do": "navigate", "frame": frame_name(chance), "url": url(chance, LEAVES)}
    if kind < 0.42:
        return {"do": "page", "url": url(chance, LEAVES)}
    if kind < 0.47:
        return {"do": "remove", "child": chance.randrange(2)}
    return quiet_action(chance)


def resource(chance, address):
    """What the server of an address answers."""
    made = {"url": address, "body": chance.choice(BODIES)}
    headers = [["Content-Type", chance.choice(KINDS)]]
    if chance.random() < 0.3:
        headers.append(["Access-Control-Allow-Origin", chance.choice(["*", "https://a.com", "null"])])
    if chance.random() < 0.2:
        headers.append(["X-Content-Type-Options", "nosniff"])
    if chance.random() < 0.2:
        headers.append(["Cross-Origin-Resource-Policy", chance.choice(["same-site", "same-origin", "cross-origin"])])
    if chance.random() < 0.15:
        made["status"] = chance.choice([204, 206, 302, 307, 404])
        headers.append(["Location", url(chance, LEAVES)])
    made["headers"] = headers
    length = len(made["body"])
    if length > 1 and chance.random() < 0.5:
        made["cuts"] = sorted(chance.sample(range(1, length), min(3, length - 1)))
    if chance.random() < 0.1:
        made["fail_after"] = chance.randrange(length + 1)
    act = action if address.endswith("/") else quiet_action
    made["actions"] = [act(chance) for _ in range(chance.randrange(6))]
    return made


def script(number):
    """The script of a number."""
    chance = random.Random(number)
    pages = sorted({url(chance, [""]) for _ in range(3)})
    leaves = sorted({url(chance, LEAVES) for _ in range(7)})
    made = {
        "start": [chance.choice(pages) for _ in range(chance.randrange(1, 4))],
        "resources": [resource(chance, address) for address in pages + leaves],
    }
    if chance.random() < 0.3:
        made["spare"] = True
    if chance.random() < 0.3:
        made["soft_limit"] = chance.randrange(4)
    return made
