"""Scripts of any size for the benches: pages of several sites, each of which fetches, stores, posts and adds a frame."""
import json

# The lines of a page of its own, and of a round of its actions: three messages alone, and a fetch with its head, piece and end.
PAGE_LINES, FRAME_LINES, ROUND_LINES, MOST_ROUNDS = 3, 3, 7, 15


def script_of(lines):
    """A script whose history has about so many lines: pages of sites in turn, all of whose documents do the same rounds."""
    pages = -(-lines // (PAGE_LINES + FRAME_LINES + ROUND_LINES * MOST_ROUNDS))
    rounds = max(1, (lines // pages - PAGE_LINES - FRAME_LINES) // ROUND_LINES)
    starts, resources = [], []
    for page in range(pages):
        site, next_site = f"https://s{page % 4}.test", f"https://s{(page + 1) % 4}.test"
        actions = [{"do": "frame", "src": next_site + "/frame"}]
        for turn in range(rounds):
            actions += [
                {"do": "fetch", "url": f"{next_site}/image", "mode": "no-cors"},
                {"do": "ask", "service": "store", "request": f"set key{turn} value"},
                {"do": "ask", "service": "store", "request": f"get key{turn}"},
                {"do": "post", "frame": "self", "target": "*", "text": "done"},
            ]
        starts.append(f"{site}/page{page}")
        resources.append({"url": starts[-1], "actions": actions})
    for number in range(4):
        image = {"url": f"https://s{number}.test/image", "headers": [["Content-Type", "image/png"]], "body": "picture"}
        resources += [{"url": f"https://s{number}.test/frame"}, image]
    return json.dumps({"start": starts, "resources": resources}).encode()
