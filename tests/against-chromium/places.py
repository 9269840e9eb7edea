"""In which process Chromium has a document, and what that process is locked to, from chrome://process-internals."""
from dataclasses import dataclass

# How long the tree is waited for to show a frame.
PATIENCE = 10.0


@dataclass(frozen=True)
class Place:
    process: int
    lock: str
    is_sandbox: bool


NOWHERE = Place(-1, "not found", False)


class Places:
    """Finds frames in the trees of process-internals: a page by a title that it is given, a frame by its place there."""

    def __init__(self, browser, frames):
        self.browser, self.frames = browser, frames
        self.titled = {}
        self.sandboxes = []

    def look_for(self, document):
        """The place of a document's frame."""
        page = self.frames.page_of(document.frame)
        self._give_title(page)
        found = self.browser.until(lambda: self._nodes(page, document.frame), PATIENCE)
        if not found:
            return NOWHERE
        place = place_of(*found)
        if place.is_sandbox:
            self.sandboxes.append(document.number)
        return place

    def _give_title(self, page):
        """The title of a page goes with its document."""
        document = self.frames.current.get(page)
        if document and self.titled.get(page) is not document:
            self.browser.evaluate_in(document.context, f"document.title = '{title_of(page)}'")
            self.titled[page] = document

    def _nodes(self, page, frame):
        """The node of a frame, and those of all frames; None where it isn't there yet."""
        trees = self.browser.frame_trees()
        node = None
        for seen in trees:
            if seen["title"] == title_of(page):
                node = self._walk(seen["rootFrame"], self._path(frame))
        return node and (node, [other for seen in trees for other in all_nodes(seen["rootFrame"])])

    def _path(self, frame):
        """The places among their siblings of a frame and those above it, from the top down."""
        path, seen, frame_id = [], self.browser.seen, self.frames.ids[frame]
        while frame_id in seen.parents:
            parent = seen.parents[frame_id]
            siblings = [other for other in dict.fromkeys(seen.attached) if seen.parents.get(other) == parent]
            path.insert(0, siblings.index(frame_id))
            frame_id = parent
        return path

    @staticmethod
    def _walk(node, path):
        for place in path:
            if place >= len(node["subframes"]):
                return None
            node = node["subframes"][place]
        return node


def title_of(page):
    return f"page {page}"


def all_nodes(node):
    """A node and all below it."""
    return [node] + [other for below in node["subframes"] for other in all_nodes(below)]


def place_of(node, nodes):
    """The process of a node and its lock. Of a data: document its own site is told, in place of the lock of the process
    that it shares; so that lock is read off the other documents there."""
    process = node["processId"]
    locks = [lock_of(other) for other in [node] + nodes if other["processId"] == process]
    lock = next((lock for lock in locks if not lock.startswith("data:")), "data:")
    return Place(process, lock, node["siteInstance"]["isSandboxForIframes"])


def lock_of(node):
    instance = node["siteInstance"]
    if not instance["locked"]:
        return "none"
    return (instance["processLockUrl"] or instance["siteUrl"] or "").rstrip("/")
