"""What a replay knows of frames, navigations and documents, by the numbers of the history."""
from dataclasses import dataclass, field


@dataclass
class Navigation:
    """`frame` is None where a forged message began it, so that Chromium has none. `mark` is how many documents the frame
    had shown before; `lost` says that it already differed, so that its further lines are left out."""
    frame: int | None
    url: str
    srcdoc: int | None = None
    is_first: bool = False
    mark: int = 0
    hops: int = 0
    process: int = -1
    site: str = ""
    lost: bool = False

    @property
    def is_web(self):
        return self.url.startswith(("http://", "https://"))


@dataclass
class Document:
    """A committed document: in the history, and in Chromium by its context and its process there (`place`). `early`
    messages came before it did; `expected` ones are the history's; `kept` are those that it had when its frame was
    navigated."""
    number: int
    frame: int
    url: str
    srcdoc: int | None
    origin: str
    process: int
    context: object
    place: int = -1
    early: int = 0
    taken: int = 0
    expected: list = field(default_factory=list)
    kept: list | None = None
    is_over: bool = False


class Frames:
    """Frames and navigations are numbered as the history numbers them: the start pages first, then as they are made."""

    def __init__(self, start):
        self.ids = {}
        self.parents = {}
        self.current = {}
        self.documents = {}
        self.fetches = []
        self.navigations = {number: Navigation(number, url, is_first=True) for number, url in enumerate(start)}
        self.frame_count = self.navigation_count = len(start)

    def add_frame(self, frame_id, parent):
        """Gives the next number to a frame of Chromium, or to one that a forged message made (None)."""
        number = self.frame_count
        self.frame_count += 1
        self.ids[number], self.parents[number] = frame_id, parent
        return number

    def add_navigation(self, navigation):
        number = self.navigation_count
        self.navigation_count += 1
        self.navigations[number] = navigation
        return number

    def page_of(self, frame):
        """The top frame of a frame's page."""
        while self.parents.get(frame) is not None:
            frame = self.parents[frame]
        return frame

    def below(self, frame):
        """A frame and its descendants."""
        found = [frame]
        for number in sorted(self.parents):
            if self.parents[number] in found:
                found.append(number)
        return found
