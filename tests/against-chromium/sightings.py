"""What DevTools tells of a browser: its targets, frames, documents, requests and held navigations."""
import base64
from dataclasses import dataclass, field


@dataclass(frozen=True)
class Context:
    """The main world of a frame's document."""
    session: str
    id: str


@dataclass(frozen=True)
class Held:
    """A navigation's response that waits for leave."""
    frame: str
    url: str
    session: str
    request: str


@dataclass
class Request:
    """A request and what came of it. `content` has the bytes that reached the renderer, `wanted` is how many the response
    tells of, and `is_bare` says that it has no header fields, which is so where read blocking keeps it back."""
    id: str
    session: str
    urls: list = field(default_factory=list)
    kind: str = ""
    frame: str = ""
    status: int = 0
    length: int = 0
    content: bytes = b""
    failure: str = ""
    blocked: str = ""
    cors: str = ""
    finished: bool = False
    wanted: int | None = None
    is_bare: bool = False

    def take_buffered(self, result):
        """The bytes that had come before the content was asked for stand before those that came since."""
        self.content = base64.b64decode(result.get("bufferedData", "")) + self.content


class Sightings:
    """The state that events come to. `on_target` is told of new sessions, `on_response` of each response to a fetch."""

    def __init__(self, on_target, on_response):
        self.on_target, self.on_response = on_target, on_response
        self.sessions = {}
        self.contexts = {}
        self.parents = {}
        self.attached = []
        self.documents = {}
        self.requests = {}
        self.held = []
        self.crashed = set()

    def forget(self):
        """Before a script: what was seen of the one before it no longer counts."""
        self.requests.clear()
        self.attached.clear()
        self.held.clear()
        self.documents.clear()

    def forget_children(self, frame):
        """A frame's document has just begun, so it has no children; of the old ones' end DevTools doesn't always tell."""
        for child in [child for child, parent in self.parents.items() if parent == frame]:
            del self.parents[child]

    def take(self, method, parameters, session):
        """An event. Those that nothing here needs are passed over."""
        domain, name = method.split(".")
        if domain == "Network":
            self._take_network(name, parameters, session)
        else:
            taker = getattr(self, f"_{domain}_{name}", None)
            if taker:
                taker(parameters, session)

    def _Target_attachedToTarget(self, parameters, _session):
        self.sessions[parameters["sessionId"]] = parameters["targetInfo"]
        self.on_target(parameters["sessionId"])

    def _Target_detachedFromTarget(self, parameters, _session):
        self.sessions.pop(parameters["sessionId"], None)

    def _Inspector_targetCrashed(self, _parameters, session):
        self.crashed.add(session)

    def _Fetch_requestPaused(self, parameters, session):
        self.held.append(Held(parameters["frameId"], parameters["request"]["url"].split("#")[0], session,
                              parameters["requestId"]))

    def _Runtime_executionContextCreated(self, parameters, session):
        context = parameters["context"]
        if context.get("auxData", {}).get("isDefault"):
            self.contexts[context["auxData"]["frameId"]] = Context(session, context["uniqueId"])

    def _Runtime_executionContextDestroyed(self, parameters, session):
        gone = Context(session, parameters.get("executionContextUniqueId"))
        for frame in [frame for frame, context in self.contexts.items() if context == gone]:
            del self.contexts[frame]

    def _Page_frameAttached(self, parameters, _session):
        self.parents[parameters["frameId"]] = parameters["parentFrameId"]
        self.attached.append(parameters["frameId"])

    def _Page_frameDetached(self, parameters, _session):
        if parameters.get("reason") == "remove":
            self.parents.pop(parameters["frameId"], None)
            self.contexts.pop(parameters["frameId"], None)

    def _Page_frameNavigated(self, parameters, _session):
        frame = parameters["frame"]
        self.documents.setdefault(frame["id"], []).append(frame)

    def _take_network(self, name, parameters, session):
        if "requestId" not in parameters:
            return
        number = parameters["requestId"]
        request = self.requests.setdefault(number, Request(number, session))
        if name == "requestWillBeSent":
            request.urls.append(parameters["request"]["url"] + parameters["request"].get("urlFragment", ""))
            request.kind, request.frame = parameters.get("type", ""), parameters.get("frameId", "")
        elif name == "responseReceived":
            request.status = parameters["response"]["status"]
            request.wanted = told_length(parameters["response"]["headers"])
            request.is_bare = not parameters["response"]["headers"]
            if request.kind == "Fetch":
                self.on_response(request)
        elif name == "dataReceived":
            request.length += parameters["dataLength"]
            request.content += base64.b64decode(parameters.get("data", ""))
        elif name == "loadingFinished":
            request.finished = True
        elif name == "loadingFailed":
            request.failure = parameters.get("errorText", "") or "failed"
            request.blocked = parameters.get("blockedReason", "")
            request.cors = (parameters.get("corsErrorStatus") or {}).get("corsError", "")

    def held_response(self, frame, url):
        """The held response of a frame's navigation to this URL, if there is one."""
        return next((held for held in self.held if held.frame == frame and held.url == url), None)

    def navigations(self, frame):
        """The requests for documents of a frame."""
        return [request for request in self.requests.values() if request.frame == frame and request.kind == "Document"]


def told_length(headers):
    """The length that a response tells of its body."""
    for name, value in headers.items():
        if name.lower() == "content-length" and value.isdigit():
            return int(value)
    return None
