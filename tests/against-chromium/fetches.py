"""A fetch in Chromium, and what reached the renderer of its response."""
from dataclasses import dataclass, replace

import actions
from comparison import response_text
from sightings import Request

# How long to wait for the rest of a no-cors body after fetch() has answered.
REST_SECONDS = 10.0


@dataclass
class Fetched:
    """What Chromium did at a fetch: the answer of fetch() itself, and the request as DevTools saw it (None for none).
    `lost` says that its redirects already differed, so that further ones are left out."""
    mode: str
    answer: dict
    request: Request | None
    hops: int = 0
    lost: bool = False

    def is_nothing(self):
        """Whether nothing came of it."""
        return "error" in self.answer

    def is_whole(self):
        """Whether all of the response came. The end of an opaque one is that of its reader, and tells nothing."""
        if "error" in self.answer or not self.request:
            return False
        return self.answer["type"] != "opaque" or not self.request.is_bare and is_full(self.request)

    def text(self):
        """As a comparison tells it. The body of a response that is not opaque is what the script read."""
        content = self.request.content if self.request else b""
        if self.answer.get("type", "opaque") != "opaque":
            content = bytes.fromhex(self.answer["body"])
        return response_text(self.is_whole(), content, len(self.request.urls) - 1 if self.request else 0)


def perform(browser, frame, action, is_url):
    """Fetches from a frame's document, and waits until the response has come as far as it comes."""
    if not is_url:
        return Fetched(action["mode"], {"error": "no URL"}, None)
    before = set(browser.seen.requests)
    answer = browser.evaluate(frame, actions.fetch(action))
    wanted = action["url"].split("#")[0]

    def found():
        for number, request in browser.seen.requests.items():
            if number not in before and request.kind == "Fetch" and request.urls[0].split("#")[0] == wanted:
                return request
        return None

    request = browser.until(found, REST_SECONDS if "error" not in answer else 0.5)
    if request and "error" not in answer:
        browser.until(lambda: request.finished or request.failure or request.is_bare or is_full(request), REST_SECONDS)
    held = replace(request) if request else None
    browser.evaluate(frame, actions.STOP)
    return Fetched(action["mode"], answer, held)


def is_full(request):
    """Whether as many bytes came as the response tells."""
    return request.wanted is not None and len(request.content) >= request.wanted
