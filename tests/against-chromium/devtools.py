"""The DevTools protocol over a pair of pipes: calls with a time limit, and events as they come."""
import json
import os
import select
import time


class BrowserGone(Exception):
    """The browser closed its pipe."""


class CallFailed(Exception):
    """A call was answered with an error, or not in time."""


class Connection:
    """One pipe to a browser and one from it. Messages are JSON, with a zero byte behind each."""

    def __init__(self, write_end, read_end, on_event):
        self.write_end, self.read_end, self.on_event = write_end, read_end, on_event
        self.received = b""
        self.last_id = 0
        self.answers = {}
        self.waited_for = set()
        self.receivers = {}

    def send(self, method, parameters=None, session=None, receiver=None):
        """Sends a call without waiting for its answer, and gives its number. `receiver` gets the result, if one comes."""
        self.last_id += 1
        if receiver:
            self.receivers[self.last_id] = receiver
        message = {"id": self.last_id, "method": method, "params": parameters or {}}
        if session:
            message["sessionId"] = session
        rest = json.dumps(message).encode() + b"\0"
        try:
            while rest:
                rest = rest[os.write(self.write_end, rest):]
        except OSError as error:
            raise BrowserGone(str(error)) from error
        return self.last_id

    def call(self, method, parameters=None, session=None, timeout=20.0):
        """The result of a call. CallFailed where it is an error, or doesn't come within `timeout` seconds."""
        number = self.send(method, parameters, session)
        self.waited_for.add(number)
        try:
            if not self.until(lambda: number in self.answers, timeout):
                raise CallFailed(f"{method} was not answered in time")
        finally:
            self.waited_for.discard(number)
        answer = self.answers.pop(number)
        if "error" in answer:
            raise CallFailed(f"{method}: {answer['error'].get('message', '')}")
        return answer.get("result", {})

    def until(self, wanted, timeout):
        """What `wanted` gives, once that is true; None where it isn't within `timeout` seconds."""
        end = time.monotonic() + timeout
        while True:
            value = wanted()
            if value:
                return value
            left = end - time.monotonic()
            if left <= 0:
                return None
            self.pump(min(0.02, left))

    def settle(self, seconds):
        """Takes what comes for so long."""
        end = time.monotonic() + seconds
        while time.monotonic() < end:
            self.pump(max(0.0, min(0.02, end - time.monotonic())))

    def pump(self, wait):
        """Waits so long for bytes, and takes the messages that they end."""
        if not select.select([self.read_end], [], [], wait)[0]:
            return
        more = os.read(self.read_end, 1 << 20)
        if not more:
            raise BrowserGone("the browser closed its pipe")
        self.received += more
        *whole, self.received = self.received.split(b"\0")
        for text in whole:
            self._take(json.loads(text))

    def _take(self, message):
        if "id" not in message:
            self.on_event(message["method"], message["params"], message.get("sessionId"))
        elif message["id"] in self.waited_for:
            self.answers[message["id"]] = message
        elif message["id"] in self.receivers:
            receiver = self.receivers.pop(message["id"])
            if "result" in message:
                receiver(message["result"])

    def close(self):
        for end in (self.write_end, self.read_end):
            try:
                os.close(end)
            except OSError:
                pass
