"""Serves a script's resources on one port of loopback, http and https, for every host, by the Host header."""
import os
import socket
import ssl
import subprocess
import threading
import time

DOCUMENT = b"<!doctype html><title>document</title><body>document"
# What a navigation's answer may not have of its resource: the model commits every type, so each is served as HTML.
REPLACED_IN_DOCUMENTS = ("content-type", "x-content-type-options")
MAX_LINE = 65536
# How long a wire stands still before it fails, so that the bytes before the fault have come.
FAULT_SECONDS = 0.3


def make_certificate(room):
    """A certificate and key for this run alone, in the folder `room`."""
    certificate, key = os.path.join(room, "certificate.pem"), os.path.join(room, "key.pem")
    words = ["openssl", "req", "-x509", "-newkey", "ec", "-pkeyopt", "ec_paramgen_curve:prime256v1", "-nodes"]
    words += ["-keyout", key, "-out", certificate, "-days", "2", "-subj", "/CN=against-chromium"]
    subprocess.run(words, check=True, timeout=30, stdin=subprocess.DEVNULL, stdout=subprocess.DEVNULL,
                   stderr=subprocess.DEVNULL)
    return certificate, key


def body_of(resource):
    """The bytes of a resource's body."""
    if "body_hex" in resource:
        return bytes.fromhex(resource["body_hex"])
    return resource.get("body", "").encode()


class Server:
    """A server thread with a thread for each connection. `load` says which resources it has from then on."""

    def __init__(self, room):
        self.table = {}
        self.tls = ssl.SSLContext(ssl.PROTOCOL_TLS_SERVER)
        self.tls.load_cert_chain(*make_certificate(room))
        self.tls.set_alpn_protocols(["http/1.1"])
        self.socket = socket.socket()
        self.socket.bind(("127.0.0.1", 0))
        self.socket.listen(128)
        self.port = self.socket.getsockname()[1]
        threading.Thread(target=self._accept, daemon=True).start()

    def load(self, resources):
        """Serves these resources, by their URLs without fragment; every other URL is a 404."""
        self.table = {resource["url"].split("#")[0]: resource for resource in resources}

    def close(self):
        self.socket.close()

    def _accept(self):
        while True:
            try:
                connection, _ = self.socket.accept()
            except OSError:
                return
            threading.Thread(target=self._converse, args=(connection,), daemon=True).start()

    def _converse(self, connection):
        """Answers the requests of one connection, which is TLS where its first byte is that of a TLS record."""
        try:
            connection.settimeout(60)
            scheme = "http"
            if connection.recv(1, socket.MSG_PEEK) == b"\x16":
                connection, scheme = self.tls.wrap_socket(connection, server_side=True), "https"
            reader = connection.makefile("rb")
            while self._answer_one(connection, reader, scheme):
                pass
        except (OSError, ValueError):
            pass
        finally:
            try:
                connection.close()
            except OSError:
                pass

    def _answer_one(self, connection, reader, scheme):
        """Reads one request and answers it. Whether the connection goes on."""
        words = reader.readline(MAX_LINE).decode("latin1").split()
        if len(words) < 3:
            return False
        headers = read_headers(reader)
        resource = self.table.get(scheme + "://" + headers.get("host", "") + words[1], {"status": 404})
        if resource.get("fail_after") == 0:
            return False
        if is_navigation(headers):
            send_document(connection, resource)
            return True
        return send_body(connection, resource)


def read_headers(reader):
    """The header fields of a request, by names in lower case."""
    headers = {}
    while True:
        line = reader.readline(MAX_LINE).decode("latin1").rstrip("\r\n")
        if not line:
            return headers
        name, _, value = line.partition(":")
        headers[name.strip().lower()] = value.strip()


def is_navigation(headers):
    """Whether a request is for a document. Chromium sends Sec-Fetch-Dest to https alone."""
    if "sec-fetch-dest" in headers:
        return headers["sec-fetch-dest"] in ("document", "iframe")
    return "text/html" in headers.get("accept", "")


def head_bytes(resource, fields, length):
    """The head of an answer; no length is told for the statuses that have no body."""
    status = resource.get("status", 200)
    lines = [f"HTTP/1.1 {status} Status"] + [f"{name}: {value}" for name, value in fields]
    if status not in (204, 304):
        lines.append(f"Content-Length: {length}")
    lines.append("Cache-Control: no-store")
    return ("\r\n".join(lines) + "\r\n\r\n").encode("latin1")


def send_document(connection, resource):
    """Answers a navigation with the status and headers of its resource, as an HTML page."""
    fields = [(name, value) for name, value in resource.get("headers", []) if name.lower() not in REPLACED_IN_DOCUMENTS]
    fields.append(("Content-Type", "text/html; charset=utf-8"))
    body = b"" if resource.get("status") in (204, 304) else DOCUMENT
    connection.sendall(head_bytes(resource, fields, len(DOCUMENT)) + body)


def send_body(connection, resource):
    """Answers with a resource's own headers and body, in its pieces, up to its fault. Whether there was none."""
    body = b"" if resource.get("status") in (204, 304) else body_of(resource)
    fault = resource.get("fail_after")
    connection.sendall(head_bytes(resource, resource.get("headers", []), len(body)))
    sent = 0
    for cut in resource.get("cuts", []) + [len(body)]:
        end = cut if fault is None else min(cut, fault)
        if end > sent:
            connection.sendall(body[sent:end])
            sent = end
            time.sleep(0.002)
    if fault is not None:
        time.sleep(FAULT_SECONDS)
    return fault is None
