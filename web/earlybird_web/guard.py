"""Who may ask: whoever knows the token, or where there is none this machine alone; and no page of another site."""
import hashlib
import hmac
import re

from .server import Fault

LOCAL = re.compile(r"(127\.0\.0\.1|localhost|\[::1\])(:[0-9]{1,5})?")
LEAST = 16  # characters of a token


def same(given, wanted):
    """Whether two texts are the same bytes, in a time that doesn't tell where they differ."""
    return hmac.compare_digest(hashlib.sha256(given).digest(), hashlib.sha256(wanted).digest())


def read_token(path):
    """The token of a file: its first line. OSError where it can't be read, ValueError where it is too short."""
    with open(path, encoding="utf-8") as file:
        token = file.readline(4096).strip()
    if len(token) < LEAST:
        raise ValueError("a token has at least %d characters" % LEAST)
    return token


def read_place(listen):
    """The host and the port of HOST:PORT. ValueError where it is of another form."""
    host, _, port = listen.rpartition(":")
    host = host.strip("[]")
    if not host or not (port.isascii() and port.isdigit() and len(port) < 6) or int(port) > 65535:
        raise ValueError("--listen takes HOST:PORT")
    return host, int(port)


def read_guarded(listen, token_file):
    """The host, the port and the token (None without a file) of a command's words. ValueError, with what is wrong, where others
    than this machine could ask without a token, or a word is of another form."""
    host, port = read_place(listen)
    if token_file:
        try:
            return host, port, read_token(token_file)
        except (OSError, ValueError) as fault:
            raise ValueError("--token-file: %s" % fault) from fault
    if host not in ("127.0.0.1", "localhost", "::1"):
        raise ValueError("--listen %s lets others ask: give a --token-file" % listen)
    return host, port, None


class Guard:
    """Tests requests. `who` is what a refusal says of the program, as `this console`."""

    def __init__(self, token, who):
        self._token = token and token.encode()
        self._who = who

    def stop_strangers(self, request):
        """Refuses a page of another site, whose browser runs here: it may neither send nor read. A link of it may open the page at `/`."""
        host = request.headers.get("host", "")
        if not self._token and not LOCAL.fullmatch(host.lower()):
            raise Fault(421, "%s answers for 127.0.0.1" % self._who)
        origin = request.headers.get("origin")
        if origin is not None and origin.partition("://")[2] != host:
            raise Fault(403, "%s takes nothing from pages of others" % self._who)
        if request.headers.get("sec-fetch-site", "none") not in ("none", "same-origin"):
            link = request.headers.get("sec-fetch-mode") == "navigate" and request.headers.get("sec-fetch-dest") == "document"
            if not (link and request.method == "GET" and request.path == "/"):
                raise Fault(403, "%s takes nothing from pages of others" % self._who)

    def is_token(self, given):
        """Whether these bytes are the token."""
        return same(given, self._token)

    def bears(self, request):
        """Whether a request has the token in its head, where one is needed."""
        if not self._token:
            return True
        given = request.headers.get("authorization", "")
        return given.lower().startswith("bearer ") and self.is_token(given[7:].strip().encode("latin-1"))
