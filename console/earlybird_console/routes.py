"""What each path answers, and who may ask."""
import asyncio
import os
import secrets
import urllib.parse

from earlybird_web.guard import Guard, same
from earlybird_web.server import Fault

from .answers import Answers
from .events import Streams
from .metrics import KIND, metrics
from .posts import Posts
from .queries import Refused

FOLDER = os.path.join(os.path.dirname(os.path.abspath(__file__)), "page")
KINDS = {".html": "text/html; charset=utf-8", ".css": "text/css; charset=utf-8", ".js": "text/javascript; charset=utf-8", ".svg": "image/svg+xml"}
COOKIE = "earlybird-console"


def page_files():
    """The page's files by their paths."""
    files = {}
    for name in sorted(os.listdir(FOLDER)):
        kind = KINDS.get(os.path.splitext(name)[1])
        if kind:
            with open(os.path.join(FOLDER, name), "rb") as file:
                files["/" if name == "index.html" else "/" + name] = (kind, file.read())
    return files


class Routes:
    """The requests of a console. Without a token it is asked by this machine alone, and by no page of another."""

    def __init__(self, console, token):
        self._console = console
        self._guard, self._token = Guard(token, "this console"), token
        self._cookie = secrets.token_urlsafe(24)
        self._files = page_files()
        self.server = None
        self.streams = Streams(console, self._told)
        answers, posts = Answers(console), Posts(console)
        self._routes = {
            ("/search", "GET"): answers.search, ("/histogram", "GET"): answers.histogram, ("/fields", "GET"): answers.fields,
            ("/values", "GET"): answers.values, ("/context", "GET"): answers.context, ("/export", "GET"): answers.export,
            ("/events", "GET"): self.streams.answer, ("/figures", "GET"): self._figures, ("/metrics", "GET"): self._metrics,
            ("/messages", "POST"): posts.messages, ("/watches", "POST"): posts.add_watch, ("/watches/", "DELETE"): posts.remove_watch,
        }

    async def handle(self, request):
        """Answers one request."""
        self._guard.stop_strangers(request)
        if request.path == "/token" and self._token:
            return await self._take_token(request)
        if self._token and not self._has_token(request):
            return await self._ask_for_token(request)
        if request.method in ("GET", "HEAD") and request.path in self._files:
            kind, data = self._files[request.path]
            return await request.answer(200, data, kind)
        path, _, number = request.path.partition("/watches/")
        route = ("/watches/" if number and not path else request.path), request.method
        if route not in self._routes:
            known = any(route[0] == path for path, _ in self._routes)
            raise Fault(405 if known else 404, "there is no %s %s" % (request.method[:20], request.path[:100]))
        try:
            return await self._routes[route](request)
        except Refused as refused:
            column = {} if refused.column is None else {"column": refused.column}
            raise Fault(503 if refused.name in ("busy", "missing") else 400, refused.name, why=refused.why, **column) from refused

    # who asks

    def _has_token(self, request):
        if self._guard.bears(request):
            return True
        cookies = (each.strip().partition("=") for each in request.headers.get("cookie", "").split(";"))
        return any(name == COOKIE and same(value.encode("latin-1"), self._cookie.encode()) for name, _, value in cookies)

    async def _ask_for_token(self, request):
        if request.method == "GET" and request.path == "/":
            kind, data = self._files["/token.html"]
            return await request.answer(401, data, kind, "WWW-Authenticate: Bearer\r\n")
        if request.path == "/console.css":
            return await request.answer(401, self._files[request.path][1], KINDS[".css"], "WWW-Authenticate: Bearer\r\n")
        raise Fault(401, "the token is needed")

    async def _take_token(self, request):
        given = urllib.parse.parse_qs(await request.body()).get("token", [""])[0] if request.method == "POST" else ""
        if not self._guard.is_token(given.strip().encode()):
            await asyncio.sleep(0.5)
            raise Fault(401, "this isn't the token")
        await request.answer(303, more="Location: /\r\nSet-Cookie: %s=%s; HttpOnly; SameSite=Strict; Path=/\r\n" % (COOKIE, self._cookie))

    # figures

    def _told(self):
        return {**self._console.told(), "connections": len(self.server.connections) if self.server else 0}

    async def _figures(self, request):
        await request.answer_json(200, self._told())

    async def _metrics(self, request):
        await request.answer(200, metrics(self._console, self.server).encode("utf-8", "replace"), KIND)
