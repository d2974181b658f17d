"""How a relay's page is answered. Nothing of a request but its path, as it is, chooses a file."""
import gzip
import re
from collections.abc import Awaitable, Callable, Collection, Mapping

from aiohttp import web

from share.relay.page_files import DIGESTS_FILE, PageFile, PageFiles
from share.relay.page_rules import EACH_TIME, file_rules

DIGESTS_ADDRESS = f"/{DIGESTS_FILE}"
ENTITY_TAG = re.compile(r'"[^"]*"')
Answering = Callable[[web.Request], Awaitable[web.StreamResponse]]


def add_page(router: web.UrlDispatcher, files: PageFiles, origins: Collection[str]) -> None:
    """Has the page's files be answered, and their digests."""
    for address, one in files.files.items():
        router.add_get(address, _answers_with(one, file_rules(address, one, origins)))
    router.add_get(DIGESTS_ADDRESS, _answers_with(PageFile("text/plain", files.digests().encode()), {"Cache-Control": EACH_TIME}))


def _answers_with(file: PageFile, rules: Mapping[str, str]) -> Answering:
    packed, digest = gzip.compress(file.data, mtime=0), file.digest()

    async def answer(request: web.Request) -> web.StreamResponse:
        is_packed = "gzip" in request.headers.get("Accept-Encoding", "")
        tag = f'"{digest}{"-gzip" if is_packed else ""}"'
        headers = {"ETag": tag, "Content-Type": file.media_type(), "Vary": "Accept-Encoding", **rules}
        if has_tag(request.headers.get("If-None-Match", ""), tag):
            return web.Response(status=304, headers=headers)
        if is_packed:
            headers["Content-Encoding"] = "gzip"
        return web.Response(body=packed if is_packed else file.data, headers=headers)

    return answer


def has_tag(given: str, tag: str) -> bool:
    """Whether who asks has what this tag names."""
    return given.strip() == "*" or tag in ENTITY_TAG.findall(given)
