"""What a relay is told as it begins."""
import re
from collections.abc import Sequence
from dataclasses import dataclass, field

from share.format.link import GREATEST_PORT, LOOPBACK, url_of
from share.relay.limits import Limits
from share.text.errors import Trouble

LISTEN = re.compile(r"(?:(\[[0-9A-Fa-f:.]+\]|[A-Za-z0-9.-]*):)?([0-9]{1,5})")
DEFAULT_LISTEN = "127.0.0.1:7007"


@dataclass(frozen=True)
class RelayOptions:
    """Where it listens, as what it is reached, and what it takes."""

    listen: str = DEFAULT_LISTEN
    # Where links say that it is, and other pages whose browsers may come.
    urls: Sequence[str] = ()
    origins: Sequence[str] = ()
    certificate: str | None = None
    key: str | None = None
    # Whether a reverse proxy says from which address somebody comes.
    is_forwarded: bool = False
    limits: Limits = field(default_factory=Limits)

    def host_and_port(self) -> tuple[str, int]:
        """Where it listens."""
        found = LISTEN.fullmatch(self.listen)
        if not found or int(found[2]) > GREATEST_PORT:
            raise Trouble(f"{self.listen!r} isn't where a relay can listen. It is PORT, HOST:PORT or [HOST]:PORT.")
        return (found[1] or "127.0.0.1").strip("[]"), int(found[2])

    def own_origins(self, port: int) -> list[str]:
        """As what it is reached, by browsers' spelling: what it was told, or this machine's names."""
        if not self.urls:
            if self.host_and_port()[0] not in ("127.0.0.1", "::1", "localhost"):
                raise Trouble("A relay that others reach is told as what, by --url https://HOST, as links are to name it.")
            return [url_of(f"{'https' if self.certificate else 'http'}://{host}:{port}") for host in LOOPBACK]
        return [web_origin(url) for url in self.urls]

    def let_in(self, port: int) -> set[str]:
        """The pages whose browsers may come."""
        return {*self.own_origins(port), *map(web_origin, self.origins)}


def web_origin(given: str) -> str:
    """Where a page or a relay is, as browsers spell it."""
    if not given.lower().startswith(("https://", "http://")):
        raise Trouble(f"{given!r} isn't where a relay or a page is, as https://HOST.")
    return url_of(given)
