"""Who is answered on the page's port, and with which rules for the browser.

Every account of the machine reaches the port, and so does any page that the browser has open. So nothing is answered
that isn't asked for by the address of this port itself, and nothing of a note before the secret was said. A page that was
open before the server's last end has another secret; it and the server show each other that they have a key, which neither says,
since whoever has the port meanwhile may be another one.
"""
import hashlib
import hmac
import secrets
from collections.abc import Mapping
from typing import Protocol

PAGE_SECRET_BYTES, PAGE_KEY_BYTES = 16, 32
ADDRESS = "127.0.0.1"


class Headers(Protocol):
    """A request's headers, each of which may come more than once."""

    def getall(self, name: str, default: list[str]) -> list[str]:
        """All values of one."""


def new_secret() -> str:
    """A secret that nobody guesses."""
    return secrets.token_hex(PAGE_SECRET_BYTES)


def new_page_key() -> str:
    """A key by which a page and its server know each other again, and the numbers that are used once with it."""
    return secrets.token_hex(PAGE_KEY_BYTES)


def proof(key: str, who: str, port: int, *nonces: str) -> str:
    """What shows that the page or the server has the key."""
    return hmac.new(key.encode(), " ".join([who, host(port), *nonces]).encode(), hashlib.sha256).hexdigest()


def is_secret(said: bytes, secret: str) -> bool:
    """Whether this is the secret."""
    return hmac.compare_digest(said, secret.encode())


def host(port: int) -> str:
    """What a request's Host has to be."""
    return f"{ADDRESS}:{port}"


def origin(port: int) -> str:
    """What a request's Origin has to be."""
    return f"http://{host(port)}"


def allows(headers: Headers, port: int, is_page: bool, is_socket: bool) -> bool:
    """Whether a request is answered: one for the page itself, which a browser comes to from outside; one for the
    WebSocket; or one for what belongs to the page."""
    if headers.getall("Host", []) != [host(port)]:
        return False
    origins, sites = headers.getall("Origin", []), headers.getall("Sec-Fetch-Site", [])
    if is_socket or origins:
        return origins == [origin(port)]
    if is_page:
        return headers.getall("Sec-Fetch-Dest", ["document"]) == ["document"]
    return sites in ([], ["same-origin"])


def rules(port: int) -> Mapping[str, str]:
    """The headers of all answers."""
    policy = ["default-src 'none'", "script-src 'self'", "style-src 'self'", f"connect-src ws://{host(port)}",
              "worker-src 'self'", "base-uri 'none'", "form-action 'none'", "frame-ancestors 'none'",
              "require-trusted-types-for 'script'", "trusted-types page"]
    return {"Content-Security-Policy": "; ".join(policy), "X-Content-Type-Options": "nosniff",
            "X-Frame-Options": "DENY", "Referrer-Policy": "no-referrer", "Cache-Control": "no-store",
            # A link that is shown has the browser look up no host.
            "X-DNS-Prefetch-Control": "off",
            "Cross-Origin-Opener-Policy": "same-origin", "Cross-Origin-Resource-Policy": "same-origin"}
