"""By which rules browsers keep the files of a relay's page, and run them."""
from collections.abc import Collection, Mapping

from share.relay.page_files import FRONT_ADDRESS, PageFile, PageFiles

# What has another address when it changes is kept for good; else it is asked for each time whether it has changed.
FOR_GOOD, EACH_TIME = "public, max-age=31536000, immutable", "no-cache"
# What a relay says of all that it answers.
HEADERS = {"Cache-Control": "no-store", "X-Content-Type-Options": "nosniff", "Referrer-Policy": "no-referrer",
           "Cross-Origin-Resource-Policy": "same-origin"}


def page_rules(origins: Collection[str], runs: str = "'self'", types: str = "relay") -> Mapping[str, str]:
    """The headers by which a page runs its own files alone, and reaches the relay alone, which has these origins."""
    # An address of IPv6 can't be named there.
    sockets = " ".join(sorted(origin.replace("http", "ws", 1) for origin in origins if "[" not in origin))
    policy = ["default-src 'none'", f"script-src {runs}", "worker-src 'self'", "style-src 'self'", f"connect-src 'self' {sockets}".strip(),
              "img-src 'self'", "base-uri 'none'", "form-action 'none'", "frame-ancestors 'none'",
              "require-trusted-types-for 'script'", f"trusted-types {types}"]
    return {"Content-Security-Policy": "; ".join(policy), "X-Frame-Options": "DENY", "X-DNS-Prefetch-Control": "off",
            "Permissions-Policy": "camera=(), geolocation=(), microphone=(), payment=(), usb=()",
            "Cross-Origin-Opener-Policy": "same-origin"}


def file_rules(address: str, file: PageFile, origins: Collection[str]) -> Mapping[str, str]:
    """The headers of a file in which it differs from all that a relay answers. A page of texts runs the core besides."""
    is_of_texts = file.type == "text/html" and address != FRONT_ADDRESS
    kept = {"Cache-Control": EACH_TIME if address == FRONT_ADDRESS else FOR_GOOD}
    return {**kept, **page_rules(origins, "'self' 'wasm-unsafe-eval'", "relay page")} if is_of_texts else kept


def listed_headers(files: PageFiles, origins: Collection[str]) -> str:
    """What another server has to say of each file: its address, and below it its headers."""
    lines = list[str]()
    for address, one in sorted(files.files.items()):
        headers = {"Content-Type": one.media_type(), **HEADERS, **page_rules(origins), **file_rules(address, one, origins)}
        lines += [address, *(f"  {name}: {value}" for name, value in headers.items())]
    return "".join(f"{line}\n" for line in lines)
