"""bin/note web: opens a note in the browser."""
import asyncio
import contextlib
import html
import os
import pathlib
import sys
import webbrowser
from collections.abc import Iterator

from share.editors.web import guard, remembered
from share.editors.web.server import Commands, Page, serve_page
from share.engine.server import run_folder
from share.log.folder import make_folder

# A browser that has a window of its own. One in the terminal would be of no use.
WINDOWS = ("DISPLAY", "WAYLAND_DISPLAY", "BROWSER")
REDIRECT = """\
<!DOCTYPE html>
<meta charset="utf-8">
<meta name="referrer" content="no-referrer">
<meta http-equiv="refresh" content="0; url={address}">
<title>{name}</title>
<a href="{address}">{name}</a>
"""


@contextlib.contextmanager
def redirect(name: str, port: int, secret: str) -> Iterator[pathlib.Path]:
    """A file for this account alone that leads a browser to the page. So the secret is in no command line, which every
    account may see."""
    folder = run_folder()
    make_folder(folder)
    os.chmod(folder, 0o700)
    path = folder / f"{name}.{port}.html"
    with contextlib.suppress(FileNotFoundError):
        path.unlink()
    address = f"{guard.origin(port)}/#{secret}"
    file = os.open(path, os.O_WRONLY | os.O_CREAT | os.O_EXCL | os.O_NOFOLLOW | os.O_CLOEXEC, 0o600)
    with open(file, "w", encoding="utf-8") as out:
        out.write(REDIRECT.format(address=html.escape(address), name=html.escape(name)))
    try:
        yield path
    finally:
        with contextlib.suppress(FileNotFoundError):
            path.unlink()


def opens_a_browser(path: pathlib.Path) -> bool:
    """Opens a file in the user's browser; whether there is one."""
    if not any(os.environ.get(variable) for variable in WINDOWS) and sys.platform != "darwin":
        return False
    with contextlib.suppress(webbrowser.Error, OSError):
        return webbrowser.open(path.as_uri())
    return False


def serve_note(name: str, commands: Commands, user: str, browses: bool) -> None:
    """Serves the note's page until the user ends it, who is called so at first."""
    secret = guard.new_secret()
    with remembered.place(name) as place:
        page = Page(name, place.socket.getsockname()[1], secret, place.key, commands, user)
        with redirect(name, page.port, secret) as path:
            asyncio.run(serve_page(page, place.socket, lambda: _show(name, path, browses)))


def _show(name: str, path: pathlib.Path, browses: bool) -> None:
    found = browses and opens_a_browser(path)
    where = f"{name} is open in the browser, by {path}" if found else f"Open this file in a browser: {path}"
    print(f"{where}\nCtrl-C ends it; what is typed is kept.", flush=True)
