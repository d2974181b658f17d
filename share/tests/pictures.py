"""Makes the pictures of docs/ that have remarks in the page, and those of a relay's page, at a desk and on a phone:
python3 -m share.tests.pictures"""
import base64
import os
import pathlib
import tempfile
from contextlib import ExitStack, closing

from share.editors.mirror import Mirror
from share.tests.browser import MIRROR, Browser, Window
from share.tests.editors import Editor
from share.tests.pages import Server
from share.tests.relays import RelayHere
from share.tests.support import TOP, Person, wait_for

NOTE_NAME, DOCS = "picnic", TOP / "docs"
TEXT = """# Picnic

We meet by the mill on Saturday at ten, and walk along
the river to the lake.

- bread and cheese (Ada)
- a cake (Bob)
- the big blanket

If it rains we take the bus to the museum, which is open
until six. Dogs are welcome, and so are children.
"""
DESK, PHONE, WIDE_DESK = (1000, 520), (390, 760), (1_280, 800)


def editor(data: pathlib.Path, name: str, **opened: str) -> Editor:
    """An editor of somebody's."""
    one = Editor(data, NOTE_NAME, opens=False, **opened)
    one.mirror = Mirror(one.ask("open", protocol=1, units=["utf-16"], name=name), one.send)
    one.gets_number()
    return one


def says(one: Editor, what: str, words: str, **more: str) -> str:
    """Remarks on words of the text, or suggests others for them; the thread."""
    begin = one.text.index(words)
    answer = one.ask(what, version=one.mirror.version, begin=begin, end=begin + len(words), **more)
    return str(answer["thread"])


def reviewed(ada: Editor, bob: Editor) -> None:
    """Has both write what is seen."""
    ada.type(TEXT)
    ada.settle()
    bob.wait_for(lambda: bob.text == TEXT, "the text")
    thread = says(ada, "remark", "the mill", body="The old one or the new one?")
    says(bob, "suggest", "at ten", new="at eleven", body="The bus is there at a quarter to eleven.")
    says(ada, "remark", "the big blanket", body="Who has it?")
    says(ada, "suggest", "the museum", new="the town hall")
    wait_for(lambda: "error" not in bob.ask("reply", to=thread, body="The old one, behind the church."), "the remark")


def picture(window: Window, name: str, size: tuple[int, int], words: str) -> None:
    """Makes a picture in which a thread is looked at."""
    sized(window, size)
    card = "[...document.querySelectorAll('.card')].find((one) => one.textContent.includes(FOR))?.firstChild.firstChild"
    window.wait_for(card.replace("FOR", "words[0]"), words)
    window.run(card.replace("FOR", "arguments[0]"), words).click()
    window.wait_for("document.querySelector('.card.active')?.textContent.includes(words[0])", words)
    keep(window, name)


def sized(window: Window, size: tuple[int, int]) -> None:
    """Gives a window a size, as a phone's where it is one."""
    window.command("Emulation.setDeviceMetricsOverride", width=size[0], height=size[1], deviceScaleFactor=1, mobile=size is PHONE)


def keep(window: Window, name: str) -> None:
    """Keeps what a window shows as a picture."""
    (DOCS / name).write_bytes(base64.b64decode(window.command("Page.captureScreenshot")["data"]))


def at_relay(folder: pathlib.Path) -> None:
    """Makes the pictures of a relay's page, at which somebody else is on."""
    with closing(RelayHere(folder / "kept")) as relay, closing(Browser(*WIDE_DESK)) as browser:
        window = browser.window()
        window.driver.get(relay.url)
        window.wait_for("!document.getElementById('front').hidden")
        window.element("#your-name").send_keys("Ada\n")
        window.element("#name").send_keys(NOTE_NAME)
        window.element("#make button").click()
        window.wait_for("document.getElementById('address').value")
        link = window.run("document.getElementById('address').value")
        window.press("text")
        window.wait_for("document.title !== 'Note'")
        window.run(f"{MIRROR}.focus()")
        window.paste(TEXT)
        window.state("all sent")
        with closing(Editor(folder / "bob", NOTE_NAME, link=link, opens=False)) as bob:
            bob.mirror = Mirror(bob.ask("open", protocol=1, units=["utf-16"], name="Bob"), bob.send)
            bob.shows(TEXT)
            bob.send({"do": "cursor", "version": bob.mirror.version, "at": TEXT.index("the lake")})
            window.wait_for("document.querySelector('.caret.moved')")
            for size, name in (WIDE_DESK, "relay.png"), (PHONE, "relay-phone.png"):
                sized(window, size)
                keep(window, name)


def main() -> None:
    """Makes all."""
    with tempfile.TemporaryDirectory() as name:
        at_relay(pathlib.Path(name))
    os.environ |= {"VIALSHOAL_FORM": "2", "VIALSHOAL_ZERO_BITS": "0"}
    with tempfile.TemporaryDirectory() as name, ExitStack() as stack:
        folder = pathlib.Path(name)
        with closing(editor(folder / "ada", "Ada", log=str(folder / "log"))) as ada:
            bob = stack.enter_context(closing(editor(folder / "bob", "Bob", link=Person(folder / "ada").link(NOTE_NAME))))
            reviewed(ada, bob)
        server = stack.enter_context(closing(Server(folder / "ada", "--no-browser", name=NOTE_NAME, VIALSHOAL_NAME="Ada")))
        window = stack.enter_context(closing(Browser(*DESK))).open(server.path)
        picture(window, "review.png", DESK, "The old one or the new one?")
        picture(window, "review-phone.png", PHONE, "a quarter to eleven")


if __name__ == "__main__":
    main()
