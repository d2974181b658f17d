"""Places of a text by the names of characters, which stay as others change it."""
from share.program.site import Site
from share.text.names import Name, Names

FRONT: Name = (0, 0)


def name_before(site: Site, place: int) -> Name:
    """Return the name of the character before a place, FRONT at the front."""
    before = site.names(place - 1, place) if place else []
    return (before[0].site, before[0].at) if before else FRONT


def place_behind(site: Site, name: Name) -> int | None:
    """Return the place behind a character, if that is shown."""
    if name == FRONT:
        return 0
    shown = site.where([Names(*name, 1)])[0]
    return shown[0].position + 1 if shown else None
