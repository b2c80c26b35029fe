"""Not proved (README.md). The map of a port: each line, field, class and operation of the text to the user's."""

import json

from .places import Place
from .port import Ported


def mapped(ported: Ported) -> dict[str, object]:
    """The map as it is written beside the text."""
    classes = {
        cls.name: {
            "is": cls.origin,
            "place": _shown(cls.place),
            "fields": {slot.name: slot.origin or slot.name for slot in cls.slots},
            "operations": {method.name: {"is": method.origin, "place": _shown(method.place)} for method in cls.methods},
        }
        for cls in ported.program.classes.values()
    }
    return {
        "files": ported.files,
        "lines": [_shown(place) for place in ported.text.places],
        "classes": classes,
        "prints": ported.sites.sites,
        "strings": ported.sites.strings,
    }


def _shown(place: Place) -> str | None:
    return str(place) if place.line else None


def text_of(ported: Ported) -> str:
    return json.dumps(mapped(ported), indent=1) + "\n"
