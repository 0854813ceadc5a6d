"""HTML that is put together so that a text is always escaped: what isn't `Html` is a text."""
import html


class Html(str):
    """A piece of HTML."""


def escaped(*pieces):
    """The pieces one after another; texts are escaped."""
    return Html("".join(piece if isinstance(piece, Html) else html.escape(str(piece)) for piece in pieces))


def tag(name, /, *pieces, **attributes):
    """An element with these pieces in it. An attribute that is None or False is left out. `aria_label` is `aria-label`, `class_` is `class`."""
    shown = []
    for key, value in attributes.items():
        key = key.rstrip("_").replace("_", "-")
        if value is True:
            shown.append(f" {key}")
        elif value is not None and value is not False:
            shown.append(f' {key}="{html.escape(str(value))}"')
    return Html(f"<{name}{''.join(shown)}>{escaped(*pieces)}</{name}>")


def void(name, /, **attributes):
    """An element that has no end, such as `input`."""
    return Html(tag(name, **attributes).removesuffix(f"</{name}>"))


def listed(items):
    """A list of these items, or nothing where there is none."""
    return tag("ul", *(tag("li", item) for item in items)) if items else Html("")


def table(heads, rows):
    """A table with a row of heads."""
    head = tag("thead", tag("tr", *(tag("th", cell, scope="col") for cell in heads)))
    return tag("table", head, tag("tbody", *(tag("tr", *(tag("td", cell) for cell in row)) for row in rows)))
