"""What a page lacks for those who don't see it, or see its colours less well: a list of checks of
its HTML and of its colours, which need no browser."""

import html.parser
import re
from collections.abc import Iterable, Iterator
from typing import NamedTuple

VOID = {"meta", "input", "br", "wbr", "img", "link", "hr"}
CONTRAST = {"text": 4.5, "sign": 3.0}  # the least that WCAG 2.1 asks for, at level AA
HEADINGS = ("h1", "h2", "h3", "h4", "h5", "h6")

# What a reader of screens stops at or names, by tag and by role.
NAMED_TAGS = {"a", "audio", "button", "input", "summary", "table", "th", "section", "fieldset"}
NAMED_ROLES = {"group", "img", "region"}
TOLD_INSIDE = {"a", "button", "summary", "th"}  # whose content is their name


class Element:
    """An element of a page, with what is in it."""

    def __init__(self, tag: str, attributes: dict[str, str], parent: "Element | None") -> None:
        self.tag, self.attributes, self.parent = tag, attributes, parent
        self.inside: list["Element | str"] = []

    def above(self) -> Iterator["Element"]:
        """The elements that it is in, from the innermost on."""
        it = self.parent
        while it is not None:
            yield it
            it = it.parent

    def below(self) -> Iterator["Element"]:
        """The elements in it, in the order of the page."""
        for it in self.inside:
            if isinstance(it, Element):
                yield it
                yield from it.below()

    def is_hidden(self) -> bool:
        """Whether it is not there for readers of screens."""
        return any(it.attributes.get("aria-hidden") == "true" or it.tag == "defs"
                   for it in (self, *self.above()))

    def text(self) -> str:
        """Its text, without what is hidden."""
        if self.is_hidden():
            return ""
        return "".join(it if isinstance(it, str) else it.text() for it in self.inside)

    def first(self, tag: str) -> "Element | None":
        """The first element of a tag in it."""
        return next((it for it in self.below() if it.tag == tag), None)

    def place(self) -> str:
        """Where it is, in words."""
        told = "".join(f" {key}={self.attributes[key]!r}" for key in ("class", "id", "role")
                       if key in self.attributes)
        return f"<{self.tag}{told}>"


class Tree(html.parser.HTMLParser):
    """A page as a tree of elements."""

    def __init__(self, text: str) -> None:
        super().__init__()
        self.top = self._at = Element("", {}, None)
        self.feed(text)

    def handle_starttag(self, tag: str, attrs: list[tuple[str, str | None]]) -> None:
        """Puts an element below the one that is open."""
        made = Element(tag, {key: value or "" for key, value in attrs}, self._at)
        self._at.inside.append(made)
        if tag not in VOID:
            self._at = made

    def handle_startendtag(self, tag: str, attrs: list[tuple[str, str | None]]) -> None:
        """The same of one that is closed at once."""
        self._at.inside.append(Element(tag, {key: value or "" for key, value in attrs}, self._at))

    def handle_endtag(self, tag: str) -> None:
        """Closes the element that is open."""
        self._at = self._at.parent or self.top

    def handle_data(self, data: str) -> None:
        """Puts text into the element that is open."""
        if self._at.tag not in ("script", "style"):
            self._at.inside.append(data)

    def of(self, *tags: str) -> list[Element]:
        """The elements of these tags."""
        return [it for it in self.top.below() if it.tag in tags]

    def by_id(self, name: str) -> Element | None:
        """The element of a name."""
        return next((it for it in self.top.below() if it.attributes.get("id") == name), None)


def name_of(element: Element, tree: Tree) -> str:
    """What a reader of screens calls an element."""
    told = element.attributes
    if "aria-labelledby" in told:
        named = (tree.by_id(name) for name in told["aria-labelledby"].split())
        return " ".join(it.text() for it in named if it).strip()
    if told.get("aria-label", "").strip():
        return told["aria-label"].strip()
    if element.tag == "input":
        label = next((it for it in element.above() if it.tag == "label"), None)
        return label.text().strip() if label else ""
    inner = {"table": "caption", "fieldset": "legend"}.get(element.tag)
    if inner:
        found = element.first(inner)
        return found.text().strip() if found else ""
    return element.text().strip() if element.tag in TOLD_INSIDE else ""


def unnamed(tree: Tree) -> Iterator[str]:
    """What should have a name and has none."""
    for it in tree.top.below():
        role = it.attributes.get("role", "")
        is_named = it.tag in NAMED_TAGS or role in NAMED_ROLES or "tabindex" in it.attributes
        if is_named and not it.is_hidden() and not name_of(it, tree):
            yield f"{it.place()} has no name"
        if it.tag == "svg" and not _is_told(it):
            yield f"{it.place()} is a picture without a word"


def _is_told(picture: Element) -> bool:
    """Whether a picture has a role and a name, is hidden, or is a part of one that has."""
    return picture.is_hidden() or any(
        it.attributes.get("role") == "img" and it.attributes.get("aria-label", "").strip()
        for it in (picture, *picture.above()))


def wrong_headings(tree: Tree) -> Iterator[str]:
    """Headings that are not one above all, or that skip a level."""
    levels = [HEADINGS.index(it.tag) + 1 for it in tree.of(*HEADINGS)]
    if levels.count(1) != 1 or levels[:1] != [1]:
        yield f"headings of level 1: {levels.count(1)}"
    for one, two in zip(levels, levels[1:]):
        if two > one + 1:
            yield f"a heading of level {two} follows one of level {one}"


def wrong_names(tree: Tree) -> Iterator[str]:
    """Names that stand twice, or that are referred to and are not there."""
    ids = [it.attributes["id"] for it in tree.top.below() if "id" in it.attributes]
    yield from (f"id {it} stands twice" for it in sorted(set(ids)) if ids.count(it) > 1)
    for it in tree.top.below():
        for key in ("aria-labelledby", "aria-describedby"):
            for name in it.attributes.get(key, "").split():
                if name not in ids:
                    yield f"{it.place()} refers to {name}, which is not there"
        if it.tag == "a" and it.attributes.get("href", "").startswith("#"):
            if it.attributes["href"][1:] not in ids:
                yield f"{it.place()} leads to {it.attributes['href']}, which is not there"


def wrong_frame(tree: Tree) -> Iterator[str]:
    """What a page has to have as a whole."""
    page = tree.of("html")[0]
    if not page.attributes.get("lang"):
        yield "the page has no language"
    for tag, above in (("title", "head"), ("header", "body"), ("main", "body")):
        found = [it for it in tree.of(tag) if it.parent and it.parent.tag == above]
        if len(found) != 1 or not found[0].text().strip():
            yield f"the page has no {tag}, or more than one"
    if not any(it.attributes.get("name") == "viewport" for it in tree.of("meta")):
        yield "the page says nothing of its width"


def wrong_order(tree: Tree) -> Iterator[str]:
    """What makes the order of keys another one than that of the page, or stands out of their
    reach."""
    for it in tree.top.below():
        index = it.attributes.get("tabindex", "0")
        if index != "0":
            yield f"{it.place()} has a place of its own in the order of keys: {index}"
        if "onclick" in it.attributes:
            yield f"{it.place()} is pressed by a mouse alone"
        if it.tag == "th" and "scope" not in it.attributes:
            yield f"{it.place()} does not say what it heads"
    for it in tree.top.below():
        words = it.attributes.get("class", "").split()
        if "scroll" in words and it.attributes.get("tabindex") != "0":
            yield f"{it.place()} can't be scrolled by keys"


def wrong_of(text: str) -> list[str]:
    """What is wrong with a page."""
    tree = Tree(text)
    checks = (unnamed, wrong_headings, wrong_names, wrong_frame, wrong_order)
    return [told for check in checks for told in check(tree)]


# Colours.


class Rule(NamedTuple):
    """A rule of a style sheet: its selectors, and what it says."""

    selectors: str
    says: dict[str, str]


def rules_of(style: str) -> Iterator[Rule]:
    """The rules of a style sheet, those within conditions too."""
    bare = re.sub(r"/\*.*?\*/", "", style, flags=re.S)
    for selectors, body in re.findall(r"([^{};]+)\{([^{}]*)\}", bare):
        says = (it.partition(":") for it in body.split(";") if ":" in it)
        yield Rule(selectors.strip(), {key.strip(): value.strip() for key, _, value in says})


def schemes_of(style: str) -> dict[str, dict[str, str]]:
    """The colours by their names, in the light and in the dark."""
    told = [{key: value for key, value in rule.says.items() if key.startswith("--")}
            for rule in rules_of(style) if rule.selectors == ":root"]
    light, dark = told
    return {"light": light, "dark": {**light, **dark}}


def luminance(colour: str) -> float:
    """The relative luminance of a colour such as #1f2328, as WCAG has it."""
    parts = [int(colour[at : at + 2], 16) / 255 for at in (1, 3, 5)]
    linear = [it / 12.92 if it <= 0.04045 else ((it + 0.055) / 1.055) ** 2.4 for it in parts]
    return 0.2126 * linear[0] + 0.7152 * linear[1] + 0.0722 * linear[2]


def contrast(one: str, two: str) -> float:
    """The contrast of two colours, from 1 to 21."""
    dark, light = sorted((luminance(one), luminance(two)))
    return (light + 0.05) / (dark + 0.05)


def low_contrasts(style: str, pairs: Iterable[tuple[str, str, str]]) -> Iterator[str]:
    """Of pairs of names of colours, each with what the first one is of, those whose contrast is too
    low in a scheme."""
    for scheme, colours in schemes_of(style).items():
        for kind, over, ground in pairs:
            found = contrast(colours[over], colours[ground])
            if found < CONTRAST[kind]:
                yield f"{scheme}: {over} on {ground} has {found:.2f}, and {kind} wants" \
                      f" {CONTRAST[kind]}"
