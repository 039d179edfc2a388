"""The trees of documents that come: XML without a document type, whose names are compared by their local part."""

from __future__ import annotations

import xml.etree.ElementTree as ElementTree
from typing import Union

from .errors import NoReply


def parsed(text: Union[str, bytes], came: bytes) -> ElementTree.Element:
    mark, kind = ("<!DOCTYPE", "a document type") if isinstance(text, str) else (b"<!DOCTYPE", "a document type")
    if mark in text:  # type: ignore[operator]
        raise NoReply(kind, came)
    try:
        return ElementTree.fromstring(text)
    except (ElementTree.ParseError, ValueError, LookupError) as failure:
        raise NoReply(f"it isn't XML, {failure}", came) from failure


def local(element: ElementTree.Element) -> str:
    return element.tag.rpartition("}")[2]


def only(element: ElementTree.Element, name: str, came: bytes) -> ElementTree.Element:
    """The one child element of this name."""
    found = [child for child in element if local(child) == name]
    if len(found) != 1:
        raise NoReply(f"{len(found)} elements {name} in {local(element)}", came)
    return found[0]


def text_in(element: ElementTree.Element, came: bytes) -> str:
    if len(element):
        raise NoReply(f"an element in {local(element)}", came)
    return element.text or ""


def below(element: ElementTree.Element, *path: str) -> list[ElementTree.Element]:
    """All elements to which a path of names leads."""
    found = [element]
    for name in path:
        found = [child for parent in found for child in parent if local(child) == name]
    return found
