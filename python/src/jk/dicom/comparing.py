"""What two DICOM files differ in, whichever form each has."""
from __future__ import annotations

import itertools
import warnings
from typing import Any, Dict, Iterator, List

import numpy as np
from pydicom.dataelem import DataElement_from_raw
from pydicom.dataset import Dataset
from pydicom.filereader import read_dataset

from .elements import OF_FRAGMENTS, in_words
from .pixels import Note
from .reading import Path, Source, opened

PHOTOMETRIC, PLANAR = 0x00280004, 0x00280006


def differences(one: Path, other: Path, note: Note = warnings.warn) -> List[str]:
    """How two files differ in samples or in elements, one line each; native and encoded ones are compared by what they
    mean. Not counted are transfer syntax, YBR_RCT in the place of RGB, Planar Configuration and groups' lengths."""
    with opened(one) as left, opened(other) as right:
        found = list(_of_elements(_elements(left), _elements(right)))
        if (left.pixels.shape, left.pixels.frames) != (right.pixels.shape, right.pixels.frames):
            return found + [f"Pixel Data: {left.pixels} and {right.pixels}"]
        each = zip(left.frames(note), right.frames(note))
        for number, (ours, theirs) in enumerate(each, 1):
            count = int(np.count_nonzero(ours != theirs))
            if count:
                found.append(f"Pixel Data: {count} of {ours.size} samples of frame {number}")
        return found


def _elements(source: Source) -> Dict[str, Any]:
    """The elements of a file, those behind Pixel Data among them, by their places: VR and bytes."""
    with in_words("compared"):
        return _listed(source)


def _listed(source: Source) -> Dict[str, Any]:
    found = dict(_flat(source.dataset, ""))
    behind = source.behind()
    if not isinstance(behind, Dataset):
        behind = read_dataset(behind, False, True)
    found.update(_flat(behind, ""))
    found.update(("file meta " + place, it) for place, it in _flat(source.dataset.file_meta, "")
                 if "(0002, 0000)" not in place and "(0002, 0010)" not in place)
    return found


def _flat(dataset: Dataset, place: str) -> Iterator[Any]:
    for tag in dataset.keys():
        if tag.element == 0 or not place and tag in OF_FRAGMENTS:
            continue
        element = dataset.get_item(tag)
        name = f"{place}{tag}"
        if element.is_raw and element.VR != "SQ":
            yield name, _meaning(int(tag) if not place else 0, element.VR, element.value or b"")
            continue
        if element.is_raw:
            element = DataElement_from_raw(element, dataset._character_set)
        if element.VR == "SQ":
            yield name, ("SQ", len(element.value))
            for number, item in enumerate(element.value):
                yield from _flat(item, f"{name}[{number}]")
        else:
            # Of an element without a value pydicom has bytes, text or nothing, by how it was read.
            is_empty = element.value is None or isinstance(element.value, str) and not element.value
            yield name, _meaning(int(tag) if not place else 0, element.VR, b"" if is_empty else element.value)


def _meaning(tag: int, vr: Any, values: Any) -> Any:
    """An element's VR and value, those alike that mean the same in both forms."""
    if vr == "CS":
        text = values.decode("latin-1") if isinstance(values, bytes) else values or ""
        text = (text if isinstance(text, str) else "\\".join(text)).strip(" \0")
        return str(vr), "RGB" if tag == PHOTOMETRIC and text == "YBR_RCT" else text
    return (str(vr), None) if tag == PLANAR else (str(vr), values)


def _of_elements(left: Dict[str, Any], right: Dict[str, Any]) -> Iterator[str]:
    for place in dict.fromkeys(itertools.chain(left, right)):
        if place not in left or place not in right:
            yield f"{place}: only in the {'first' if place in left else 'second'} file"
        elif left[place] != right[place]:
            yield f"{place}: {left[place][0]} and {right[place][0]}, or other bytes"
