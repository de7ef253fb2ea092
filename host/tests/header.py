"""Reads a C header of plain declarations, such as include/cauchy.h, for the tests that hold others to it. It uses the
standard library alone."""
import re
from typing import Any, Dict, List, Set, Tuple

Variables = List[Tuple[str, str]]  # fields or arguments, each a name and a type: "const double*", "double[3]"
_TYPE = r"(?:const )?\w+ ?\*?"


def header(text: str) -> Tuple[Dict[str, Tuple[Variables, str]], Dict[str, Variables], List[Dict[str, int]], Set[str]]:
    """The functions by name, each with its arguments in order and what it answers; the structures by name, each with
    its fields in order; the enumerations; and the functions whose answer must be used. A declaration that is not
    understood is an error, so that none is passed over."""
    functions: Dict[str, Tuple[Variables, str]] = {}
    structures: Dict[str, Variables] = {}
    enumerations: List[Dict[str, int]] = []
    must_use: Set[str] = set()

    def structure(found: Any) -> str:
        if found[1] != found[3]:
            raise ValueError(f"two names of a structure: {found[1]}, {found[3]}")
        structures[found[1]] = _fields(found[2])
        return ""

    def enumeration(found: Any) -> str:
        items = (item.split("=") for item in found[1].split(",") if item.strip())
        enumerations.append({name.strip(): int(number, 0) for name, number in items})
        return ""

    def function(found: Any) -> str:
        mark, answer, name, arguments = found.groups()
        if name in functions:
            raise ValueError(f"declared twice: {name}")
        listed = [] if arguments == "void" else [_variable(one) for one in arguments.split(",")]
        functions[name] = listed, _type(answer)
        must_use.update([name] if mark else [])
        return ""

    text = _plain(text)
    text = re.sub(r"typedef struct (\w+) \{(.*?)\} (\w+);", structure, text)
    text = re.sub(r"enum \{(.*?)\};", enumeration, text)
    text = re.sub(rf"([A-Z_]+ )?({_TYPE}) ?(\w+)\((.*?)\);", function, text)
    if text.strip():
        raise ValueError(f"not understood: {text.strip()[:80]!r}")
    return functions, structures, enumerations, must_use


def _plain(text: str) -> str:
    """The declarations alone, white space squeezed to single spaces."""
    text = re.sub(r"/\*.*?\*/|//[^\n]*", " ", text, flags=re.S)
    text = re.sub(r"^[ \t]*#(?:[^\n]*\\\n)*[^\n]*", "", text, flags=re.M)
    return " ".join(re.sub(r'extern "C" \{(.*)\}', r"\1", text, flags=re.S).split())


def _fields(text: str) -> Variables:
    """The fields of a structure; `double x, y` are two."""
    fields: Variables = []
    for line in text.split(";")[:-1]:
        first, *others = line.split(",")
        fields.append(_variable(first))
        fields += [(other.strip(), fields[-1][1]) for other in others]
    return fields


def _variable(text: str) -> Tuple[str, str]:
    found = re.fullmatch(rf"({_TYPE}) ?(\w+)((?:\[\d+\])?)", text.strip())
    if not found:
        raise ValueError(f"no field or argument: {text!r}")
    return found[2], _type(found[1]) + found[3]


def _type(text: str) -> str:
    return text.replace(" *", "*").strip()
