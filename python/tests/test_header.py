"""The package's structs, functions, constants and words are those of c/yarrowbleat.h."""
import re
from ctypes import POINTER, c_bool, c_float, c_size_t, c_uint32, c_void_p, sizeof
from pathlib import Path

import yarrowbleat
from yarrowbleat import _answers, _library, _words

HEADER_PATH = Path(__file__).resolve().parent.parent.parent / "c/yarrowbleat.h"
HEADER = HEADER_PATH.read_text()
PLAIN = re.sub(r"\s+", " ", re.sub(r"/\*.*?\*/", "", HEADER, flags=re.S))
SINGLE = {"float": c_float, "uint32_t": c_uint32, "size_t": c_size_t, "bool": c_bool}


def struct(name):
    return getattr(_library, name[2:])


def test_structs():
    sizes = dict(re.findall(r"^YB_SIZE\((\w+), (\d+)\);", HEADER, re.M))
    assert {name: sizeof(struct(name)) for name in sizes} == {name: int(size) for name, size in sizes.items()}
    places = re.findall(r"^YB_AT\((\w+), (\w+), (\d+)\);", HEADER, re.M)
    assert len(places) == sum(len(struct(name)._fields_) for name in sizes)
    for name, field, place in places:
        assert getattr(struct(name), field).offset == int(place)


def kind(word):
    """The ctypes type of a parameter or result; a pointer to numbers is a place."""
    word = word.replace("const ", "").strip()
    if word.endswith("*"):
        pointed = word[:-1].strip()
        return POINTER(struct(pointed)) if pointed.startswith("Yb") else c_void_p
    return struct(word) if word.startswith("Yb") else SINGLE[word]


def test_functions():
    declared = {}
    for result, name, parameters in re.findall(r"(\w+) (yb_\w+)\(([^()]*)\);", PLAIN):
        if "return" in result:
            continue
        words = [] if parameters == "void" else [re.sub(r"\w+$", "", p.strip()) for p in parameters.split(",")]
        declared[name] = (kind(result), [kind(word) for word in words])
    assert declared == _library.FUNCTIONS


def test_constants():
    defined = dict(re.findall(r"^#define (YB_\w+) (\d+)u$", HEADER, re.M))
    assert (_library.VERSION, _library.LAYOUT) == (int(defined["YB_VERSION"]), int(defined["YB_LAYOUT"]))
    stated = re.search(r'^version = "(.*)"$', (HEADER_PATH.parent.parent / "rust/Cargo.toml").read_text(), re.M)
    assert stated is not None and yarrowbleat.__version__ == stated[1]
    assert f"yb_release_{_library.VERSION}_{_library.LAYOUT}" in _library.FUNCTIONS


def test_answers():
    numbers = {name: int(number) for name, number in re.findall(r"^    (YB_\w+) = (\d+),?$", HEADER, re.M)}
    words = {numbers[name]: text for name, text in re.findall(r'case (YB_\w+): return "(.*)";', HEADER)}
    assert words.pop(0) == "accepted"
    assert _words.WORDS == words
    settings = re.findall(r"^ \* (\w+) +\d: (.*?)\.(?: |$)", HEADER, re.M)
    assert settings == list(_answers.SETTINGS)
