"""The check of shader modules, in process, over the shared library by ctypes.

    import shader_check
    answer = shader_check.check(document)          # bytes, or a text
    answer = shader_check.check_spirv(module)      # bytes
    answer = shader_check.check_wgsl(source)       # a text, or its bytes in UTF-8
    answer = shader_check.check_leaves(document)   # what lies where in its buffers
    if not answer.accepted:
        print(answer.text, shader_check.check_json(document).data["text"])

The library is the file that the variable SHADER_CHECK_LIBRARY names, else the one that the system finds as `shader_check`. Calls may be
made from several threads; each frees Python's lock while it runs.
"""
import ctypes
import ctypes.util
import json
import os
from dataclasses import dataclass

__all__ = ["Answer", "Status", "check", "check_json", "check_leaves", "check_spirv", "check_spirv_json", "check_spirv_leaves", "check_wgsl",
           "check_wgsl_json", "check_wgsl_leaves", "document_of_spirv", "document_of_wgsl", "version"]
__version__ = "0.1.0"


class Status:
    """What a module was found to be."""

    ACCEPTED = 0
    REFUSED = 1
    UNREAD = 3


@dataclass(frozen=True)
class Answer:
    """The status, and the text that `shader-check` writes: the verdict's line, and of an accepted module the report."""

    status: int
    text: str

    @property
    def accepted(self):
        """Whether the module was accepted."""
        return self.status == Status.ACCEPTED

    @property
    def data(self):
        """The object of an answer of `check_json`, `check_spirv_json` or `check_wgsl_json`."""
        return json.loads(self.text)


def _load():
    name = os.environ.get("SHADER_CHECK_LIBRARY") or ctypes.util.find_library("shader_check")
    if not name:
        raise OSError("the library shader_check is not found; SHADER_CHECK_LIBRARY names its file")
    library = ctypes.CDLL(name)
    library.shader_check_version.argtypes = []
    library.shader_check_version.restype = ctypes.c_uint32
    for call in (library.shader_check, library.shader_check_json, library.shader_check_leaves, library.shader_check_spirv,
                 library.shader_check_spirv_json, library.shader_check_spirv_leaves, library.shader_check_spirv_document,
                 library.shader_check_wgsl, library.shader_check_wgsl_json, library.shader_check_wgsl_leaves,
                 library.shader_check_wgsl_document):
        call.argtypes = [ctypes.c_char_p, ctypes.c_size_t, ctypes.c_char_p, ctypes.c_size_t, ctypes.POINTER(ctypes.c_size_t)]
        call.restype = ctypes.c_uint32
    return library


_library = _load()


def _answer(call, module):
    given = module.encode() if isinstance(module, str) else bytes(module)
    room, needed = ctypes.create_string_buffer(4096), ctypes.c_size_t()
    status = call(given, len(given), room, len(room), ctypes.byref(needed))
    if needed.value > len(room):
        room = ctypes.create_string_buffer(needed.value)
        status = call(given, len(given), room, len(room), ctypes.byref(needed))
    if status == 2:
        raise MemoryError("the check of a shader module was refused memory")
    return Answer(status, room.raw[: needed.value].decode("utf-8", "replace"))


def version():
    """The version of the library that is loaded: major, minor and patch number."""
    number = _library.shader_check_version()
    return number >> 16, number >> 8 & 255, number & 255


def check(document):
    """Judges a document, as `shader-check` does."""
    return _answer(_library.shader_check, document)


def check_json(document):
    """Judges a document; the text is the object of `shader-check --json`, and `data` what it says."""
    return _answer(_library.shader_check_json, document)


def check_leaves(document):
    """Judges a document, and lists what lies in its buffers, as `shader-check --leaves` does."""
    return _answer(_library.shader_check_leaves, document)


def check_spirv(module):
    """Judges a module of SPIR-V, as `shader-check --spirv` does."""
    return _answer(_library.shader_check_spirv, module)


def check_spirv_json(module):
    """Judges a module of SPIR-V; the text is the object of `shader-check --spirv --json`, and `data` what it says."""
    return _answer(_library.shader_check_spirv_json, module)


def check_spirv_leaves(module):
    """Judges a module of SPIR-V, and lists what lies in its buffers, as `shader-check --spirv --leaves` does."""
    return _answer(_library.shader_check_spirv_leaves, module)


def check_wgsl(source):
    """Judges a text of WGSL, as `shader-check --wgsl` does."""
    return _answer(_library.shader_check_wgsl, source)


def check_wgsl_json(source):
    """Judges a text of WGSL; the text is the object of `shader-check --wgsl --json`, and `data` what it says: `data["wgsl"]` has the
    lines and columns of the part that is at fault."""
    return _answer(_library.shader_check_wgsl_json, source)


def check_wgsl_leaves(source):
    """Judges a text of WGSL, and lists what lies in its buffers, as `shader-check --wgsl --leaves` does."""
    return _answer(_library.shader_check_wgsl_leaves, source)


def _document(call, module):
    answer = _answer(call, module)
    if not answer.accepted:
        raise ValueError(answer.text.strip())
    return answer.text


def document_of_spirv(module):
    """The document that a module of SPIR-V says, not judged; ValueError says why there is none."""
    return _document(_library.shader_check_spirv_document, module)


def document_of_wgsl(source):
    """The document that a text of WGSL says, not judged; ValueError says why there is none."""
    return _document(_library.shader_check_wgsl_document, source)
