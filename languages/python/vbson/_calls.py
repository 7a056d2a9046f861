"""The shared library libvbson.so by ctypes, and the extension module _vbson, which does the same faster."""
import ctypes
import ctypes.util
import importlib.machinery
import importlib.util
import os
import platform

HERE = os.path.dirname(os.path.realpath(__file__))
# Where ./vbson build puts files, and where they are installed: the folder above that of Python's packages.
BUILT, INSTALLED = f"{os.path.dirname(os.path.dirname(HERE))}/out/lib", f"{HERE}/../../.."
OK = 0


class Options(ctypes.Structure):
    _fields_ = [("size", ctypes.c_size_t), ("doubles", ctypes.c_uint32), ("key_order", ctypes.c_uint32),
                ("duplicate_keys", ctypes.c_uint32), ("v1", ctypes.c_uint32), ("layout", ctypes.c_uint32)]

    @classmethod
    def from_param(cls, flags):
        """Returns the argument of a call for the flags of _options."""
        return ctypes.byref(OPTIONS[flags])


# The options for each of these flags, whose bits are in the order of the fields.
OPTIONS = [Options(ctypes.sizeof(Options), *(flags >> bit & 1 for bit in range(5))) for flags in range(32)]
OPTIONS_AT = [*map(ctypes.addressof, OPTIONS)]


class Buffer(ctypes.Structure):
    _fields_ = [("bytes", ctypes.c_void_p), ("size", ctypes.c_size_t), ("len", ctypes.c_size_t)]


class Lines(ctypes.Structure):
    _fields_ = [("text", Buffer), ("diagnostics", Buffer), ("lines", ctypes.c_uint64), ("refused", ctypes.c_uint64)]


class Documents(ctypes.Structure):
    _fields_ = [("text", Buffer), ("diagnostics", Buffer), ("documents", ctypes.c_uint64), ("consumed", ctypes.c_uint64)]


class Error(ctypes.Structure):
    _fields_ = [("code", ctypes.c_uint32), ("line", ctypes.c_size_t), ("column", ctypes.c_size_t), ("offset", ctypes.c_size_t),
                ("path", Buffer), ("reason", Buffer), ("message", Buffer)]


class Slice(ctypes.Structure):
    _fields_ = [("bytes", ctypes.c_void_p), ("len", ctypes.c_size_t)]


class RawValue(ctypes.Structure):
    _fields_ = [("bytes", ctypes.c_void_p), ("size", ctypes.c_size_t), ("len", ctypes.c_size_t), ("type", ctypes.c_uint8)]


def path():
    """Returns the path of the library, or its name for the system's loader."""
    named = os.environ.get("VBSON_LIBRARY")
    near = [f"{HERE}/libvbson.so", f"{BUILT}/libvbson.so", f"{INSTALLED}/libvbson.so.0"]
    found = named or next(filter(os.path.exists, near), None) or ctypes.util.find_library("vbson")
    if not found:
        raise ImportError("there is no libvbson.so: run ./vbson build, or name the library in VBSON_LIBRARY")
    return found


def has_needed_instructions(information="/proc/cpuinfo"):
    """Returns whether the processor has SSE4.2 and POPCNT. Without /proc nothing says so, and the processor is trusted."""
    try:
        with open(information, encoding="ascii", errors="replace") as lines:
            flags = next((line.split() for line in lines if line.startswith("flags")), [])
    except OSError:
        return True
    return {"sse4_2", "popcnt"} <= {*flags}


def loaded():
    """Returns the library with the types of its calls."""
    if platform.machine() != "x86_64" or not has_needed_instructions():
        raise ImportError("libvbson.so needs an x86-64 processor with SSE4.2 and POPCNT")
    found = ctypes.CDLL(path())
    number, size, text, out = ctypes.c_uint32, ctypes.c_size_t, ctypes.c_char_p, ctypes.POINTER
    # (a text goes in with its length; a char pointer of Python's bytes is never null)
    parameters = {
        "version": [], "convert": [number, Options, text, size, out(Buffer)],
        "convert_lines": [number, Options, text, size, out(Lines)], "encode_lines": [Options, text, size, out(Lines)],
        "first_rejected_line": [number, Options, ctypes.c_void_p, size, out(ctypes.c_uint64)],
        "first_unencoded_line": [Options, ctypes.c_void_p, size, out(ctypes.c_uint64)],
        "decode_documents": [number, Options, text, size, out(Documents)],
        "is_canonical_text": [Options, text, size], "explain": [Options, text, size, out(Error)], "same": [Options, text, size, text, size],
        "hash": [Options, text, size, out(ctypes.c_uint64)], "same_documents": [Options, text, size, text, size],
        "hash_document": [Options, text, size, out(ctypes.c_uint64)],
        "is_document": [text, size], "explain_document": [Options, text, size, out(Error)],
        "decode": [number, Options, text, size, out(Buffer)], "encode": [Options, text, size, out(Buffer)],
        "raw_get": [ctypes.c_void_p, size, text, size, out(RawValue)], "raw_elements": [ctypes.c_void_p, size, out(Slice)],
        "raw_next": [out(Slice), out(Slice), out(RawValue)],
        "decimal128_parse": [text, size, text], "object_id_parse": [text, size, text],
        "date_time_parse": [text, size, out(ctypes.c_int64)], "decimal128_print": [text, text, size, out(size)],
        "object_id_print": [text, text, size, out(size)], "date_time_print": [ctypes.c_int64, text, size, out(size)],
    }
    for name, types in parameters.items():
        call = getattr(found, f"vbson_{name}_nonnull" if Options in types else f"vbson_{name}")
        call.argtypes, call.restype = types, number
        setattr(found, f"vbson_{name}", call)
    return found


def found_extension():
    """Returns the module _vbson, if it is built and this Python accepts it."""
    near = [f"{HERE}/_vbson.abi3.so", f"{BUILT}/_vbson.abi3.so", f"{INSTALLED}/vbson/_vbson.abi3.so"]
    place = os.environ.get("VBSON_EXTENSION", next(filter(os.path.exists, near), ""))
    if not place:
        return None
    spec = importlib.util.spec_from_file_location("_vbson", place, loader=importlib.machinery.ExtensionFileLoader("_vbson", place))
    try:
        found = importlib.util.module_from_spec(spec)
        spec.loader.exec_module(found)
    except ImportError:
        return None
    return found


library = loaded()
extension = found_extension()
ADDRESSES = {name: ctypes.cast(getattr(library, f"vbson_{name}"), ctypes.c_void_p).value
             for name in ("convert", "decode", "encode", "decimal128_print", "is_document")}
# That of the C library, which allocated the block of a buffer.
_free = ctypes.CDLL(None).free
_free.argtypes, _free.restype = [ctypes.c_void_p], None
_NO_BYTES = ctypes.create_string_buffer(1)
_AT_NO_BYTES = ctypes.addressof(_NO_BYTES)


def empty():
    """Returns a buffer without a block."""
    return Buffer(_AT_NO_BYTES, 0, 0)


def no_slice():
    """Returns a slice of no bytes."""
    return Slice(_AT_NO_BYTES, 0)


def no_value():
    """Returns a value for calls to fill."""
    return RawValue(_AT_NO_BYTES, 0, 0, 0)


def taken(out):
    """Returns the bytes of a buffer, and frees its block."""
    try:
        return ctypes.string_at(out.bytes, out.len)
    finally:
        _free(out.bytes)


def bytes_of(call, *arguments):
    """Returns the status of a call that fills a buffer, and the bytes."""
    out = empty()
    status = call(*arguments, ctypes.byref(out))
    return status, taken(out) if status == OK else b""


def text_of(call, *arguments):
    """Returns the status of a call that fills a buffer with a string, and the string."""
    status, made = bytes_of(call, *arguments)
    return status, made.decode()


class Explained:
    """What vbson_explain or vbson_explain_document found: its fields, as values of Python."""

    def __init__(self, out):
        self.code, self.line, self.column, self.offset = out.code, out.line, out.column, out.offset
        self.path, self.reason, self.message = taken(out.path), taken(out.reason).decode(), taken(out.message).decode()


def explained(flags, given, name="explain"):
    """Returns the status of the call of this name, which explains, and what it found; None if the status is not OK."""
    out = Error(0, 0, 0, 0, empty(), empty(), empty())
    status = getattr(library, f"vbson_{name}")(flags, given, len(given), ctypes.byref(out))
    return status, Explained(out) if status == OK else None


def text_by(name, mode, flags, given):
    """Returns the status of the call of this name, which has a mode, and its string."""
    if extension is None:
        return text_of(getattr(library, f"vbson_{name}"), mode, flags, given, len(given))
    made = extension.text_by(ADDRESSES[name], mode, OPTIONS_AT[flags], given)
    return (OK, made) if isinstance(made, str) else (made, "")


def encoded(flags, given):
    """Returns the status of vbson_encode, and its bytes."""
    if extension is None:
        return bytes_of(library.vbson_encode, flags, given, len(given))
    made = extension.bytes_by(ADDRESSES["encode"], OPTIONS_AT[flags], given)
    return (OK, made) if isinstance(made, bytes) else (made, b"")


def block_by(call, out, *arguments):
    """Returns the status of a call on a block, the bytes of its output, and those of its diagnostics."""
    status = call(*arguments, ctypes.byref(out))
    if status != OK:
        return status, b"", b""
    return status, taken(out.text), taken(out.diagnostics)


def first_line_by(call, block, index, *arguments):
    """Returns the status of a call that finds a line in the rest of a block from an index, and the number of the line."""
    out, start = ctypes.c_uint64(), ctypes.cast(ctypes.c_char_p(block), ctypes.c_void_p).value
    return call(*arguments, start + index, len(block) - index, ctypes.byref(out)), out.value


def hash_by(call, flags, given):
    """Returns the status of a call that hashes, and the number."""
    out = ctypes.c_uint64()
    return call(flags, given, len(given), ctypes.byref(out)), out.value
