/* What the package vbson does by ctypes and struct, faster. The package needs it nowhere, and hands it the addresses of the
 * calls of libvbson.so, so it is linked with nothing. It is built for the stable ABI, for every CPython from 3.9 on. No read
 * leaves the bytes, whatever they are. */
#define PY_SSIZE_T_CLEAN
#define Py_LIMITED_API 0x03090000
#include <Python.h>
#include <stdint.h>
#include <stdlib.h>
#include <string.h>

typedef struct {
    uint8_t *bytes;
    size_t size, len;
} text;

typedef uint32_t options_call(const void *options, const uint8_t *given, size_t len, text *out);
typedef uint32_t check_call(const uint8_t *bytes, size_t len);
typedef uint32_t mode_call(uint32_t mode, const void *options, const uint8_t *given, size_t len, text *out);

/* ---- values */

/* The documents that are read, one key after the other. */
typedef struct {
    const uint8_t *key;
    size_t len;
    PyObject *name;
} known_key;

enum { KEYS = 256, DEEPEST = 1000 };

typedef struct {
    const uint8_t *at, *end;
    PyObject *object_id, *id_field, *int64, *datetime, *zone, *decimal, *other, *reference;
    unsigned depth;
    known_key keys[KEYS];
} reader;

static PyObject *value(reader *in, unsigned tag);

static PyObject *cut_short(void) {
    PyErr_SetString(PyExc_SystemError, "the bytes are no document of the library");
    return NULL;
}

static int has(const reader *in, size_t count) { return (size_t)(in->end - in->at) >= count; }

/* The bytes at the reader, which are skipped; NULL if there are fewer. */
static const uint8_t *take(reader *in, size_t count) {
    if (!has(in, count)) return NULL;
    const uint8_t *found = in->at;
    in->at += count;
    return found;
}

static uint32_t number_at(const uint8_t *at) {
    return at[0] | (uint32_t)at[1] << 8 | (uint32_t)at[2] << 16 | (uint32_t)at[3] << 24;
}

static int64_t long_at(const uint8_t *at) { return (int64_t)((uint64_t)number_at(at) | (uint64_t)number_at(at + 4) << 32); }

/* The bytes up to a 0, which is passed over too. */
static const uint8_t *take_name(reader *in, size_t *len) {
    const uint8_t *found = in->at, *zero = memchr(found, 0, (size_t)(in->end - found));
    if (zero == NULL) return NULL;
    *len = (size_t)(zero - found);
    in->at = zero + 1;
    return found;
}

/* A key that was read before is the same object. */
static PyObject *name_of(reader *in, const uint8_t *key, size_t len) {
    known_key *known = &in->keys[(len * 31 + (len > 0 ? key[0] + key[len - 1] * 7u + key[len / 2] * 5u : 0)) % KEYS];
    if (known->name == NULL || known->len != len || memcmp(known->key, key, len) != 0) {
        PyObject *made = PyUnicode_DecodeUTF8((const char *)key, (Py_ssize_t)len, NULL);
        if (made == NULL) return NULL;
        Py_XDECREF(known->name);
        *known = (known_key){key, len, made};
    }
    Py_INCREF(known->name);
    return known->name;
}

static PyObject *bytes_of(const uint8_t *at, size_t len) { return PyBytes_FromStringAndSize((const char *)at, (Py_ssize_t)len); }

/* What the type makes of a value, whose reference is released. */
static PyObject *made_by(PyObject *type, PyObject *value) {
    if (value == NULL) return NULL;
    PyObject *made = PyObject_CallFunctionObjArgs(type, value, NULL);
    Py_DECREF(value);
    return made;
}

/* An object id of 12 bytes. Its constructor is passed over where the type keeps the bytes in a field of this name. */
static PyObject *object_id(reader *in, PyObject *bytes) {
    if (in->id_field == Py_None || bytes == NULL) return made_by(in->object_id, bytes);
    PyObject *made = PyType_GenericAlloc((PyTypeObject *)in->object_id, 0);
    if (made != NULL && PyObject_GenericSetAttr(made, in->id_field, bytes) != 0) Py_CLEAR(made);
    Py_DECREF(bytes);
    return made;
}

/* Moves the reader into a document, after its length. */
static int enter(reader *in, const uint8_t **start, const uint8_t **end, const uint8_t **outer) {
    if (!has(in, 5) || in->depth == DEEPEST) return 0;
    size_t size = number_at(in->at);
    if (size < 5 || !has(in, size)) return 0;
    *start = in->at;
    *end = in->at + size;
    *outer = in->end;
    in->end = *end - 1;
    in->at += 4;
    in->depth++;
    return 1;
}

static void leave(reader *in, const uint8_t *end, const uint8_t *outer) {
    in->at = end;
    in->end = outer;
    in->depth--;
}

static int add_to_document(reader *in, PyObject *found, int *is_reference) {
    unsigned tag = *in->at++;
    size_t len;
    const uint8_t *key = take_name(in, &len);
    if (key == NULL) {
        cut_short();
        return 0;
    }
    *is_reference |= len == 4 && memcmp(key, "$ref", 4) == 0;
    PyObject *name = name_of(in, key, len), *made = name == NULL ? NULL : value(in, tag);
    int is_done = made != NULL && PyDict_SetItem(found, name, made) == 0;
    Py_XDECREF(name);
    Py_XDECREF(made);
    return is_done;
}

static PyObject *document(reader *in) {
    const uint8_t *start, *end, *outer;
    if (!enter(in, &start, &end, &outer)) return cut_short();
    PyObject *found = PyDict_New();
    int is_reference = 0;
    while (found != NULL && in->at < in->end)
        if (!add_to_document(in, found, &is_reference)) Py_CLEAR(found);
    leave(in, end, outer);
    if (found == NULL || !is_reference || in->reference == Py_None) return found;
    Py_DECREF(found);
    return made_by(in->reference, bytes_of(start, (size_t)(end - start)));
}

static PyObject *array(reader *in) {
    const uint8_t *start, *end, *outer;
    if (!enter(in, &start, &end, &outer)) return cut_short();
    PyObject *found = PyList_New(0);
    while (found != NULL && in->at < in->end) {
        unsigned tag = *in->at++;
        size_t len;
        PyObject *made = take_name(in, &len) == NULL ? cut_short() : value(in, tag);
        if (made == NULL || PyList_Append(found, made) != 0) Py_CLEAR(found);
        Py_XDECREF(made);
    }
    leave(in, end, outer);
    return found;
}

/* How many bytes a value has that Python reads; more than there are, if the value has no valid number. */
static size_t size_of(const reader *in, unsigned tag) {
    size_t left = (size_t)(in->end - in->at), length = has(in, 4) ? number_at(in->at) : left;
    const uint8_t *zero;
    switch (tag) {
    case 0x05: return length + 5;
    case 0x06: case 0x0A: case 0x7F: case 0xFF: return 0;
    case 0x09: case 0x11: return 8;
    case 0x0B:
        zero = memchr(in->at, 0, left);
        zero = zero == NULL ? NULL : memchr(zero + 1, 0, (size_t)(in->end - zero - 1));
        return zero == NULL ? left + 1 : (size_t)(zero + 1 - in->at);
    case 0x0C: return length + 16;
    case 0x0D: case 0x0E: return length + 4;
    case 0x0F: return length;
    default: return left + 1;
    }
}

/* A value that Python reads, of its tag and its bytes. */
static PyObject *other(reader *in, unsigned tag) {
    size_t size = size_of(in, tag);
    const uint8_t *found = take(in, size);
    if (found == NULL) return cut_short();
    PyObject *bytes = bytes_of(found, size), *number = PyLong_FromUnsignedLong(tag), *made = NULL;
    if (bytes != NULL && number != NULL) made = PyObject_CallFunctionObjArgs(in->other, number, bytes, NULL);
    Py_XDECREF(bytes);
    Py_XDECREF(number);
    return made;
}

static PyObject *string(reader *in) {
    if (!has(in, 4)) return cut_short();
    size_t len = number_at(in->at);
    const uint8_t *found = len > 0 ? take(in, len + 4) : NULL;
    return found == NULL ? cut_short() : PyUnicode_DecodeUTF8((const char *)found + 4, (Py_ssize_t)len - 1, NULL);
}

static PyObject *binary(reader *in) {
    if (!has(in, 5) || in->at[4] != 0) return other(in, 0x05);
    size_t len = number_at(in->at);
    const uint8_t *found = take(in, len + 5);
    return found == NULL ? cut_short() : bytes_of(found + 5, len);
}

/* The day of a number of days since 0000-03-01, as years begin in March, by cycles of 400 years. */
static void set_day(int64_t days, int *year, int *month, int *day) {
    int64_t cycle = days / 146097, of_cycle = days % 146097;
    int64_t years = (of_cycle - of_cycle / 1460 + of_cycle / 36524 - of_cycle / 146096) / 365;
    int64_t of_year = of_cycle - (365 * years + years / 4 - years / 100), march = (5 * of_year + 2) / 153;
    *day = (int)(of_year - (153 * march + 2) / 5 + 1);
    *month = (int)(march < 10 ? march + 3 : march - 9);
    *year = (int)(cycle * 400 + years + (*month <= 2));
}

static PyObject *date(reader *in) {
    static const int64_t least = -62135596800000, most = 253402300799999; /* of the years 1 to 9999 */
    if (!has(in, 8)) return cut_short();
    int64_t millis = long_at(in->at);
    if (millis < least || millis > most) return other(in, 0x09);
    in->at += 8;
    int64_t since = millis - least, days = since / 86400000, of_day = since % 86400000;
    int year, month, day;
    set_day(days + 306, &year, &month, &day); /* 306 days from 0000-03-01 to 0001-01-01 */
    /* (the ten bytes of which pickle makes a datetime, in half of the time of its eight arguments) */
    uint32_t micros = (uint32_t)(of_day % 1000) * 1000;
    const uint8_t state[10] = {(uint8_t)(year >> 8), (uint8_t)year, (uint8_t)month, (uint8_t)day, (uint8_t)(of_day / 3600000),
                               (uint8_t)(of_day / 60000 % 60), (uint8_t)(of_day / 1000 % 60), (uint8_t)(micros >> 16),
                               (uint8_t)(micros >> 8), (uint8_t)micros};
    PyObject *bytes = bytes_of(state, sizeof state);
    if (bytes == NULL) return NULL;
    PyObject *made = PyObject_CallFunctionObjArgs(in->datetime, bytes, in->zone, NULL);
    Py_DECREF(bytes);
    return made;
}

static PyObject *value(reader *in, unsigned tag) {
    static const size_t sizes[] = {[0x01] = 8, [0x07] = 12, [0x08] = 1, [0x10] = 4, [0x12] = 8, [0x13] = 16};
    switch (tag) {
    case 0x02: return string(in);
    case 0x03: return document(in);
    case 0x04: return array(in);
    case 0x05: return binary(in);
    case 0x09: return date(in);
    case 0x0A: Py_RETURN_NONE;
    case 0x01: case 0x07: case 0x08: case 0x10: case 0x12: case 0x13: break;
    default: return other(in, tag);
    }
    const uint8_t *found = take(in, sizes[tag]);
    if (found == NULL) return cut_short();
    int64_t whole;
    double real;
    switch (tag) {
    case 0x01:
        whole = long_at(found);
        memcpy(&real, &whole, sizeof real);
        return PyFloat_FromDouble(real);
    case 0x07: return object_id(in, bytes_of(found, 12));
    case 0x08: return PyBool_FromLong(*found);
    case 0x10: return PyLong_FromLong((int32_t)number_at(found));
    case 0x12: return made_by(in->int64, PyLong_FromLongLong(long_at(found)));
    default: return made_by(in->decimal, bytes_of(found, 16));
    }
}

static int takes_types(reader *in, PyObject *types) {
    return PyArg_ParseTuple(types, "OOOOOOOO", &in->object_id, &in->id_field, &in->int64, &in->datetime, &in->zone, &in->decimal, &in->other, &in->reference);
}

static void forget(reader *in) {
    for (size_t i = 0; i < KEYS; i++) Py_XDECREF(in->keys[i].name);
}

/* The value under the one key of a document, in a tuple; None if it has not one key. */
static PyObject *only_value(const uint8_t *bytes, size_t len, PyObject *types) {
    reader in = {.at = bytes, .end = bytes + len};
    if (!takes_types(&in, types)) return NULL;
    const uint8_t *start, *end, *outer;
    size_t name;
    if (!enter(&in, &start, &end, &outer)) return cut_short();
    if (in.at == in.end) Py_RETURN_NONE;
    unsigned tag = *in.at++;
    PyObject *found = take_name(&in, &name) == NULL ? cut_short() : value(&in, tag), *made = NULL;
    forget(&in);
    if (found != NULL && in.at < in.end) {
        Py_DECREF(found);
        Py_RETURN_NONE;
    }
    if (found != NULL) made = PyTuple_Pack(1, found);
    Py_XDECREF(found);
    return made;
}

/* ---- calls */

typedef uint32_t print_call(const uint8_t bytes[16], uint8_t *buffer, size_t size, size_t *len);

/* printed(address, bytes): the text of a decimal of 16 bytes, by the call that prints it; or its status. */
static PyObject *printed(PyObject *self, PyObject *arguments) {
    PyObject *call, *given;
    char *bytes;
    Py_ssize_t size;
    uint8_t buffer[64];
    size_t len = 0;
    if (!PyArg_ParseTuple(arguments, "OO", &call, &given) || PyBytes_AsStringAndSize(given, &bytes, &size) != 0) return NULL;
    void *address = PyLong_AsVoidPtr(call);
    if (address == NULL || size != 16) return PyErr_Occurred() ? NULL : cut_short();
    uint32_t status = ((print_call *)address)((const uint8_t *)bytes, buffer, sizeof buffer, &len);
    return status != 0 ? PyLong_FromUnsignedLong(status) : PyUnicode_DecodeUTF8((const char *)buffer, (Py_ssize_t)len, NULL);
}

/* The answer to a status that is not 0: the error of Python, if there is one. */
static PyObject *refused(uint32_t status) { return PyErr_Occurred() ? NULL : PyLong_FromUnsignedLong(status); }

static uint32_t left_by(PyObject *call, unsigned mode, PyObject *options, int has_mode, PyObject *given, text *out) {
    void *address = PyLong_AsVoidPtr(call), *chosen = PyLong_AsVoidPtr(options);
    char *bytes;
    Py_ssize_t len;
    uint32_t status = UINT32_MAX;
    if (address == NULL || chosen == NULL || PyBytes_AsStringAndSize(given, &bytes, &len) != 0) return status;
    Py_BEGIN_ALLOW_THREADS
    status = has_mode ? ((mode_call *)address)(mode, chosen, (uint8_t *)bytes, (size_t)len, out)
                      : ((options_call *)address)(chosen, (uint8_t *)bytes, (size_t)len, out);
    Py_END_ALLOW_THREADS
    return status;
}

/* text_by(address, mode, options, given): the text that a call of a mode leaves, or its status. The options are an address too. */
static PyObject *text_by(PyObject *self, PyObject *arguments) {
    PyObject *call, *options, *given;
    unsigned mode;
    text out = {(uint8_t *)"", 0, 0};
    if (!PyArg_ParseTuple(arguments, "OIOO", &call, &mode, &options, &given)) return NULL;
    uint32_t status = left_by(call, mode, options, 1, given, &out);
    if (status != 0) return refused(status);
    PyObject *made = PyUnicode_DecodeUTF8((const char *)out.bytes, (Py_ssize_t)out.len, NULL);
    free(out.bytes);
    return made;
}

/* bytes_by(address, options, given): the bytes that a call leaves, or its status. */
static PyObject *bytes_by(PyObject *self, PyObject *arguments) {
    PyObject *call, *options, *given;
    text out = {(uint8_t *)"", 0, 0};
    if (!PyArg_ParseTuple(arguments, "OOO", &call, &options, &given)) return NULL;
    uint32_t status = left_by(call, 0, options, 0, given, &out);
    if (status != 0) return refused(status);
    PyObject *made = bytes_of(out.bytes, out.len);
    free(out.bytes);
    return made;
}

/* value_by(address, options, given, types): the value of the bytes that a call leaves, as value_of has it, or its status. */
static PyObject *value_by(PyObject *self, PyObject *arguments) {
    PyObject *call, *options, *given, *types;
    text out = {(uint8_t *)"", 0, 0};
    if (!PyArg_ParseTuple(arguments, "OOOO!", &call, &options, &given, &PyTuple_Type, &types)) return NULL;
    uint32_t status = left_by(call, 0, options, 0, given, &out);
    if (status != 0) return refused(status);
    PyObject *made = only_value(out.bytes, out.len, types);
    free(out.bytes);
    return made;
}

/* value_of(document, types): the value under the one key of a document, in a tuple; None if it has not one key. */
static PyObject *value_of(PyObject *self, PyObject *arguments) {
    PyObject *given, *types;
    char *bytes;
    Py_ssize_t len;
    if (!PyArg_ParseTuple(arguments, "OO!", &given, &PyTuple_Type, &types) || PyBytes_AsStringAndSize(given, &bytes, &len) != 0) return NULL;
    return only_value((const uint8_t *)bytes, (size_t)len, types);
}

/* Whether the bytes go on with a whole document that the call accepts; without a call they go on with one, or end. */
static int goes_on(const reader *in, check_call *is_document) {
    if (is_document == NULL) return in->at < in->end;
    size_t size = has(in, 5) ? number_at(in->at) : 0;
    return size >= 5 && has(in, size) && is_document(in->at, size) == 0;
}

/* documents_of(address, block, types): the values of the documents at the beginning of a block that the call at the address
 * accepts, in a list, and how many bytes they have. The address is 0 for a block that the library has written. */
static PyObject *documents_of(PyObject *self, PyObject *arguments) {
    PyObject *call, *given, *types;
    char *bytes;
    Py_ssize_t len;
    if (!PyArg_ParseTuple(arguments, "OOO!", &call, &given, &PyTuple_Type, &types)) return NULL;
    check_call *is_document = (check_call *)PyLong_AsVoidPtr(call);
    if (PyErr_Occurred() || PyBytes_AsStringAndSize(given, &bytes, &len) != 0) return NULL;
    reader in = {.at = (const uint8_t *)bytes, .end = (const uint8_t *)bytes + len};
    if (!takes_types(&in, types)) return NULL;
    PyObject *found = PyList_New(0);
    while (found != NULL && goes_on(&in, is_document)) {
        PyObject *made = document(&in);
        if (made == NULL || PyList_Append(found, made) != 0) Py_CLEAR(found);
        Py_XDECREF(made);
    }
    forget(&in);
    return found == NULL ? NULL : Py_BuildValue("Nn", found, (Py_ssize_t)(in.at - (const uint8_t *)bytes));
}

static PyMethodDef methods[] = {
    {"text_by", text_by, METH_VARARGS, NULL}, {"bytes_by", bytes_by, METH_VARARGS, NULL},
    {"value_by", value_by, METH_VARARGS, NULL}, {"value_of", value_of, METH_VARARGS, NULL},
    {"documents_of", documents_of, METH_VARARGS, NULL}, {"printed", printed, METH_VARARGS, NULL}, {NULL, NULL, 0, NULL},
};

static struct PyModuleDef module = {PyModuleDef_HEAD_INIT, "_vbson", NULL, 0, methods, NULL, NULL, NULL, NULL};

PyMODINIT_FUNC PyInit__vbson(void) { return PyModule_Create(&module); }
