/*
 * _calls.c: the calls that a store makes often, from Python without ctypes.
 *
 * It marshals and nothing else. Each function checks the types of what it is given, lends the bytes to one call of
 * libpalhavento.so, and hands back what that says. What is refused goes to Python, which forms the message; so does a
 * name or a value of an uncommon kind. `calls.py` says what each function is for, and has them all by ctypes as well,
 * for where this file could not be compiled.
 *
 * Bytes objects are lent as they are where a call only reads. A call that changes is lent copies, which nobody else has
 * seen yet.
 */
#define Py_LIMITED_API 0x030B0000
#define PY_SSIZE_T_CLEAN
#include <Python.h>

#include <dlfcn.h>
#include <string.h>

#include "palhavento.h"

enum { NAME_BYTES = 24, VALUE_BYTES = 8, VERSION_AT = 3, B_AT = 5 };
/* What out is before a call. A refusal leaves it as it is, but for its first word where the trie is stale. */
#define UNSAID {PAL_NO_DIGIT}
static const uint8_t LOWEST[] = {'!'}, HIGHEST[NAME_BYTES + 1] = "}}}}}}}}}}}}}}}}}}}}}}}}";

/* The library's calls, found when it is loaded. */
static __typeof__(pal_lookup) *lookup_in;
static __typeof__(pal_put) *put_in;
static __typeof__(pal_remove) *remove_in;
static __typeof__(pal_list) *list_in;

/* Python's part: raises for a refusal, gives a name's bytes or a value's int, or raises for what is neither. */
static PyObject *refuse, *bytes_of, *value_of;

/* Bytes that are lent, and the object that was made to hold them, if any. */
struct lent {
    const uint8_t *at;
    Py_ssize_t length;
    PyObject *made;
};

static int wants(const char *name, Py_ssize_t count, Py_ssize_t wanted)
{
    if (!refuse) {
        PyErr_SetString(PyExc_RuntimeError, "the library is not loaded");
        return 0;
    }
    if (count != wanted)
        PyErr_Format(PyExc_TypeError, "%s takes %zd arguments, not %zd", name, wanted, count);
    return count == wanted;
}

static int lend(PyObject *given, struct lent *lent)
{
    if (!PyBytes_Check(given)) {
        PyErr_SetString(PyExc_TypeError, "a file and a trie are bytes");
        return 0;
    }
    lent->at = (const uint8_t *)PyBytes_AsString(given);
    lent->length = PyBytes_Size(given);
    lent->made = NULL;
    return 1;
}

static int lend_name(PyObject *given, struct lent *lent)
{
    if (PyUnicode_Check(given)) {
        lent->made = NULL;
        lent->at = (const uint8_t *)PyUnicode_AsUTF8AndSize(given, &lent->length);
        /* Only of ASCII are there as many bytes as characters. */
        if (lent->at && lent->length == PyUnicode_GetLength(given))
            return 1;
        PyErr_Clear();
    } else if (PyBytes_Check(given)) {
        return lend(given, lent);
    }
    PyObject *made = PyObject_CallFunctionObjArgs(bytes_of, given, NULL);
    if (!made)
        return 0;
    if (!lend(made, lent)) {
        Py_DecRef(made);
        return 0;
    }
    lent->made = made;
    return 1;
}

static int number_of(PyObject *given, uint64_t *number)
{
    PyObject *plain;
    if (PyLong_Check(given)) {
        *number = PyLong_AsUnsignedLongLong(given);
        if (*number != UINT64_MAX || !PyErr_Occurred())
            return 1;
        PyErr_Clear();
    }
    plain = PyObject_CallFunctionObjArgs(value_of, given, NULL);
    if (!plain)
        return 0;
    *number = PyLong_AsUnsignedLongLong(plain);
    Py_DecRef(plain);
    return *number != UINT64_MAX || !PyErr_Occurred();
}

static int is_refused(uint64_t answer)
{
    return answer < PAL_FOUND || answer == PAL_MALFORMED;
}

/* Has Python raise a refusal, with the first word of out, about one name or two. */
static PyObject *refused(uint64_t answer, const uint64_t out[4], PyObject *first, PyObject *second)
{
    PyObject *said = NULL, *number = PyLong_FromUnsignedLongLong(answer), *word = PyLong_FromUnsignedLongLong(out[0]);
    if (number && word)
        said = PyObject_CallFunctionObjArgs(refuse, number, word, first, second, NULL);
    Py_DecRef(number);
    Py_DecRef(word);
    if (said) {
        Py_DecRef(said);
        PyErr_SetString(PyExc_SystemError, "a refusal was not raised");
    }
    return NULL;
}

/* What a look up finds: the value alone, or with its run. */
static PyObject *found(const char *function, PyObject *const *given, Py_ssize_t count, int with_run)
{
    struct lent file, trie, name;
    uint64_t out[4] = UNSAID;
    if (!wants(function, count, 3) || !lend(given[0], &file) || !lend(given[1], &trie) || !lend_name(given[2], &name))
        return NULL;
    uint64_t answer = lookup_in(file.at, file.length, trie.at, trie.length, name.at, name.length, out);
    Py_DecRef(name.made);
    if (answer == PAL_FOUND && with_run)
        return Py_BuildValue("KK", (unsigned long long)out[0], (unsigned long long)out[1]);
    if (answer == PAL_FOUND)
        return PyLong_FromUnsignedLongLong(out[0]);
    if (answer != PAL_ABSENT)
        return refused(answer, out, given[2], NULL);
    Py_IncRef(Py_None);
    return Py_None;
}

static PyObject *look_up(PyObject *self, PyObject *const *given, Py_ssize_t count)
{
    return found("look_up", given, count, 0);
}

static PyObject *content(PyObject *self, PyObject *const *given, Py_ssize_t count)
{
    return found("content", given, count, 1);
}

static uint8_t *bytes_in(PyObject *made)
{
    return (uint8_t *)PyBytes_AsString(made);
}

/* A copy that a call may change: new bytes also where Python keeps the same few for all, as it does of a single one. */
static PyObject *copy_of(const struct lent *lent)
{
    PyObject *made = PyBytes_FromStringAndSize(NULL, lent->length);
    if (made)
        memcpy(PyBytes_AsString(made), lent->at, lent->length);
    return made;
}

/* What put and remove have in common: copies of the file and the trie, and then the answer with both. */
static int copies(const struct lent *file, const struct lent *trie, PyObject *made[2])
{
    made[0] = copy_of(file);
    made[1] = copy_of(trie);
    return made[0] && made[1];
}

static PyObject *outcome(uint64_t answer, const uint64_t out[4], PyObject *made[2], PyObject *name)
{
    PyObject *given = NULL;
    if (!made[0] || !made[1])
        PyErr_NoMemory();
    else if (is_refused(answer))
        refused(answer, out, name, NULL);
    else
        given = Py_BuildValue("KOO", (unsigned long long)answer, made[0], made[1]);
    Py_DecRef(made[0]);
    Py_DecRef(made[1]);
    return given;
}

static PyObject *put(PyObject *self, PyObject *const *given, Py_ssize_t count)
{
    struct lent file, trie, name;
    uint64_t value, run, limit, out[4] = UNSAID, answer = 0;
    PyObject *made[2];
    if (!wants("put", count, 6) || !lend(given[0], &file) || !lend(given[1], &trie) || !number_of(given[3], &value)
        || !number_of(given[4], &run) || !number_of(given[5], &limit) || !lend_name(given[2], &name))
        return NULL;
    if (copies(&file, &trie, made))
        answer = put_in(bytes_in(made[0]), file.length, bytes_in(made[1]), trie.length,
                        name.at, name.length, value, run, limit, out);
    Py_DecRef(name.made);
    return outcome(answer, out, made, given[2]);
}

static PyObject *remove_(PyObject *self, PyObject *const *given, Py_ssize_t count)
{
    struct lent file, trie, name;
    uint64_t limit, out[4] = UNSAID, answer = 0;
    PyObject *made[2];
    if (!wants("remove", count, 4) || !lend(given[0], &file) || !lend(given[1], &trie) || !number_of(given[3], &limit)
        || !lend_name(given[2], &name))
        return NULL;
    if (copies(&file, &trie, made))
        answer = remove_in(bytes_in(made[0]), file.length, bytes_in(made[1]), trie.length,
                           name.at, name.length, limit, out);
    Py_DecRef(name.made);
    return outcome(answer, out, made, given[2]);
}

static unsigned long long number_at(const uint8_t *at)
{
    unsigned long long number = 0;
    for (int place = VALUE_BYTES - 1; place >= 0; place--)
        number = number << 8 | at[place];
    return number;
}

/* One entry of a list, as (name, value), or as (name, value, run), where a file without runs has 0. */
static PyObject *row(const uint8_t *entry, size_t size, int with_run)
{
    Py_ssize_t length = NAME_BYTES;
    while (length && entry[length - 1] == ' ')
        length--;
    const unsigned long long value = number_at(entry + NAME_BYTES);
    if (!with_run)
        return Py_BuildValue("s#K", (const char *)entry, length, value);
    const unsigned long long run = size > NAME_BYTES + VALUE_BYTES ? number_at(entry + NAME_BYTES + VALUE_BYTES) : 0;
    return Py_BuildValue("s#KK", (const char *)entry, length, value, run);
}

static PyObject *listed_in(const char *function, PyObject *const *given, Py_ssize_t count, int with_run)
{
    struct lent file, trie, first, second;
    uint64_t out[4] = UNSAID;
    if (!wants(function, count, 4) || !lend(given[0], &file) || !lend(given[1], &trie) || !lend_name(given[2], &first))
        return NULL;
    if (!lend_name(given[3], &second)) {
        Py_DecRef(first.made);
        return NULL;
    }
    uint8_t output[PAL_LARGEST_LIST];
    uint64_t answer = list_in(file.at, file.length, trie.at, trie.length, first.at, first.length,
                               second.at, second.length, output, sizeof output, out);
    Py_DecRef(first.made);
    Py_DecRef(second.made);
    if (is_refused(answer))
        return refused(answer, out, given[2], given[3]);
    const size_t size = PAL_ENTRY_BYTES_OF(file.at[VERSION_AT]);
    PyObject *listed = PyList_New((Py_ssize_t)out[0]);
    for (Py_ssize_t at = 0; listed && at < (Py_ssize_t)out[0]; at++) {
        PyObject *entry = row(output + size * at, size, with_run);
        if (!entry || PyList_SetItem(listed, at, entry) < 0) {
            Py_DecRef(listed);
            return NULL;
        }
    }
    return listed;
}

static PyObject *entries(PyObject *self, PyObject *const *given, Py_ssize_t count)
{
    return listed_in("entries", given, count, 0);
}

static PyObject *rows(PyObject *self, PyObject *const *given, Py_ssize_t count)
{
    return listed_in("rows", given, count, 1);
}

static PyObject *count_of(PyObject *self, PyObject *const *given, Py_ssize_t count)
{
    struct lent file, trie;
    uint64_t out[4] = UNSAID;
    if (!wants("count", count, 2) || !lend(given[0], &file) || !lend(given[1], &trie))
        return NULL;
    uint8_t output[PAL_LARGEST_LIST];
    uint64_t answer = list_in(file.at, file.length, trie.at, trie.length, LOWEST, sizeof LOWEST,
                               HIGHEST, NAME_BYTES, output, sizeof output, out);
    return is_refused(answer) ? refused(answer, out, NULL, NULL) : PyLong_FromUnsignedLongLong(out[0]);
}

static PyObject *changed(PyObject *self, PyObject *const *given, Py_ssize_t count)
{
    struct lent before, after;
    if (!wants("changed", count, 2) || !lend(given[0], &before) || !lend(given[1], &after))
        return NULL;
    if (before.length != after.length || before.length < (Py_ssize_t)PAL_FILE_BYTES(2, 1)) {
        PyErr_SetString(PyExc_ValueError, "the files are not of one length, or too short");
        return NULL;
    }
    const Py_ssize_t header = PAL_FILE_BYTES(0, 0);
    const Py_ssize_t size = PAL_FILE_BYTES_OF(before.at[VERSION_AT], before.at[B_AT], 1) - header;
    for (Py_ssize_t at = header; at + size <= before.length; at += size)
        if (memcmp(before.at + at, after.at + at, size))
            return Py_BuildValue("ny#", at, (const char *)after.at + at, size);
    Py_IncRef(Py_None);
    return Py_None;
}

static PyObject *load(PyObject *self, PyObject *given)
{
    const char *path;
    PyObject *hooks[3];
    if (!PyArg_ParseTuple(given, "sOOO", &path, &hooks[0], &hooks[1], &hooks[2]))
        return NULL;
    void *library = dlopen(path, RTLD_NOW | RTLD_LOCAL);
    if (!library) {
        PyErr_SetString(PyExc_ImportError, dlerror());
        return NULL;
    }
    void *found[4];
    const char *const names[4] = {"pal_lookup", "pal_put", "pal_remove", "pal_list"};
    for (int at = 0; at < 4; at++) {
        found[at] = dlsym(library, names[at]);
        if (!found[at]) {
            PyErr_Format(PyExc_ImportError, "%s has no %s", path, names[at]);
            return NULL;
        }
    }
    lookup_in = (__typeof__(lookup_in))found[0];
    put_in = (__typeof__(put_in))found[1];
    remove_in = (__typeof__(remove_in))found[2];
    list_in = (__typeof__(list_in))found[3];
    for (int at = 0; at < 3; at++)
        Py_IncRef(hooks[at]);
    refuse = hooks[0];
    bytes_of = hooks[1];
    value_of = hooks[2];
    Py_IncRef(Py_None);
    return Py_None;
}

#define FAST(name, function) {name, (PyCFunction)(void (*)(void))function, METH_FASTCALL, NULL}

static PyMethodDef functions[] = {
    FAST("look_up", look_up), FAST("content", content), FAST("put", put),        FAST("remove", remove_),
    FAST("entries", entries), FAST("rows", rows),       FAST("count", count_of), FAST("changed", changed),
    {"load", load, METH_VARARGS, NULL},
    {NULL, NULL, 0, NULL},
};

static struct PyModuleDef module = {
    PyModuleDef_HEAD_INIT, "palhavento._calls", "The calls that a store makes often; see calls.py.", -1, functions,
    NULL, NULL, NULL, NULL,
};

PyMODINIT_FUNC PyInit__calls(void)
{
    return PyModule_Create(&module);
}
