/*
 * _system.c: what a reader asks of the system for one reading, by one call from Python.
 *
 * It is a short cut and no more: `disk.py` has the long way, says what is asked for here, and goes that way whenever
 * anything is unusual. Then, and where this file could not be compiled, nothing is lost but some microseconds.
 */
#define Py_LIMITED_API 0x030B0000
#define PY_SSIZE_T_CLEAN
#include <Python.h>

#include <errno.h>
#include <fcntl.h>
#include <math.h>
#include <string.h>
#include <sys/stat.h>
#include <time.h>
#include <unistd.h>

/* More than a file's name can have, with whatever its journal's adds. */
enum { LONGEST = 512 };

/* What is asked for at each reading, prepared once; and how long the file was, and when, when last looked at. */
struct request {
    int file, folder;
    Py_ssize_t most, length;
    double again, looked;
    struct flock lock, at_work, unlock;
    dev_t device;
    ino_t inode;
    char name[LONGEST], journal[LONGEST];
};

static const char KIND[] = "palhavento._system.request";

static void forget(PyObject *prepared)
{
    PyMem_Free(PyCapsule_GetPointer(prepared, KIND));
}

static int copy_lock(struct flock *lock, const char *given, Py_ssize_t length)
{
    if (length != sizeof *lock)
        return 0;
    memcpy(lock, given, sizeof *lock);
    return 1;
}

static int copy_name(char name[LONGEST], const char *given)
{
    if (strlen(given) >= LONGEST)
        return 0;
    strcpy(name, given);
    return 1;
}

/*
 * prepare(file, most, lock, at_work, unlock, folder, name, device, inode, journal, again)
 *
 * The locks are given as `fcntl` takes them; `again` is after how many seconds to look again whether the file is in its place.
 */
static PyObject *prepare(PyObject *self, PyObject *given)
{
    struct request *made;
    const char *locks[3], *name, *journal;
    Py_ssize_t lengths[3], most;
    int file, folder;
    unsigned long long device, inode;
    double again;
    if (!PyArg_ParseTuple(given, "iny#y#y#iyKKyd", &file, &most, &locks[0], &lengths[0], &locks[1], &lengths[1], &locks[2],
                          &lengths[2], &folder, &name, &device, &inode, &journal, &again))
        return NULL;
    made = PyMem_Malloc(sizeof *made);
    if (!made)
        return PyErr_NoMemory();
    made->file = file;
    made->folder = folder;
    made->most = most;
    made->again = again;
    made->looked = -INFINITY;
    made->device = device;
    made->inode = inode;
    if (most < 0 || !copy_lock(&made->lock, locks[0], lengths[0]) || !copy_lock(&made->at_work, locks[1], lengths[1])
        || !copy_lock(&made->unlock, locks[2], lengths[2]) || !copy_name(made->name, name)
        || !copy_name(made->journal, journal)) {
        PyMem_Free(made);
        PyErr_SetString(PyExc_ValueError, "a length that cannot be");
        return NULL;
    }
    PyObject *prepared = PyCapsule_New(made, KIND, forget);
    if (!prepared)
        PyMem_Free(made);
    return prepared;
}

/* The reading itself, without Python: whether so many bytes were read and nothing was unusual. */
static int read_into(char *into, Py_ssize_t length, const struct request *of)
{
    struct flock lock = of->lock, at_work = of->at_work, unlock = of->unlock;
    struct stat beside;
    if (fcntl(of->file, F_OFD_SETLK, &lock))
        return 0;
    int usual = pread(of->file, into, length, 0) == length && !fcntl(of->file, F_OFD_GETLK, &at_work)
                && (at_work.l_type != F_UNLCK
                    || (fstatat(of->folder, of->journal, &beside, AT_SYMLINK_NOFOLLOW) && errno == ENOENT));
    return !fcntl(of->file, F_OFD_SETLK, &unlock) && usual;
}

/* Whether the file is in its place, by a look that is not too old. */
static int is_there(struct request *of)
{
    struct timespec time;
    struct stat found;
    clock_gettime(CLOCK_MONOTONIC_COARSE, &time);
    double now = time.tv_sec + time.tv_nsec / 1e9;
    if (now - of->looked < of->again)
        return 1;
    if (fstatat(of->folder, of->name, &found, AT_SYMLINK_NOFOLLOW) || found.st_dev != of->device
        || found.st_ino != of->inode)
        return 0;
    of->length = found.st_size < of->most ? found.st_size : of->most;
    of->looked = now;
    return 1;
}

/*
 * read_locked(request)
 *
 * The bytes of a file, at most so many, while it is locked for reading: if the folder still has that very file under that
 * name; and if a writer is at work, or the folder has no such journal. Else None.
 */
static PyObject *read_locked(PyObject *self, PyObject *prepared)
{
    struct request *of = PyCapsule_GetPointer(prepared, KIND);
    int usual;
    if (!of)
        return NULL;
    if (!is_there(of))
        Py_RETURN_NONE;
    Py_ssize_t length = of->length;
    PyObject *content = PyBytes_FromStringAndSize(NULL, length);
    if (!content)
        return NULL;
    char *into = PyBytes_AsString(content);
    Py_BEGIN_ALLOW_THREADS
    usual = read_into(into, length, of);
    Py_END_ALLOW_THREADS
    if (usual)
        return content;
    of->looked = -INFINITY;
    Py_DecRef(content);
    Py_RETURN_NONE;
}

static PyMethodDef functions[] = {
    {"prepare", prepare, METH_VARARGS, NULL},
    {"read_locked", read_locked, METH_O, NULL},
    {NULL, NULL, 0, NULL},
};

static struct PyModuleDef module = {
    PyModuleDef_HEAD_INIT, "palhavento._system", "One reading by one call; see disk.py.", -1, functions, NULL, NULL, NULL, NULL,
};

PyMODINIT_FUNC PyInit__system(void)
{
    return PyModule_Create(&module);
}
