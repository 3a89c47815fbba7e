/* Loops over the calls of libum for arrays: each gives up the interpreter's lock once, and not once for each block. many.py gives the
 * address of the call, which ctypes has loaded, the count, and an address and a step in octets for each argument. Its wrapper has tested
 * them. Without this module, many.py loops in Python. */
#define Py_LIMITED_API 0x03080000
#define PY_SSIZE_T_CLEAN
#include <Python.h>
#include <stdlib.h>
#include <string.h>
#include "um.h"

enum { MOST = 6 };
typedef struct column {
	char *address;
	Py_ssize_t step;
} column;
typedef void any_call(void);

#define ROW(i) ((void *)(columns[i].address + at * columns[i].step))
#define OCTET(i) (*(const uint8_t *)ROW(i))
#define WORD(i) (*(const uint32_t *)ROW(i))

/* Calls until an answer is false; returns the number of calls that answered true. */
#define WHILE_TRUE(NAME, ...)                                                                                                              \
	static Py_ssize_t NAME##_each(any_call *address, Py_ssize_t count, const column *columns)                                              \
	{                                                                                                                                      \
		__typeof__(&NAME) call = (__typeof__(&NAME))address;                                                                               \
		Py_ssize_t at = 0;                                                                                                                 \
		while (at < count && call(__VA_ARGS__))                                                                                            \
			at++;                                                                                                                          \
		return at;                                                                                                                         \
	}

/* Writes each answer to the last column. */
#define ANSWERS(NAME, LAST, ...)                                                                                                           \
	static Py_ssize_t NAME##_each(any_call *address, Py_ssize_t count, const column *columns)                                              \
	{                                                                                                                                      \
		__typeof__(&NAME) call = (__typeof__(&NAME))address;                                                                               \
		for (Py_ssize_t at = 0; at < count; at++)                                                                                          \
			*(uint8_t *)ROW(LAST) = call(__VA_ARGS__);                                                                                     \
		return count;                                                                                                                      \
	}

WHILE_TRUE(um_send_block, ROW(0), OCTET(1), ROW(2))
WHILE_TRUE(um_receive_block, ROW(0), ROW(1))
WHILE_TRUE(um_receive_block_among, ROW(0), WORD(1), ROW(2), ROW(3))
WHILE_TRUE(um_margin_block, ROW(0), ROW(1))
WHILE_TRUE(um_receive_access, ROW(0), ROW(1), ROW(2))
WHILE_TRUE(um_receive_sync, ROW(0), ROW(1))
ANSWERS(um_repair, 2, ROW(0), ROW(1))
ANSWERS(um_read_frame, 3, ROW(0), OCTET(1), ROW(2))

static const struct {
	const char *name;
	int columns;
	Py_ssize_t (*each)(any_call *, Py_ssize_t, const column *);
} LOOPS[] = {
	{"um_send_block", 3, um_send_block_each},
	{"um_receive_block", 2, um_receive_block_each},
	{"um_receive_block_among", 4, um_receive_block_among_each},
	{"um_margin_block", 2, um_margin_block_each},
	{"um_receive_access", 3, um_receive_access_each},
	{"um_receive_sync", 2, um_receive_sync_each},
	{"um_repair", 3, um_repair_each},
	{"um_read_frame", 4, um_read_frame_each},
};

/* each(name, address, count, (address, step), ..) */
static PyObject *each(PyObject *self, PyObject *arguments)
{
	const char *name;
	unsigned long long address;
	Py_ssize_t count, done;
	PyObject *given;
	column columns[MOST];
	size_t at = 0;
	(void)self;
	if (!PyArg_ParseTuple(arguments, "sKnO!", &name, &address, &count, &PyTuple_Type, &given))
		return NULL;
	while (at < sizeof LOOPS / sizeof *LOOPS && strcmp(LOOPS[at].name, name))
		at++;
	if (at == sizeof LOOPS / sizeof *LOOPS || PyTuple_Size(given) != LOOPS[at].columns)
		return PyErr_Format(PyExc_ValueError, "%s: no loop with %zd columns", name, PyTuple_Size(given));
	for (int i = 0; i < LOOPS[at].columns; i++) {
		unsigned long long place;
		if (!PyArg_ParseTuple(PyTuple_GetItem(given, i), "Kn", &place, &columns[i].step))
			return NULL;
		columns[i].address = (char *)(uintptr_t)place;
	}
	Py_BEGIN_ALLOW_THREADS
	done = LOOPS[at].each((any_call *)(uintptr_t)address, count, columns);
	Py_END_ALLOW_THREADS
	return PyLong_FromSsize_t(done);
}

static PyMethodDef METHODS[] = {{"each", each, METH_VARARGS, "Calls a call of libum for each row of some columns."}, {NULL, NULL, 0, NULL}};
static struct PyModuleDef MODULE = {PyModuleDef_HEAD_INIT, "_loops", NULL, 0, METHODS, NULL, NULL, NULL, NULL};

/* The module has no state, so each interpreter may have its own lock, or none. These slots are of Python 3.12 and 3.13, and an earlier one
 * refuses a slot that it does not know; their names are not in the stable interface of 3.8. */
static PyModuleDef_Slot SLOTS[] = {{3, (void *)2}, {4, (void *)1}, {0, NULL}};

PyMODINIT_FUNC PyInit__loops(void)
{
	int minor = atoi(strchr(Py_GetVersion(), '.') + 1);
	MODULE.m_slots = minor >= 13 ? SLOTS : SLOTS + 2;
	return PyModuleDef_Init(&MODULE);
}
