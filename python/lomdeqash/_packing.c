/* Packs texts into rows for the library. `_rows.py` does the same in Python, for an interpreter without this module.
 * Only the limited API is used, so that one file serves every version. (3.9 has all of it, though it does not say so.) */
#define Py_LIMITED_API 0x030A0000
#define PY_SSIZE_T_CLEAN
#include <Python.h>
#include <string.h>

/* The bytes of a str, in UTF-8, or of a bytes object, and their count; NULL of any other item, and of a str that UTF-8
 * does not have. They last as long as the item. No code of Python runs. */
static const char *text_of(PyObject *item, Py_ssize_t *count) {
  if (PyUnicode_Check(item)) {
    const char *text = PyUnicode_AsUTF8AndSize(item, count);
    if (text == NULL) PyErr_Clear();
    return text;
  }
  if (!PyBytes_Check(item)) return NULL;
  *count = PyBytes_Size(item);
  return PyBytes_AsString(item);
}

/* The length of the longest text of a list, at least 1. It is 0 if some item cannot be a row: it is no text, is longer
 * than the limit, or has a zero byte. */
static Py_ssize_t size_of_rows(PyObject *items, Py_ssize_t limit) {
  Py_ssize_t size = 1, length, count = PyList_Size(items);
  for (Py_ssize_t at = 0; at < count; at++) {
    const char *text = text_of(PyList_GetItem(items, at), &length);
    if (text == NULL || length > limit || memchr(text, 0, (size_t)length) != NULL) return 0;
    if (length > size) size = length;
  }
  return size;
}

/* Each text in a row of zero bytes. */
static void fill_rows(PyObject *items, char *rows, Py_ssize_t size) {
  Py_ssize_t length, count = PyList_Size(items);
  for (Py_ssize_t at = 0; at < count; at++, rows += size) {
    const char *text = text_of(PyList_GetItem(items, at), &length);
    memcpy(rows, text, (size_t)length);
    memset(rows + length, 0, (size_t)(size - length));
  }
}

static PyObject *rows_of(PyObject *module, PyObject *arguments) {
  PyObject *items, *rows;
  Py_ssize_t limit;
  (void)module;
  if (!PyArg_ParseTuple(arguments, "O!n", &PyList_Type, &items, &limit)) return NULL;
  Py_ssize_t size = size_of_rows(items, limit), count = PyList_Size(items);
  if (size == 0) Py_RETURN_NONE;
  if (count > PY_SSIZE_T_MAX / size) return PyErr_NoMemory();
  rows = PyBytes_FromStringAndSize(NULL, count * size);
  if (rows == NULL) return NULL;
  fill_rows(items, PyBytes_AsString(rows), size);
  return Py_BuildValue("Nn", rows, size);
}

static PyMethodDef methods[] = {
  {"rows_of", rows_of, METH_VARARGS,
   "rows_of(items, limit): texts of str or bytes as rows of one size, filled with zero bytes, and that size;\n"
   "None if one of them is longer than the limit, has a zero byte, or is no text."},
  {NULL, NULL, 0, NULL},
};
static struct PyModuleDef module = {PyModuleDef_HEAD_INIT, "_packing", NULL, 0, methods, NULL, NULL, NULL, NULL};

PyMODINIT_FUNC PyInit__packing(void) { return PyModule_Create(&module); }
