/* SPDX-License-Identifier: Apache-2.0 OR MIT

   The functions of chacha20.h for Python. This file is trusted: it is tested, not proved. It holds the buffers of a
   call, lets other threads run while a long one works, and turns refusals into exceptions. It keeps no state. */

#define Py_LIMITED_API 0x030B0000
#define PY_SSIZE_T_CLEAN
#include <Python.h>
#include <string.h>

#include "chacha20.h"

/* A call over at least so many bytes releases the interpreter's lock. */
enum { LONG_CALL = 2048 };

/* A parameter for an object with a contiguous buffer, which has LEN bytes, or any number of them. */
enum { MOST = 4, ANY = -1 };
enum kind { INPUT, OPTIONAL, OUTPUT };
struct parameter {
    const char *name;
    Py_ssize_t len;
    enum kind kind;
};

/* What a call has taken, where it writes, and what it returns. */
struct call {
    uint64_t number[2];
    Py_buffer at[MOST];
    PyThreadState *saved;
    uint8_t *to;
    PyObject *result;
    int status;
};

/* These three return 0 where the call can't be made, with an exception or a status. */

static int has(const Py_buffer *view, const char *name, Py_ssize_t len) {
    if (len == ANY || view->len == len) return 1;
    PyErr_Format(PyExc_ValueError, "%s must have %zd bytes, not %zd", name, len, view->len);
    return 0;
}

static int hold(Py_buffer *view, PyObject *object, const struct parameter *it) {
    const char *word = it->kind == OUTPUT ? "writable, " : "";
    if (PyObject_GetBuffer(object, view, *word ? PyBUF_WRITABLE : PyBUF_SIMPLE) == 0)
        return has(view, it->name, it->len);
    if (PyErr_ExceptionMatches(PyExc_Exception) && !PyErr_ExceptionMatches(PyExc_MemoryError))
        PyErr_Format(PyExc_TypeError, "%s must be a %scontiguous bytes-like object", it->name, word);
    return 0;
}

/* Takes NUMBERS numbers, and then an object for each of COUNT parameters, by place or by name. */
static int take(struct call *call, int numbers, const struct parameter *parameters, int count, PyObject *const *args,
                Py_ssize_t given, PyObject *names) {
    PyObject *objects[MOST] = {0};
    Py_ssize_t named = names ? PyTuple_Size(names) : 0;
    if (given < numbers || given > numbers + count) {
        PyErr_Format(PyExc_TypeError, "from %d to %d arguments are taken, not %zd", numbers, numbers + count, given);
        return 0;
    }
    for (int i = 0; i < numbers && !PyErr_Occurred(); i++) call->number[i] = PyLong_AsUnsignedLongLong(args[i]);
    if (PyErr_Occurred()) return 0;
    for (Py_ssize_t i = numbers; i < given; i++) objects[i - numbers] = args[i];
    for (Py_ssize_t i = 0; i < named; i++) {
        PyObject *name = PyTuple_GetItem(names, i);
        int at = 0;
        while (at < count && PyUnicode_CompareWithASCIIString(name, parameters[at].name) != 0) at++;
        if (at == count || objects[at]) {
            PyErr_Format(PyExc_TypeError, "%U is given twice, or isn't an argument", name);
            return 0;
        }
        objects[at] = args[given + i];
    }
    for (int i = 0; i < count; i++) {
        if (parameters[i].kind == OPTIONAL && (!objects[i] || Py_IsNone(objects[i]))) continue;
        if (!objects[i]) PyErr_Format(PyExc_TypeError, "%s is missing", parameters[i].name);
        if (!objects[i] || !hold(&call->at[i], objects[i], &parameters[i])) return 0;
    }
    return 1;
}

/* Has the call write LEN bytes: into BUF, which has as many, or without one into new bytes. It will return how many
   there are, or the new bytes. Until `end`, a long call has no lock, and may touch nothing of Python's. */
static int output(struct call *call, const Py_buffer *buf, Py_ssize_t len) {
    if (len < 0) {
        call->status = CHACHA20_WRONG_TAG; /* Shorter than a tag. */
    } else if (!buf || !buf->obj) {
        call->result = PyBytes_FromStringAndSize(NULL, len);
        if (call->result) call->to = (uint8_t *)PyBytes_AsString(call->result);
    } else if (has(buf, "buf", len)) {
        call->result = PyLong_FromSsize_t(len);
        call->to = buf->buf;
    }
    size_t all = call->at[0].len + call->at[1].len + call->at[2].len;
    if (call->result && all >= LONG_CALL) call->saved = PyEval_SaveThread();
    return call->result != NULL;
}

/* Releases the buffers. Returns the result, or NULL with an exception. */
static PyObject *end(struct call *call, const char *refused) {
    if (call->saved) PyEval_RestoreThread(call->saved);
    for (int i = 0; i < MOST; i++) PyBuffer_Release(&call->at[i]);
    if (call->status == CHACHA20_OK) return call->result;
    Py_CLEAR(call->result);
    if (call->status != CHACHA20_WRONG_TAG) return PyErr_Format(PyExc_ValueError, "%s", refused);
    PyObject *module = PyImport_ImportModule("chacha20");
    PyObject *error = module ? PyObject_GetAttrString(module, "InvalidTag") : NULL;
    if (error) PyErr_SetString(error, "another key, nonce, place or associated data, or changed bytes");
    Py_XDECREF(error);
    Py_XDECREF(module);
    return NULL;
}

/* Messages */

typedef struct {
    PyObject_HEAD
    Py_ssize_t nonce_len;
    uint8_t key[CHACHA20_KEY_BYTES];
} cipher;

static PyObject *cipher_new(PyTypeObject *type, PyObject *args, PyObject *Py_UNUSED(names)) {
    const char *key;
    Py_ssize_t len, nonce_len;
    if (!PyArg_ParseTuple(args, "y#n", &key, &len, &nonce_len)) return NULL;
    if (len != CHACHA20_KEY_BYTES) return PyErr_Format(PyExc_ValueError, "key must have %d bytes", CHACHA20_KEY_BYTES);
    cipher *self = (cipher *)((allocfunc)PyType_GetSlot(type, Py_tp_alloc))(type, 0);
    if (self) {
        self->nonce_len = nonce_len;
        memcpy(self->key, key, sizeof self->key);
    }
    return (PyObject *)self;
}

#define ARGUMENTS PyObject *const *args, Py_ssize_t given
static PyObject *message(PyObject *object, int opens, int count, ARGUMENTS, PyObject *names) {
    static const struct parameter MESSAGE[] = {
        {"nonce", ANY, INPUT}, {"data", ANY, INPUT}, {"associated_data", ANY, OPTIONAL}, {"buf", ANY, OUTPUT}};
    const cipher *self = (const cipher *)object;
    int is_x = self->nonce_len == XCHACHA20_NONCE_BYTES;
    struct call it = {0};
    const Py_buffer *nonce = &it.at[0], *data = &it.at[1], *aad = &it.at[2], *buf = &it.at[3];
    if (take(&it, 0, MESSAGE, count, args, given, names) &&
        has(nonce, "nonce", is_x ? XCHACHA20_NONCE_BYTES : CHACHA20_NONCE_BYTES) &&
        output(&it, buf, data->len + (opens ? -CHACHA20_TAG_BYTES : CHACHA20_TAG_BYTES))) {
        size_t len = opens ? data->len - CHACHA20_TAG_BYTES : data->len;
        if (opens)
            it.status = (is_x ? xchacha20_aead_decrypt : chacha20_aead_decrypt)(
                self->key, nonce->buf, aad->buf, aad->len, it.to, data->buf, len, (const uint8_t *)data->buf + len);
        else
            it.status = (is_x ? xchacha20_aead_encrypt : chacha20_aead_encrypt)(
                self->key, nonce->buf, aad->buf, aad->len, it.to, data->buf, len, it.to + len);
    }
    return end(&it, "data is too long, or buf overlaps an argument and isn't in place");
}

#define MESSAGE_METHOD(NAME, OPENS, COUNT)                            \
    static PyObject *NAME(PyObject *it, ARGUMENTS, PyObject *names) { \
        return message(it, OPENS, COUNT, args, given, names);         \
    }
MESSAGE_METHOD(encrypt, 0, 3)
MESSAGE_METHOD(encrypt_into, 0, 4)
MESSAGE_METHOD(decrypt, 1, 3)
MESSAGE_METHOD(decrypt_into, 1, 4)

/* A method or a function with its signature, as `help` shows it. */
#define ENTRY(NAME, FLAGS, SIGNATURE, DOC) \
    {#NAME, (PyCFunction)(void (*)(void))NAME, METH_FASTCALL | FLAGS, #NAME "(" SIGNATURE ")\n--\n\n" DOC}
static PyMethodDef CIPHER_METHODS[] = {
    ENTRY(encrypt, METH_KEYWORDS, "$self, nonce, data, associated_data=None", "The ciphertext, then its tag."),
    ENTRY(encrypt_into, METH_KEYWORDS, "$self, nonce, data, associated_data, buf", "The same into buf, also in place."),
    ENTRY(decrypt, METH_KEYWORDS, "$self, nonce, data, associated_data=None", "The text, or InvalidTag."),
    ENTRY(decrypt_into, METH_KEYWORDS, "$self, nonce, data, associated_data, buf", "The same into buf, also in place."),
    {0}};
static PyType_Slot CIPHER_SLOTS[] = {{Py_tp_new, cipher_new}, {Py_tp_methods, CIPHER_METHODS}, {0}};
static PyType_Spec CIPHER = {
    "chacha20._chacha20.Cipher", sizeof(cipher), 0, Py_TPFLAGS_DEFAULT | Py_TPFLAGS_BASETYPE, CIPHER_SLOTS};

/* The functions of METHODS, below */
#define FUNCTION(NAME) static PyObject *NAME(PyObject *Py_UNUSED(module), ARGUMENTS)
FUNCTION(xor_at) {
    static const struct parameter PARAMETERS[] = {
        {"key", CHACHA20_KEY_BYTES, INPUT}, {"nonce", ANY, INPUT}, {"data", ANY, INPUT}, {"buf", ANY, OUTPUT}};
    struct call it = {0};
    const Py_buffer *key = &it.at[0], *nonce = &it.at[1], *data = &it.at[2], *buf = &it.at[3];
    if (take(&it, 1, PARAMETERS, given > 4 ? 4 : 3, args, given, NULL) && output(&it, buf, data->len))
        it.status = nonce->len == XCHACHA20_NONCE_BYTES
            ? xchacha20_xor(key->buf, nonce->buf, it.number[0], it.to, data->buf, data->len)
            : nonce->len == CHACHA20_NONCE_BYTES
            ? chacha20_xor(key->buf, nonce->buf, it.number[0], it.to, data->buf, data->len) : CHACHA20_REFUSED;
    return end(&it, "data would pass the end of the keystream, or buf overlaps an argument and isn't in place");
}

/* Streams. The caller keeps other threads from a state. */

enum { OVERHEAD = CHACHA20_SECRETSTREAM_OVERHEAD_BYTES };
static const struct parameter IN_STREAM[] = {
    {"state", CHACHA20_SECRETSTREAM_STATE_BYTES, OUTPUT}, {"data", ANY, INPUT}, {"aad", ANY, INPUT}};

FUNCTION(stream_start) {
    static const struct parameter PARAMETERS[] = {
        {"key", CHACHA20_KEY_BYTES, INPUT}, {"header", CHACHA20_SECRETSTREAM_HEADER_BYTES, INPUT}};
    struct call it = {0};
    if (take(&it, 0, PARAMETERS, 2, args, given, NULL) && output(&it, NULL, CHACHA20_SECRETSTREAM_STATE_BYTES))
        chacha20_secretstream_start(it.at[0].buf, it.at[1].buf, it.to);
    return end(&it, NULL);
}

FUNCTION(stream_push) {
    struct call it = {0};
    const Py_buffer *state = &it.at[0], *data = &it.at[1], *aad = &it.at[2];
    if (take(&it, 1, IN_STREAM, 3, args, given, NULL) && output(&it, NULL, data->len + OVERHEAD))
        it.status = chacha20_secretstream_push(
            state->buf, aad->buf, aad->len, it.to, data->buf, data->len, (uint8_t)it.number[0]);
    return end(&it, "text is too long");
}

FUNCTION(stream_pull) {
    struct call it = {0};
    const Py_buffer *state = &it.at[0], *data = &it.at[1], *aad = &it.at[2];
    uint8_t tag = 0;
    if (take(&it, 0, IN_STREAM, 3, args, given, NULL) && output(&it, NULL, data->len - OVERHEAD))
        it.status = chacha20_secretstream_pull(state->buf, aad->buf, aad->len, it.to, data->buf, data->len, &tag);
    PyObject *text = end(&it, "message is too long");
    return text ? Py_BuildValue("(Ni)", text, (int)tag) : NULL;
}

/* Sealed files */

static const struct parameter CHUNK[] = {
    {"key", CHACHA20_KEY_BYTES, INPUT}, {"salt", CHACHA20_FILE_SALT_BYTES, INPUT}, {"data", ANY, INPUT}};

FUNCTION(file_header) {
    struct call it = {0};
    if (take(&it, 0, &CHUNK[1], 1, args, given, NULL) && output(&it, NULL, CHACHA20_FILE_HEADER_BYTES))
        chacha20_file_header(it.at[0].buf, it.to);
    return end(&it, NULL);
}

/* The salt, or the status that says why there is none. */
FUNCTION(file_salt) {
    struct call it = {0};
    uint8_t salt[CHACHA20_FILE_SALT_BYTES];
    if (take(&it, 0, &CHUNK[2], 1, args, given, NULL)) {
        int status = chacha20_file_salt(it.at[0].buf, it.at[0].len, salt);
        it.result = status ? PyLong_FromLong(status) : PyBytes_FromStringAndSize((char *)salt, sizeof salt);
    }
    return end(&it, NULL);
}

FUNCTION(file_text_len) {
    struct call it = {0};
    if (!take(&it, 1, NULL, 0, args, given, NULL)) return NULL;
    return PyLong_FromUnsignedLongLong(chacha20_file_text_len(it.number[0]));
}

typedef int chunk_function(const uint8_t *, const uint8_t *, uint64_t, int, uint8_t *, const uint8_t *, size_t);
static PyObject *chunk(chunk_function *run, Py_ssize_t growth, ARGUMENTS) {
    struct call it = {0};
    const Py_buffer *key = &it.at[0], *salt = &it.at[1], *data = &it.at[2];
    if (take(&it, 2, CHUNK, 3, args, given, NULL) && output(&it, NULL, data->len + growth))
        it.status = run(key->buf, salt->buf, it.number[0], it.number[1] != 0, it.to, data->buf, data->len);
    return end(&it, "no chunk has this number or length");
}
FUNCTION(file_seal_chunk) { return chunk(chacha20_file_seal_chunk, CHACHA20_TAG_BYTES, args, given); }
FUNCTION(file_open_chunk) { return chunk(chacha20_file_open_chunk, -CHACHA20_TAG_BYTES, args, given); }

/* Generators for NumPy, which holds its lock when it calls next_.. A capsule of NumPy has the address of a bitgen_t
   (numpy/random/bitgen.h). Its context, which is freed with it, is the generator. */

struct bitgen {
    void *state;
    uint64_t (*next_uint64)(void *);
    uint32_t (*next_uint32)(void *);
    double (*next_double)(void *);
    uint64_t (*next_raw)(void *);
};
enum { WORDS = 256 };
struct generator {
    void (*fill)(uint8_t *, uint8_t *, size_t);
    uint32_t used, words[WORDS];
    uint8_t state[CHACHA20_RNG_STATE_BYTES]; /* That of the word after these. */
};

static uint32_t next_uint32(void *state) {
    struct generator *it = state;
    if (it->used == WORDS) {
        it->fill(it->state, (uint8_t *)it->words, sizeof it->words);
        it->used = 0;
    }
    return it->words[it->used++];
}
static uint64_t next_uint64(void *state) {
    uint64_t low = next_uint32(state);
    return low | (uint64_t)next_uint32(state) << 32;
}
static double next_double(void *state) { return (double)(next_uint64(state) >> 11) * 0x1p-53; }
static void free_generator(PyObject *capsule) { PyMem_Free(PyCapsule_GetContext(capsule)); }

FUNCTION(generator_set) {
    static const struct parameter PARAMETERS[] = {{"state", CHACHA20_RNG_STATE_BYTES, INPUT}};
    struct call it = {0};
    struct bitgen *bits = given == 3 ? PyCapsule_GetPointer(args[2], "BitGenerator") : NULL;
    if (!PyErr_Occurred() && take(&it, 1, PARAMETERS, 1, args, given - 1, NULL) && bits) {
        struct generator *own = bits->next_uint64 == next_uint64 ? bits->state : PyMem_Calloc(1, sizeof *own);
        if (!own) return end(&it, NULL), PyErr_NoMemory();
        own->fill = it.number[0] == 8 ? chacha8_rng_fill : it.number[0] == 12 ? chacha12_rng_fill : chacha20_rng_fill;
        own->used = WORDS;
        memcpy(own->state, it.at[0].buf, sizeof own->state);
        *bits = (struct bitgen){own, next_uint64, next_uint32, next_double, next_uint64};
        PyCapsule_SetContext(args[2], own);
        PyCapsule_SetDestructor(args[2], free_generator);
        it.result = Py_NewRef(Py_None);
    }
    return end(&it, NULL);
}

FUNCTION(generator_get) {
    const struct bitgen *bits = given == 1 ? PyCapsule_GetPointer(args[0], "BitGenerator") : NULL;
    if (!bits || !bits->state || bits->next_uint64 != next_uint64) return PyErr_Format(PyExc_TypeError, "no generator");
    const struct generator *own = bits->state;
    return Py_BuildValue("(y#I)", own->state, (Py_ssize_t)sizeof own->state, (unsigned)(WORDS - own->used));
}

static PyMethodDef METHODS[] = {
    ENTRY(xor_at, 0, "position, key, nonce, /, *data", ""),
    ENTRY(stream_start, 0, "key, header, /", ""),
    ENTRY(stream_push, 0, "tag, state, data, aad, /", ""),
    ENTRY(stream_pull, 0, "state, data, aad, /", ""),
    ENTRY(file_header, 0, "salt, /", ""),
    ENTRY(file_salt, 0, "data, /", ""),
    ENTRY(file_text_len, 0, "file_len, /", ""),
    ENTRY(file_seal_chunk, 0, "number, last, key, salt, data, /", ""),
    ENTRY(file_open_chunk, 0, "number, last, key, salt, data, /", ""),
    ENTRY(generator_set, 0, "rounds, state, capsule, /", ""),
    ENTRY(generator_get, 0, "capsule, /", ""),
    {0}};
static int fill_module(PyObject *module) {
    PyObject *type = PyType_FromModuleAndSpec(module, &CIPHER, NULL);
    if (!type || PyModule_AddObjectRef(module, "Cipher", type) < 0) return -1;
    Py_DECREF(type);
    return PyModule_AddStringConstant(module, "version", chacha20_version()) < 0 ||
            PyModule_AddIntConstant(module, "FILE_HEADER_BYTES", CHACHA20_FILE_HEADER_BYTES) < 0 ||
            PyModule_AddIntConstant(module, "FILE_CHUNK_BYTES", CHACHA20_FILE_CHUNK_BYTES) < 0 ||
            PyModule_AddIntConstant(module, "FILE_TEXT_BYTES", CHACHA20_FILE_TEXT_BYTES) < 0 ? -1 : 0;
}
static PyModuleDef_Slot SLOTS[] = {{Py_mod_exec, fill_module}, {0}};
static struct PyModuleDef MODULE = {PyModuleDef_HEAD_INIT, "_chacha20", NULL, 0, METHODS, SLOTS, NULL, NULL, NULL};
PyMODINIT_FUNC PyInit__chacha20(void) { return PyModuleDef_Init(&MODULE); }
