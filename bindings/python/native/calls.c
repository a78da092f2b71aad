/* The calls on a tile. Each lets the interpreter's lock go while the library works, and holds the tile's bytes meanwhile. */
#include "library.h"
#include "tile.h"
#include <stdlib.h>

/* Bytes for the lines of some hundred faults, and for what a mended tile may have beyond those of the one that was refused. Where a call
 * wants more, it is made again with as much. */
enum { LIST_ROOM = 65536, MORE_BYTES = 4096 };

/* What a method is given: a profile, a tile and whether something is wanted. */
struct given {
    uint32_t profile;
    int is_wanted;
    struct tile tile;
};

/* Memory that a call writes to, and how many bytes it wrote or wants. */
struct room {
    uint8_t *bytes;
    size_t size, length;
};

/* A call that writes a text, for a method that may ask for it again: one of `judge` and `describe`. */
struct telling {
    __typeof__(mvtgate_faults) *judge;
    __typeof__(mvtgate_dump) *describe;
    struct given given;
    struct room text;
};

struct mending {
    __typeof__(mvtgate_mend) *mend;
    struct given given;
    struct room out, report;
};

static int expect_words(Py_ssize_t count)
{
    if (count == 3)
        return 1;
    PyErr_Format(PyExc_TypeError, "there are to be 3 arguments, and there are %zd", count);
    return 0;
}

static int take_profile(uint32_t *profile, PyObject *it)
{
    unsigned long number = PyLong_AsUnsignedLong(it);
    *profile = (uint32_t)number;
    return number != (unsigned long)-1 || !PyErr_Occurred();
}

/* 0 with an error set where a method's words aren't these. */
static int take(struct given *given, PyObject *const *words, Py_ssize_t count)
{
    if (!expect_words(count) || !take_profile(&given->profile, words[0]))
        return 0;
    given->is_wanted = PyObject_IsTrue(words[2]);
    return given->is_wanted >= 0 && tile_take(&given->tile, words[1]);
}

/* The error for a status that is no answer. */
static PyObject *no_answer(int status)
{
    if (status == MVTGATE_NO_MEMORY)
        PyErr_SetString(PyExc_MemoryError, "mvtgate: out of memory");
    else
        PyErr_Format(PyExc_RuntimeError, "mvtgate: the library returned the status %d, which this package doesn't know", status);
    return NULL;
}

PyObject *library_check(PyObject *self, PyObject *const *words, Py_ssize_t count)
{
    struct library *library = (struct library *)self;
    struct given it;
    uint8_t text[MVTGATE_TEXT_ROOM];
    size_t length = 0;
    if (!take(&it, words, count))
        return NULL;
    PyThreadState *thread = PyEval_SaveThread();
    __typeof__(mvtgate_check) *check = it.is_wanted ? library->check_quickly : library->check;
    int status = check(it.profile, it.tile.bytes, it.tile.length, text, sizeof text, &length);
    PyEval_RestoreThread(thread);
    tile_give_back(&it.tile);
    if (status == MVTGATE_VALID)
        Py_RETURN_NONE;
    return status == MVTGATE_FAULT ? PyUnicode_DecodeUTF8((const char *)text, (Py_ssize_t)length, NULL) : no_answer(status);
}

PyObject *library_confirm(PyObject *self, PyObject *const *words, Py_ssize_t count)
{
    struct library *library = (struct library *)self;
    uint32_t profile;
    struct tile tile;
    char *text;
    Py_ssize_t length;
    if (!expect_words(count) || !take_profile(&profile, words[0]) || PyBytes_AsStringAndSize(words[2], &text, &length) < 0 ||
        !tile_take(&tile, words[1]))
        return NULL;
    PyThreadState *thread = PyEval_SaveThread();
    int status = library->confirm(profile, tile.bytes, tile.length, (const uint8_t *)text, (size_t)length);
    PyEval_RestoreThread(thread);
    tile_give_back(&tile);
    switch (status) {
    case MVTGATE_CONFIRMED:
    case MVTGATE_NOT_CONFIRMED:
    case MVTGATE_NOT_JSON:
    case MVTGATE_NOT_A_FAULT:
    case MVTGATE_FAULT_RANGE:
        return PyLong_FromLong(status);
    default:
        return no_answer(status);
    }
}

/* 0 where memory was refused; then there is nothing to free. */
static int room_make(struct room *room, size_t size)
{
    room->bytes = malloc(size);
    room->size = size;
    room->length = 0;
    return room->bytes != NULL;
}

/* Makes the room as large as the call wants it, where that is more. */
static int room_grow(struct room *room)
{
    if (room->length <= room->size)
        return 1;
    free(room->bytes);
    return room_make(room, room->length);
}

static int tell_once(struct telling *it)
{
    const struct tile *tile = &it->given.tile;
    struct room *text = &it->text;
    if (it->judge)
        return it->judge(it->given.profile, tile->bytes, tile->length, text->bytes, text->size, &text->length);
    return it->describe(tile->bytes, tile->length, text->bytes, text->size, &text->length);
}

/* The status of a call that writes a text, whose room is to be freed. */
static int tell(struct telling *it)
{
    PyThreadState *thread = PyEval_SaveThread();
    int status = room_make(&it->text, LIST_ROOM) ? tell_once(it) : MVTGATE_NO_MEMORY;
    while (status == MVTGATE_NO_ROOM && it->text.length > it->text.size)
        status = room_grow(&it->text) ? tell_once(it) : MVTGATE_NO_MEMORY;
    PyEval_RestoreThread(thread);
    tile_give_back(&it->given.tile);
    return status;
}

PyObject *library_faults(PyObject *self, PyObject *const *words, Py_ssize_t count)
{
    struct library *library = (struct library *)self;
    struct telling it = {NULL};
    if (!take(&it.given, words, count))
        return NULL;
    it.judge = it.given.is_wanted ? library->faults_quickly : library->faults;
    int status = tell(&it);
    PyObject *answer;
    if (status == MVTGATE_VALID || status == MVTGATE_FAULT)
        answer = PyUnicode_DecodeUTF8((const char *)it.text.bytes, (Py_ssize_t)it.text.length, NULL);
    else
        answer = no_answer(status);
    free(it.text.bytes);
    return answer;
}

/* Whether the bytes are a tile, and the text. */
static PyObject *describe(__typeof__(mvtgate_dump) *call, PyObject *tile)
{
    struct telling it = {NULL, call};
    if (!tile_take(&it.given.tile, tile))
        return NULL;
    int status = tell(&it);
    PyObject *is_tile = status == MVTGATE_TEXT ? Py_True : Py_False, *answer;
    if (status == MVTGATE_TEXT || status == MVTGATE_FAULT)
        answer = Py_BuildValue("(Os#)", is_tile, it.text.bytes, (Py_ssize_t)it.text.length);
    else
        answer = no_answer(status);
    free(it.text.bytes);
    return answer;
}

PyObject *library_dump(PyObject *self, PyObject *tile)
{
    return describe(((struct library *)self)->dump, tile);
}

PyObject *library_advise(PyObject *self, PyObject *tile)
{
    return describe(((struct library *)self)->advise, tile);
}

static int mend_once(struct mending *it)
{
    const struct given *given = &it->given;
    struct room *out = &it->out, *report = &it->report;
    return it->mend(given->profile, (uint32_t)given->is_wanted, given->tile.bytes, given->tile.length, out->bytes, out->size,
                    &out->length, report->bytes, report->size, &report->length);
}

/* The status of a call that mends, whose rooms are to be freed. */
static int mend(struct mending *it)
{
    struct room *out = &it->out, *report = &it->report;
    PyThreadState *thread = PyEval_SaveThread();
    int status = MVTGATE_NO_MEMORY;
    if (room_make(out, it->given.tile.length + MORE_BYTES) && room_make(report, LIST_ROOM))
        status = mend_once(it);
    while (status == MVTGATE_NO_ROOM && (out->length > out->size || report->length > report->size))
        status = room_grow(out) && room_grow(report) ? mend_once(it) : MVTGATE_NO_MEMORY;
    PyEval_RestoreThread(thread);
    tile_give_back(&it->given.tile);
    return status;
}

PyObject *library_mend(PyObject *self, PyObject *const *words, Py_ssize_t count)
{
    struct mending it = {.mend = ((struct library *)self)->mend};
    if (!take(&it.given, words, count))
        return NULL;
    int status = mend(&it);
    struct room *out = &it.out, *report = &it.report;
    PyObject *answer;
    if (status == MVTGATE_VALID || status == MVTGATE_MENDED || status == MVTGATE_FAULT)
        answer = Py_BuildValue("(iy#s#)", status, out->bytes, (Py_ssize_t)out->length, report->bytes, (Py_ssize_t)report->length);
    else
        answer = no_answer(status);
    free(out->bytes);
    free(report->bytes);
    return answer;
}
