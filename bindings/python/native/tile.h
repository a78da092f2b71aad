/* The bytes of an object, without a copy. */
#ifndef MVTGATE_TILE_H
#define MVTGATE_TILE_H

#include "limited.h"
#include <stdint.h>

struct tile {
    const uint8_t *bytes;
    size_t length;
    Py_buffer buffer;
};

/* Takes the bytes of an object, which stay where they are until they are given back: meanwhile a bytearray refuses to change its size
 * (BufferError), a mmap to be closed, a memoryview to be released. 0 with an error set where it has no contiguous bytes: TypeError. The
 * address is never null. The caller holds a reference to the object. */
int tile_take(struct tile *tile, PyObject *it);

void tile_give_back(struct tile *tile);

#endif
