/* What the module exports, and what the compiled library calls. Nothing proves this file. */
#include "memory.h"

/* Memory: WebAssembly's own. A refusal is -1, of 64 bits or, where the module was lowered to wasm32, of 32. */
extern char __heap_base;
char *heap_start(void) { return &__heap_base; }
size memory_pages(void) { return __builtin_wasm_memory_size(0); }
int grow_memory(size pages) { return pages <= 0xffff && (unsigned)__builtin_wasm_memory_grow(0, pages) != 0xffffffff; }

/* The toolchain's three functions of memory. A block of no bytes has an address too, and so has a refusal, though nothing is
 * there. The compiled library takes the pair as C returns it for this target. */
typedef struct {
    size is_given;
    void *block;
} Tried;
static char nothing[16] __attribute__((aligned(16)));

static Tried tried(void *block) {
    Tried answer = {block != 0, block ? block : nothing};
    return answer;
}
Tried rattle_alloc(size n, size alignment) { return tried(heap_take(n ? n : alignment)); }
Tried rattle_realloc(void *p, size kept, size n, size alignment) {
    (void)kept;
    return tried(heap_resize(p, n ? n : alignment));
}
void rattle_dealloc(void *p) { heap_give(p); }

/* The calls of bindings/c/mvtgate.h, and blocks for what JavaScript hands over. */
int mvtgate_check(unsigned profile, const unsigned char *tile, size tile_length, unsigned char *text, size room, size *length);
int mvtgate_check_quickly(unsigned profile, const unsigned char *tile, size tile_length, unsigned char *text, size room, size *length);
int mvtgate_faults(unsigned profile, const unsigned char *tile, size tile_length, unsigned char *text, size room, size *length);
int mvtgate_faults_quickly(unsigned profile, const unsigned char *tile, size tile_length, unsigned char *text, size room, size *length);
int mvtgate_mend(unsigned profile, unsigned drop, const unsigned char *tile, size tile_length, unsigned char *out, size out_room,
                 size *out_length, unsigned char *report, size report_room, size *report_length);
int mvtgate_confirm(unsigned profile, const unsigned char *tile, size tile_length, const unsigned char *text, size text_length);
int mvtgate_dump(const unsigned char *tile, size tile_length, unsigned char *text, size room, size *length);
int mvtgate_advise(const unsigned char *tile, size tile_length, unsigned char *text, size room, size *length);
unsigned mvtgate_version(void);

#define EXPORT(name) __attribute__((export_name(name)))

EXPORT("malloc") void *export_take(size n) { return heap_take(n); }
EXPORT("free") void export_give(void *p) { heap_give(p); }
EXPORT("forget") void export_forget(void) { heap_forget(); }
EXPORT("check")
int export_check(unsigned profile, const unsigned char *tile, size tile_length, unsigned char *text, size room, size *length) {
    return mvtgate_check(profile, tile, tile_length, text, room, length);
}
EXPORT("check_quickly")
int export_check_quickly(unsigned profile, const unsigned char *tile, size tile_length, unsigned char *text, size room, size *length) {
    return mvtgate_check_quickly(profile, tile, tile_length, text, room, length);
}
EXPORT("faults")
int export_faults(unsigned profile, const unsigned char *tile, size tile_length, unsigned char *text, size room, size *length) {
    return mvtgate_faults(profile, tile, tile_length, text, room, length);
}
EXPORT("faults_quickly")
int export_faults_quickly(unsigned profile, const unsigned char *tile, size tile_length, unsigned char *text, size room, size *length) {
    return mvtgate_faults_quickly(profile, tile, tile_length, text, room, length);
}
EXPORT("mend")
int export_mend(unsigned profile, unsigned drop, const unsigned char *tile, size tile_length, unsigned char *out, size out_room,
                size *out_length, unsigned char *report, size report_room, size *report_length) {
    return mvtgate_mend(profile, drop, tile, tile_length, out, out_room, out_length, report, report_room, report_length);
}
EXPORT("confirm")
int export_confirm(unsigned profile, const unsigned char *tile, size tile_length, const unsigned char *text, size text_length) {
    return mvtgate_confirm(profile, tile, tile_length, text, text_length);
}
EXPORT("dump")
int export_dump(const unsigned char *tile, size tile_length, unsigned char *text, size room, size *length) {
    return mvtgate_dump(tile, tile_length, text, room, length);
}
EXPORT("advise")
int export_advise(const unsigned char *tile, size tile_length, unsigned char *text, size room, size *length) {
    return mvtgate_advise(tile, tile_length, text, room, length);
}
EXPORT("version") unsigned export_version(void) { return mvtgate_version(); }
