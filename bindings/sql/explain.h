/* A fault in plain words. */
#ifndef MVTGATE_SQL_EXPLAIN_H
#define MVTGATE_SQL_EXPLAIN_H

#include "calls.h"

/* The explanation of any fault has fewer bytes. */
enum { EXPLANATION_ROOM = 4096 };

typedef struct {
    char text[EXPLANATION_ROOM];
    size_t length;
} Explanation;

/* Writes title, sentence, what causes the fault and what to do, in five lines, and a zero byte. The text is one that sql_is_fault
 * takes. False where it has no code, or lacks a member of it. */
int explain(Bytes fault, Explanation *out);

#endif
