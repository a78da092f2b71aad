/* Members of a fault's JSON text, however it is spelled. */
#ifndef MVTGATE_SQL_MEMBER_H
#define MVTGATE_SQL_MEMBER_H

#include "calls.h"

/* A number in decimal digits, or a string. No fault has a longer one. */
typedef struct {
    char text[48];
} MemberText;

/* Reads the member of this name: 'layer', or 'first.edge' for one in an object. Of equal keys the last one counts, as the library has
 * it. The text is one that sql_is_fault takes, so it is whole JSON. False where it has no such member. */
int read_member(Bytes fault, const char *name, size_t length, MemberText *out);

#endif
