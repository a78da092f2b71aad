#include "explain.h"

#include <stdlib.h>
#include <string.h>

#include "member.h"
#include "words.h"

__extension__ typedef unsigned __int128 Wide;

/* What places are filled from: the members of a fault, or a field's number and its name. */
typedef struct {
    Bytes fault;
    const char *number, *name;
} Places;

static int append(Explanation *out, const char *text, size_t length)
{
    if (length >= sizeof out->text - out->length)
        return 0;
    memcpy(out->text + out->length, text, length);
    out->length += length;
    out->text[out->length] = 0;
    return 1;
}

static int append_text(Explanation *out, const char *text)
{
    return text && append(out, text, strlen(text));
}

/* Fractions. A figure has an optional '-', and digits of a number below 2^127. */

static Wide magnitude(const char *digits)
{
    Wide number = 0;
    for (digits += *digits == '-'; *digits; ++digits)
        number = 10 * number + (Wide)(*digits - '0');
    return number;
}

static int append_number(Explanation *out, Wide number)
{
    char digits[40];
    size_t at = sizeof digits;
    do {
        digits[--at] = (char)('0' + (int)(number % 10));
        number /= 10;
    } while (number);
    return append(out, digits + at, sizeof digits - at);
}

static Wide common_divisor(Wide greater, Wide lesser)
{
    while (lesser) {
        Wide left = greater % lesser;
        greater = lesser;
        lesser = left;
    }
    return greater;
}

/* The exact quotient: a whole number, or a fraction in lowest terms. By 0, which no fault of a tile has, it is left as it is. */
static int append_quotient(Explanation *out, const char *number, const char *by)
{
    Wide above = magnitude(number), below = magnitude(by);
    if (!below)
        return append_text(out, number) && append_text(out, "/0");
    Wide divisor = common_divisor(above, below);
    if (above && (*number == '-') != (*by == '-') && !append_text(out, "-"))
        return 0;
    if (!append_number(out, above / divisor))
        return 0;
    return below == divisor || (append_text(out, "/") && append_number(out, below / divisor));
}

/* Texts with places */

static int fill(const char *text, const Places *places, Explanation *out);

static int fill_scope(const Places *places, Explanation *out)
{
    MemberText scope;
    if (!read_member(places->fault, "scope", 5, &scope))
        return 0;
    for (const ScopeWords *it = all_scope_words; it->scope; ++it)
        if (strcmp(it->scope, scope.text) == 0)
            return fill(it->words, places, out);
    return 0;
}

static int fill_field(const Places *places, Explanation *out)
{
    MemberText scope, number;
    if (!read_member(places->fault, "scope", 5, &scope) || !read_member(places->fault, "field", 5, &number))
        return 0;
    if (strcmp(number.text, "0") == 0)
        return append_text(out, key_field_words);
    for (const FieldName *it = all_field_names; it->scope; ++it)
        if (strcmp(it->scope, scope.text) == 0 && strcmp(it->number, number.text) == 0)
            return fill(known_field_words, &(Places){.number = it->number, .name = it->name}, out);
    return fill(unknown_field_words, &(Places){.number = number.text}, out);
}

static int fill_quotient(const char *name, size_t length, size_t before, const Places *places, Explanation *out)
{
    MemberText number, by;
    return read_member(places->fault, name, before, &number) &&
           read_member(places->fault, name + before + 1, length - before - 1, &by) && append_quotient(out, number.text, by.text);
}

/* What stands for a place, whose name is not yet without the brace behind it. */
static int fill_place(const char *name, size_t length, const Places *places, Explanation *out)
{
    const char *stroke = memchr(name, '/', length);
    MemberText member;
    if (places->number)
        return append_text(out, strncmp(name, "number", length) == 0 ? places->number : places->name);
    if (stroke)
        return fill_quotient(name, length, (size_t)(stroke - name), places, out);
    if (length == 5 && memcmp(name, "scope", 5) == 0)
        return fill_scope(places, out);
    if (length == 5 && memcmp(name, "field", 5) == 0)
        return fill_field(places, out);
    return read_member(places->fault, name, length, &member) && append_text(out, member.text);
}

/* A text in which each name in braces is replaced by what stands for it. */
static int fill(const char *text, const Places *places, Explanation *out)
{
    for (;;) {
        size_t plain = strcspn(text, "{");
        if (!append(out, text, plain))
            return 0;
        text += plain;
        if (!*text)
            return 1;
        size_t length = strcspn(++text, "}");
        if (!fill_place(text, length, places, out))
            return 0;
        text += length + 1;
    }
}

static const FaultWords *words_of(const char *code)
{
    for (const FaultWords *it = all_fault_words; it->code; ++it)
        if (it->code == atoi(code))
            return it;
    return NULL;
}

int explain(Bytes fault, Explanation *out)
{
    MemberText code;
    const Places places = {.fault = fault};
    const FaultWords *words = read_member(fault, "code", 4, &code) ? words_of(code.text) : NULL;
    out->length = 0;
    if (!words)
        return 0;
    return append_text(out, code.text) && append_text(out, ": ") && append_text(out, words->title) && append_text(out, "\n") &&
           fill(words->sentence, &places, out) && append_text(out, "\nCause: ") && append_text(out, words->cause) &&
           append_text(out, "\nWhat to do: ") && append_text(out, words->remedy) && append_text(out, "\n(") &&
           append_text(out, counting_words) && append_text(out, ")");
}
