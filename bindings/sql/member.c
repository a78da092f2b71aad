#include "member.h"

#include <string.h>

/* What is left of a text. */
typedef struct {
    const uint8_t *at, *end;
} Rest;

static Rest rest_of(Bytes text)
{
    return (Rest){text.bytes, text.bytes + text.length};
}

static int is_one_of(uint8_t byte, const char *all)
{
    return byte && strchr(all, byte);
}

static void pass_spaces(Rest *rest)
{
    while (rest->at < rest->end && is_one_of(*rest->at, " \t\n\r"))
        ++rest->at;
}

/* Passes a byte where it is this one, and the spaces before it. */
static int pass(Rest *rest, char byte)
{
    pass_spaces(rest);
    if (rest->at == rest->end || *rest->at != (uint8_t)byte)
        return 0;
    ++rest->at;
    return 1;
}

/* Passes a string, of which the first quote is passed. */
static void pass_string(Rest *rest)
{
    while (rest->at < rest->end && *rest->at != '"')
        rest->at += *rest->at == '\\' && rest->at + 1 < rest->end ? 2 : 1;
    if (rest->at < rest->end)
        ++rest->at;
}

/* Passes all up to the end of an object or an array, of which the first bracket is passed. */
static void pass_nested(Rest *rest)
{
    for (size_t depth = 1; depth && rest->at < rest->end;) {
        uint8_t byte = *rest->at++;
        if (byte == '"')
            pass_string(rest);
        else if (is_one_of(byte, "{["))
            ++depth;
        else if (is_one_of(byte, "}]"))
            --depth;
    }
}

/* Passes a value, and answers its text. */
static Bytes pass_value(Rest *rest)
{
    pass_spaces(rest);
    const uint8_t *from = rest->at;
    if (pass(rest, '"'))
        pass_string(rest);
    else if (pass(rest, '{') || pass(rest, '['))
        pass_nested(rest);
    else
        while (rest->at < rest->end && !is_one_of(*rest->at, ",}] \t\n\r"))
            ++rest->at;
    return (Bytes){from, (size_t)(rest->at - from)};
}

static int digit_of(uint8_t byte)
{
    static const char digits[] = "0123456789abcdef";
    const char *found = byte ? strchr(digits, byte < 'a' && byte >= 'A' ? byte + 'a' - 'A' : byte) : NULL;
    return found ? (int)(found - digits) : -1;
}

/* The character below 128 of an escape, of which the backslash is passed. -1 where it is another one: no fault has such a text. */
static int pass_escape(Rest *rest)
{
    int character = 0;
    if (rest->end - rest->at < 5 || *rest->at++ != 'u')
        return -1;
    for (int left = 4; left; --left) {
        int digit = digit_of(*rest->at++);
        if (digit < 0)
            return -1;
        character = 16 * character + digit;
    }
    return character && character < 128 ? character : -1;
}

/* The characters of a string, or those of a number. */
static int decode(Bytes value, MemberText *out)
{
    Rest rest = rest_of(value);
    size_t length = 0;
    if (pass(&rest, '"'))
        --rest.end;
    while (rest.at < rest.end) {
        int character = *rest.at++;
        if (character == '\\')
            character = pass_escape(&rest);
        if (character < 0 || length + 1 == sizeof out->text)
            return 0;
        out->text[length++] = (char)character;
    }
    out->text[length] = 0;
    return 1;
}

static int is_name(Bytes key, const char *name, size_t length)
{
    MemberText its;
    return decode(key, &its) && strlen(its.text) == length && memcmp(its.text, name, length) == 0;
}

/* The text of the last value under a key of an object. */
static int find_value(Bytes object, const char *name, size_t length, Bytes *value)
{
    Rest rest = rest_of(object);
    int is_found = 0;
    if (!pass(&rest, '{'))
        return 0;
    do {
        Bytes key = pass_value(&rest);
        if (!pass(&rest, ':'))
            return is_found;
        Bytes its = pass_value(&rest);
        if (is_name(key, name, length)) {
            *value = its;
            is_found = 1;
        }
    } while (pass(&rest, ','));
    return is_found;
}

int read_member(Bytes fault, const char *name, size_t length, MemberText *out)
{
    const char *stop = memchr(name, '.', length);
    Bytes value = fault;
    if (stop) {
        size_t before = (size_t)(stop - name);
        return find_value(fault, name, before, &value) && read_member(value, stop + 1, length - before - 1, out);
    }
    return find_value(fault, name, length, &value) && decode(value, out);
}
