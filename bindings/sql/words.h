/* The words that explain a fault, from bindings/faults.json. The last row of each array has a 0 in front. */
#ifndef MVTGATE_SQL_WORDS_H
#define MVTGATE_SQL_WORDS_H

typedef struct {
    int code;
    const char *title, *sentence, *cause, *remedy;
} FaultWords;
extern const FaultWords all_fault_words[];

/* What is said of the message that a wire fault is in. */
typedef struct {
    const char *scope, *words;
} ScopeWords;
extern const ScopeWords all_scope_words[];

/* The name of a field that a message knows, by the field's number in decimal digits. */
typedef struct {
    const char *scope, *number, *name;
} FieldName;
extern const FieldName all_field_names[];

/* That all counts from 0; and what is said of the field 0, of one with a name, and of any other. */
extern const char *const counting_words, *const key_field_words, *const known_field_words, *const unknown_field_words;

#endif
