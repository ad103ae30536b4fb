/* The C interface of libisle.a, which `rt staticlib isle` makes for x86-64 Linux. C99 and C++11.

   Five entries work on buffers that the caller lends: isle_read makes definition records of tokens,
   isle_read_text of text, isle_make_template and isle_substitute work on single patterns, and
   isle_open shows a pattern with its extractors opened. Each returns one number, the result, and
   nothing else is kept or changed: there is no global state and no allocation.

   What the entries do with every input is written and proved in crates/isle/src/lib.rt. This file
   is not proved: it says the same layout again for C. */
#ifndef ISLE_H
#define ISLE_H

#include <stddef.h>
#include <stdint.h>

#ifdef __cplusplus
extern "C" {
#endif

/* ---- Limits and sizes ---- */

#define ISLE_TOKEN_BYTES 24     /* one token record */
#define ISLE_RECORD_BYTES 24    /* one record of a definition, a pattern or an expression */
#define ISLE_MAX_TOKENS 16384   /* more whole tokens are refused with 7 */
#define ISLE_MAX_TEXT 65536     /* more bytes of text are refused with 7 */
#define ISLE_MAX_RECORDS 65536  /* more whole records in a lent list are refused with 7 */
#define ISLE_MAX_DEPTH 64       /* patterns and expressions nested deeper are refused with 8 */
#define ISLE_MAX_EXTRACTORS 256 /* more extractors are refused with 33 when opening */

/* ---- Token records ----

   Three words of 64 bits, the most significant byte first:
     word 0   kind 4 bits, zero 28 bits, position 32 bits
     word 1   a symbol's start and length in the text, 32 bits each; or an integer's upper half
     word 2   an integer's lower half
   All else is zero. An integer is 128 bits in two's complement. A position is the byte offset at
   which the token starts in the text. The entries only test that it is not above the end position, and
   hand it on. */

enum isle_token_kind {
    ISLE_TOKEN_LPAREN = 1, /* ( */
    ISLE_TOKEN_RPAREN = 2, /* ) */
    ISLE_TOKEN_SYMBOL = 3,
    ISLE_TOKEN_INT = 4,
    ISLE_TOKEN_AT = 5 /* @ */
};

/* ---- Records ----

   Three words of 64 bits, the most significant byte first:
     word 0   kind 8 bits, flags 8 bits, child count 16 bits, position 32 bits
     word 1, word 2   by kind, as said below; otherwise zero
   A record's children follow it, first to last, each with its own children. The position is the
   offset in the text, or 0 for a kind that has none (Fields::Unit, the kinds of attributes, the
   priority of a rule).

   The kinds have the names of the Rust's ast.rs, as crates/trees/specs/Ast.antt has them. The
   comment has the children, and the flags and words that are used. */

enum isle_kind {
    ISLE_KIND_TYPE_DEF = 1,              /* name, value; flags 1 extern, 2 nodebug */
    ISLE_KIND_TYPE_VALUE_PRIMITIVE = 2,  /* name */
    ISLE_KIND_TYPE_VALUE_ENUM = 3,       /* variants */
    ISLE_KIND_TYPE_VALUE_STRUCT = 4,     /* fields: one record of kind 6, 7 or 8 */
    ISLE_KIND_VARIANT = 5,               /* name, fields */
    ISLE_KIND_FIELDS_UNIT = 6,           /* none */
    ISLE_KIND_FIELDS_STRUCT = 7,         /* fields with names */
    ISLE_KIND_FIELDS_TUPLE = 8,          /* fields by place */
    ISLE_KIND_STRUCT_FIELD = 9,          /* name, type */
    ISLE_KIND_TUPLE_FIELD = 10,          /* type; word 1 its place from 0 */
    ISLE_KIND_DECL = 11,                 /* term, argument types, result; flags 1 pure, 2 multi, 4 partial, 8 rec */
    ISLE_KIND_ATTR = 12,                 /* target, kinds of attributes; flag 1: the target is a rule */
    ISLE_KIND_ATTR_KIND_CHAIN = 13,      /* none */
    ISLE_KIND_ATTR_KIND_PRIORITY = 14,   /* none */
    ISLE_KIND_ATTR_KIND_TAG = 15,        /* name */
    ISLE_KIND_EXTERN_CONSTRUCTOR = 16,   /* term, function */
    ISLE_KIND_EXTERN_EXTRACTOR = 17,     /* term, function; flag 1 infallible */
    ISLE_KIND_EXTERN_CONST = 18,         /* name without its $, type */
    ISLE_KIND_EXTRACTOR = 19,            /* term, parameters, template */
    ISLE_KIND_RULE = 20,                 /* name, priority, pattern, if-lets, expression; flags 1 named, 2 has priority */
    ISLE_KIND_PRIORITY = 21,             /* none; word 1, a signed number of 64 bits */
    ISLE_KIND_IF_LET = 22,               /* pattern, expression */
    ISLE_KIND_CONVERTER = 23,            /* inner type, outer type, term */
    ISLE_KIND_IDENTIFIER = 24,           /* none; word 1: start and length in the text, 32 bits each */
    ISLE_KIND_PATTERN_VAR = 30,          /* name */
    ISLE_KIND_PATTERN_BIND = 31,         /* name, pattern */
    ISLE_KIND_PATTERN_CONST_BOOL = 32,   /* none; flag 1 true */
    ISLE_KIND_PATTERN_CONST_INT = 33,    /* none; words 1 and 2: upper and lower half */
    ISLE_KIND_PATTERN_CONST_PRIM = 34,   /* name without its $ */
    ISLE_KIND_PATTERN_TERM = 35,         /* name, patterns */
    ISLE_KIND_PATTERN_WILDCARD = 36,     /* none */
    ISLE_KIND_PATTERN_AND = 37,          /* patterns */
    ISLE_KIND_PATTERN_MACRO_ARG = 38,    /* none; word 1: the parameter's place from 0 */
    ISLE_KIND_EXPR_TERM = 40,            /* name, expressions */
    ISLE_KIND_EXPR_VAR = 41,             /* name */
    ISLE_KIND_EXPR_CONST_BOOL = 42,      /* none; flag 1 true */
    ISLE_KIND_EXPR_CONST_INT = 43,       /* none; words 1 and 2: upper and lower half */
    ISLE_KIND_EXPR_CONST_PRIM = 44,      /* name without its $ */
    ISLE_KIND_EXPR_LET = 45,             /* let definitions, body */
    ISLE_KIND_LET_DEF = 46               /* name, type, expression */
};

enum isle_flag {
    ISLE_FLAG_TYPE_EXTERN = 1,
    ISLE_FLAG_TYPE_NODEBUG = 2,
    ISLE_FLAG_DECL_PURE = 1,
    ISLE_FLAG_DECL_MULTI = 2,
    ISLE_FLAG_DECL_PARTIAL = 4,
    ISLE_FLAG_DECL_REC = 8,
    ISLE_FLAG_ATTR_RULE = 1,
    ISLE_FLAG_EXTRACTOR_INFALLIBLE = 1,
    ISLE_FLAG_RULE_NAMED = 1,
    ISLE_FLAG_RULE_PRIORITY = 2,
    ISLE_FLAG_TRUE = 1
};

/* ---- The result ----

   refusal 8 bits (0: accepted), record count 24 bits, place 32 bits, the refusal highest.
   Accepted: the place is 0, and the output holds that many records and then zeros to its end.
   Refused: the count is 0, and every output is zero to its end. */

/* What the place of a refusal is:
     reading: 2 the index of the token; 8, 10 to 27, 40 and 41 a position, which is an offset in the text;
     the other entries: 4, 5, 8 and 30 to 33 the index of a record, from 0. In substitution it counts
     the template's records. In opening it counts the definitions' records, and the pattern's go on
     after them;
     6 of isle_open: 0 the store, 1 the output;
     1, 3, 7, and 6 of the other entries: always 0. */
enum isle_refusal {
    ISLE_ACCEPTED = 0,
    ISLE_REFUSAL_PART_OF_A_RECORD = 1,
    ISLE_REFUSAL_BAD_TOKEN = 2,
    ISLE_REFUSAL_MALFORMED_LIST = 3,
    ISLE_REFUSAL_MACRO_ARG = 4,
    ISLE_REFUSAL_MACRO_ARG_INDEX = 5,
    ISLE_REFUSAL_NO_SPACE = 6,
    ISLE_REFUSAL_TOO_MUCH = 7,
    ISLE_REFUSAL_TOO_DEEP = 8,
    ISLE_REFUSAL_UNEXPECTED_TOKEN = 10,
    ISLE_REFUSAL_UNEXPECTED_END = 11,
    ISLE_REFUSAL_UNKNOWN_DEFINITION = 12,
    ISLE_REFUSAL_EMPTY_IDENTIFIER = 13,
    ISLE_REFUSAL_FIRST_CHARACTER = 14,
    ISLE_REFUSAL_LATER_CHARACTER = 15,
    ISLE_REFUSAL_NOT_A_CONSTANT = 16,
    ISLE_REFUSAL_UNKNOWN_PRAGMA = 17,
    ISLE_REFUSAL_TYPE_MODIFIER = 18,
    ISLE_REFUSAL_TYPE_DEFINITION = 19,
    ISLE_REFUSAL_ATTRIBUTE = 20,
    ISLE_REFUSAL_VERIFICATION_ATTRIBUTE = 21,
    ISLE_REFUSAL_EXTERN = 22,
    ISLE_REFUSAL_RULE_NAME = 23,
    ISLE_REFUSAL_PRIORITY = 24,
    ISLE_REFUSAL_PATTERN = 25,
    ISLE_REFUSAL_EXPRESSION = 26,
    ISLE_REFUSAL_UNCOVERED_WORD = 27,
    ISLE_REFUSAL_EXTRACTOR_NAME = 30,
    ISLE_REFUSAL_ARGUMENT_COUNT = 31,
    ISLE_REFUSAL_CALL_ORDER = 32,
    ISLE_REFUSAL_TOO_MANY_EXTRACTORS = 33,
    ISLE_REFUSAL_NOT_A_TOKEN = 40,
    ISLE_REFUSAL_NOT_ASCII = 41
};

/* A short English text for a refusal's number; another number gives "unknown refusal". */
static inline const char *isle_refusal_text(int refusal)
{
    switch (refusal) {
    case ISLE_ACCEPTED: return "accepted";
    case ISLE_REFUSAL_PART_OF_A_RECORD: return "the bytes end inside a record";
    case ISLE_REFUSAL_BAD_TOKEN: return "bad token record";
    case ISLE_REFUSAL_MALFORMED_LIST: return "not a list of the kind called for";
    case ISLE_REFUSAL_MACRO_ARG: return "macro argument where none may stand";
    case ISLE_REFUSAL_MACRO_ARG_INDEX: return "no pattern given for this macro argument";
    case ISLE_REFUSAL_NO_SPACE: return "not enough space";
    case ISLE_REFUSAL_TOO_MUCH: return "too many tokens, records or text bytes";
    case ISLE_REFUSAL_TOO_DEEP: return "nested more than 64 deep";
    case ISLE_REFUSAL_UNEXPECTED_TOKEN: return "unexpected token";
    case ISLE_REFUSAL_UNEXPECTED_END: return "unexpected end";
    case ISLE_REFUSAL_UNKNOWN_DEFINITION: return "unknown definition word";
    case ISLE_REFUSAL_EMPTY_IDENTIFIER: return "empty identifier";
    case ISLE_REFUSAL_FIRST_CHARACTER: return "bad first character of an identifier";
    case ISLE_REFUSAL_LATER_CHARACTER: return "bad later character of an identifier";
    case ISLE_REFUSAL_NOT_A_CONSTANT: return "not a constant, which is $ and at least one character more";
    case ISLE_REFUSAL_UNKNOWN_PRAGMA: return "unknown pragma";
    case ISLE_REFUSAL_TYPE_MODIFIER: return "unknown type modifier before this";
    case ISLE_REFUSAL_TYPE_DEFINITION: return "unknown type definition";
    case ISLE_REFUSAL_ATTRIBUTE: return "not a valid attribute";
    case ISLE_REFUSAL_VERIFICATION_ATTRIBUTE: return "not a valid verification attribute";
    case ISLE_REFUSAL_EXTERN: return "invalid extern";
    case ISLE_REFUSAL_RULE_NAME: return "invalid rule name";
    case ISLE_REFUSAL_PRIORITY: return "priority of the rule outside 64 bits";
    case ISLE_REFUSAL_PATTERN: return "not a pattern";
    case ISLE_REFUSAL_EXPRESSION: return "not an expression";
    case ISLE_REFUSAL_UNCOVERED_WORD: return "definition word that is not covered";
    case ISLE_REFUSAL_EXTRACTOR_NAME: return "name of an earlier extractor";
    case ISLE_REFUSAL_ARGUMENT_COUNT: return "wrong number of arguments";
    case ISLE_REFUSAL_CALL_ORDER: return "template calls its own or a later extractor";
    case ISLE_REFUSAL_TOO_MANY_EXTRACTORS: return "more than 256 extractors";
    case ISLE_REFUSAL_NOT_A_TOKEN: return "not a token: bad character, bad number or open comment";
    case ISLE_REFUSAL_NOT_ASCII: return "byte that is not ASCII";
    default: return "unknown refusal";
    }
}

static inline int isle_result_refusal(uint64_t result)
{
    return (int)(result >> 56);
}

static inline uint32_t isle_result_count(uint64_t result)
{
    return (uint32_t)(result >> 32) & 0xFFFFFFu;
}

static inline uint32_t isle_result_place(uint64_t result)
{
    return (uint32_t)(result & 0xFFFFFFFFu);
}

/* 1 if accepted, else 0. */
static inline int isle_result_is_accepted(uint64_t result)
{
    return isle_result_refusal(result) == ISLE_ACCEPTED;
}

/* ---- Words in bytes ---- */

static inline uint64_t isle_get_word(const uint8_t *bytes)
{
    uint64_t word = 0;
    size_t i;
    for (i = 0; i < 8; i++) {
        word = word << 8 | bytes[i];
    }
    return word;
}

static inline void isle_put_word(uint8_t *bytes, uint64_t word)
{
    size_t i;
    for (i = 8; i > 0; i--) {
        bytes[i - 1] = (uint8_t)(word & 0xFFu);
        word >>= 8;
    }
}

static inline uint32_t isle_upper_half(uint64_t word)
{
    return (uint32_t)(word >> 32);
}

static inline uint32_t isle_lower_half(uint64_t word)
{
    return (uint32_t)(word & 0xFFFFFFFFu);
}

/* A word of two halves: a name's start and length. */
static inline uint64_t isle_two_halves(uint32_t upper, uint32_t lower)
{
    return (uint64_t)upper << 32 | lower;
}

/* ---- A record by value ---- */

typedef struct isle_record {
    uint8_t kind;
    uint8_t flags;
    uint16_t child_count;
    uint32_t position;
    uint64_t word1;
    uint64_t word2;
} isle_record;

/* The record at an index of a list. The list must hold it: (index + 1) * 24 bytes. */
static inline isle_record isle_get_record(const uint8_t *list, size_t index)
{
    const uint8_t *bytes = list + index * ISLE_RECORD_BYTES;
    const uint64_t word0 = isle_get_word(bytes);
    isle_record record;
    record.kind = (uint8_t)(word0 >> 56);
    record.flags = (uint8_t)(word0 >> 48 & 0xFFu);
    record.child_count = (uint16_t)(word0 >> 32 & 0xFFFFu);
    record.position = isle_lower_half(word0);
    record.word1 = isle_get_word(bytes + 8);
    record.word2 = isle_get_word(bytes + 16);
    return record;
}

/* Writes a record at an index of a list that has space for it. */
static inline void isle_put_record(uint8_t *list, size_t index, isle_record record)
{
    uint8_t *bytes = list + index * ISLE_RECORD_BYTES;
    const uint32_t upper = (uint32_t)record.kind << 24 | (uint32_t)record.flags << 16 | record.child_count;
    isle_put_word(bytes, isle_two_halves(upper, record.position));
    isle_put_word(bytes + 8, record.word1);
    isle_put_word(bytes + 16, record.word2);
}

/* ---- Tokens ---- */

static inline void isle_put_token(uint8_t *tokens, size_t index, enum isle_token_kind kind, uint32_t position,
                                  uint64_t word1, uint64_t word2)
{
    uint8_t *bytes = tokens + index * ISLE_TOKEN_BYTES;
    isle_put_word(bytes, (uint64_t)kind << 60 | position);
    isle_put_word(bytes + 8, word1);
    isle_put_word(bytes + 16, word2);
}

/* A parenthesis or an @. */
static inline void isle_put_mark(uint8_t *tokens, size_t index, enum isle_token_kind kind, uint32_t position)
{
    isle_put_token(tokens, index, kind, position, 0, 0);
}

/* A symbol that stands in the text from `start` on. */
static inline void isle_put_symbol(uint8_t *tokens, size_t index, uint32_t position, uint32_t start, uint32_t length)
{
    isle_put_token(tokens, index, ISLE_TOKEN_SYMBOL, position, isle_two_halves(start, length), 0);
}

/* An integer of 128 bits, in two halves. */
static inline void isle_put_int(uint8_t *tokens, size_t index, uint32_t position, uint64_t upper, uint64_t lower)
{
    isle_put_token(tokens, index, ISLE_TOKEN_INT, position, upper, lower);
}

/* The kind of the token at an index, 0 to 15. The list must hold it. */
static inline unsigned isle_token_kind_at(const uint8_t *tokens, size_t index)
{
    return (unsigned)tokens[index * ISLE_TOKEN_BYTES] >> 4;
}

static inline uint32_t isle_token_position_at(const uint8_t *tokens, size_t index)
{
    return isle_lower_half(isle_get_word(tokens + index * ISLE_TOKEN_BYTES));
}

/* ---- The entries ----

   A buffer is a pointer and a length in bytes, which must be there for the whole call.

   What the caller owes:
   - An output (out, store) overlaps no other buffer of the same call. Inputs may overlap each other.
   - During the call nobody else writes to a buffer, and nobody else reads an output.
   - A pointer is not null. For a buffer of length 0 any address will do; nothing is read or written
     there. (NULL with length 0 is tried by host/test with every parameter, and works in the library as
     built; but the documents of the language do not promise it.)
   - The stack has 1 MiB left. That is a test, of isle_open and isle_read_text at their limits on a thread
     with no more, and not a theorem. The three entries that take records hold a table of 256 KiB there,
     isle_read_text one of 384 KiB; isle_read holds no table. The functions of reading call each other at
     most as deep as patterns and expressions are nested.
   Everything else is tested by the entries: any length, any bytes, any end position.

   Alignment: none is needed. Threads: the entries have no state of their own, so calls with buffers of
   their own may run at the same time.

   The space of an output is the whole records that fit into it, and never counts as more than
   ISLE_MAX_RECORDS; bytes after the last whole record are set to zero. Too little space is always
   told, by refusal 6, which means that everything else was accepted and the complete list is
   longer than the space. What is always enough:
   - isle_read: three records for each token (isle_read_space).
   - isle_read_text: the same, and a token has at least one byte (isle_read_text_space).
   - isle_make_template: as many bytes as the pattern has. A template never has more records.
   - isle_substitute: the records of the template that are no macro arguments, and for each macro argument
     the records of the pattern with its index.
   - isle_open: there is no small bound, since each extractor may call the ones before it more than once.
     ISLE_MAX_OUTPUT_BYTES for the store and for the output is the most that is ever used. A refusal 6
     with that much means that the opened templates (place 0) or the opened pattern (place 1) have more than
     ISLE_MAX_RECORDS records, and no space helps. */

#define ISLE_MAX_OUTPUT_BYTES 1572864 /* ISLE_MAX_RECORDS records */

/* Bytes that are always enough for the records of so many tokens, of which no more than may be are read. */
static inline size_t isle_space_for_tokens(size_t count)
{
    const size_t read = count < ISLE_MAX_TOKENS ? count : ISLE_MAX_TOKENS;
    return 3 * read * ISLE_RECORD_BYTES;
}

/* Bytes that are always enough for isle_read's output. */
static inline size_t isle_read_space(size_t tokens_length)
{
    return isle_space_for_tokens(tokens_length / ISLE_TOKEN_BYTES);
}

/* Bytes that are always enough for isle_read_text's output. */
static inline size_t isle_read_text_space(size_t text_length)
{
    return isle_space_for_tokens(text_length);
}

/* The records of the definitions that the tokens are. The text is what the symbols stand in; `end` is the
   position after the last token, which an unexpected end is refused at. No name in what is read is empty: a
   `$` by itself is no constant (16). A list that is lent to the other entries may have an empty name.
   Refusals: 7, 1, 2; then 8 or 10 to 27, the first from the left; then 6. */
uint64_t isle_read(const uint8_t *tokens, size_t tokens_length, const uint8_t *text, size_t text_length,
                   uint32_t end, uint8_t *out, size_t out_length);

/* The records of the definitions that a text is: those that isle_read makes of its tokens, the end position
   being the text's length.
   Refusals: 7 for the text; 41 at the first byte of 128 or more; then 8, 10 to 27 and 40, the first from the
   left, and 7 at place 0 where one token more than ISLE_MAX_TOKENS would be looked at; then 6.
   40 stands where a byte, a comment or a number is no part of the language. Each token is looked at when the
   one before it is taken. So what is wrong with the kind of the one before, or that no word tried for
   stands there (19, 22), comes first, and what is wrong with its spelling or value comes after. Behind a
   rule's name it is 23 at the name instead of 40. */
uint64_t isle_read_text(const uint8_t *text, size_t text_length, uint8_t *out, size_t out_length);

/* The template of one pattern by its parameters, a list of records of kind 24: a Var that is named as a
   parameter, or a Bind so named over a Wildcard, becomes a macro argument with the first such index.
   Refusals: 7, 1, 3, 4, 6. */
uint64_t isle_make_template(const uint8_t *text, size_t text_length, const uint8_t *pattern, size_t pattern_length,
                            const uint8_t *params, size_t params_length, uint8_t *out, size_t out_length);

/* One template with each macro argument replaced by the pattern at its index. The patterns stand one after
   the other. Refusals: 7, 1, 3, 5, 6. */
uint64_t isle_substitute(const uint8_t *text, size_t text_length, const uint8_t *template_records,
                         size_t template_length, const uint8_t *patterns, size_t patterns_length,
                         uint8_t *out, size_t out_length);

/* One pattern with its calls of the definitions' extractors opened, to the output; the opened templates, in
   the order of the definitions, to the store. The count of the result is the output's alone.
   Refusals: 7, 1, 3, 4, 8, 33; then for each extractor 30, and 32 and 31 of its calls; 31 of the
   pattern's calls; 6 of the store; 6 of the output. */
uint64_t isle_open(const uint8_t *text, size_t text_length, const uint8_t *defs, size_t defs_length,
                   const uint8_t *pattern, size_t pattern_length, uint8_t *store, size_t store_length,
                   uint8_t *out, size_t out_length);

#ifdef __cplusplus
}
#endif

#endif
