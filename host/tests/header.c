/* Calls the functions of isle.h and every entry of the library. Compiled as C99 and as C++11, beside
   header_again.c, which includes isle.h once more. Exit status: 0 all as expected, else 1. */
#include "isle.h"

#include <stdio.h>
#include <string.h>

int refusals_with_a_text(void);

static int wrong = 0;

static void expect(int holds, const char *what)
{
    if (!holds) {
        printf("not as expected: %s\n", what);
        wrong = 1;
    }
}

#define RULE_TOKENS 8
static const char rule_text[] = "(rule (A x) y)";

static const uint8_t *text_bytes(void)
{
    return (const uint8_t *)rule_text;
}

static void make_tokens(uint8_t *tokens)
{
    isle_put_mark(tokens, 0, ISLE_TOKEN_LPAREN, 0);
    isle_put_symbol(tokens, 1, 1, 1, 4);
    isle_put_mark(tokens, 2, ISLE_TOKEN_LPAREN, 6);
    isle_put_symbol(tokens, 3, 7, 7, 1);
    isle_put_symbol(tokens, 4, 9, 9, 1);
    isle_put_mark(tokens, 5, ISLE_TOKEN_RPAREN, 10);
    isle_put_symbol(tokens, 6, 12, 12, 1);
    isle_put_mark(tokens, 7, ISLE_TOKEN_RPAREN, 13);
}

static void test_result(void)
{
    const uint64_t result = (uint64_t)255 << 56 | (uint64_t)0xABCDEF << 32 | 0x89ABCDEFu;
    expect(isle_result_refusal(result) == 255, "the refusal of a result");
    expect(isle_result_count(result) == 0xABCDEF, "the count of a result");
    expect(isle_result_place(result) == 0x89ABCDEFu, "the place of a result");
    expect(!isle_result_is_accepted(result), "a refused result");
    expect(isle_result_is_accepted((uint64_t)7 << 32), "an accepted result");
}

static void test_record(void)
{
    const isle_record record = {201, 202, 51234, 4123456789u, 0x0123456789ABCDEFu, 0xFEDCBA9876543210u};
    uint8_t list[2 * ISLE_RECORD_BYTES];
    isle_record again;

    memset(list, 0xEE, sizeof list);
    isle_put_record(list, 1, record);
    again = isle_get_record(list, 1);
    expect(list[ISLE_RECORD_BYTES - 1] == 0xEE, "the record before is untouched");
    expect(list[ISLE_RECORD_BYTES] == 201 && list[ISLE_RECORD_BYTES + 1] == 202, "kind and flags come first");
    expect(again.kind == 201 && again.flags == 202 && again.child_count == 51234, "the first half of word 0");
    expect(again.position == 4123456789u, "the position");
    expect(again.word1 == 0x0123456789ABCDEFu && again.word2 == 0xFEDCBA9876543210u, "words 1 and 2");
}

static void test_token(void)
{
    uint8_t tokens[2 * ISLE_TOKEN_BYTES];
    isle_put_mark(tokens, 0, ISLE_TOKEN_AT, 3);
    isle_put_int(tokens, 1, 4000000000u, 5, 6);
    expect(isle_token_kind_at(tokens, 0) == ISLE_TOKEN_AT, "the kind of a mark");
    expect(isle_token_kind_at(tokens, 1) == ISLE_TOKEN_INT, "the kind of an integer");
    expect(isle_token_position_at(tokens, 0) == 3, "the position of a mark");
    expect(isle_token_position_at(tokens, 1) == 4000000000u, "the position of an integer");
    expect(isle_get_word(tokens + 32) == 5 && isle_get_word(tokens + 40) == 6, "the halves of an integer");
}

static void test_texts(void)
{
    expect(strcmp(isle_refusal_text(ISLE_REFUSAL_ARGUMENT_COUNT), "wrong number of arguments") == 0, "the text of 31");
    expect(strcmp(isle_refusal_text(9), "unknown refusal") == 0, "the text of 9");
    expect(strcmp(isle_refusal_text(-1), "unknown refusal") == 0, "the text of -1");
    /* 1 to 8, 10 to 27, 30 to 33, 40 and 41 */
    expect(refusals_with_a_text() == 8 + 18 + 4 + 2, "a text for each refusal of the specification");
}

/* The records of the rule are: Rule, Term, its name A, Var, its name x, Var, its name y. */
static void test_entries(void)
{
    uint8_t tokens[RULE_TOKENS * ISLE_TOKEN_BYTES];
    uint8_t records[3 * RULE_TOKENS * ISLE_RECORD_BYTES];
    uint8_t made[4 * ISLE_RECORD_BYTES];
    uint8_t out[4 * ISLE_RECORD_BYTES];
    uint8_t store[1];
    const uint8_t *pattern = records + ISLE_RECORD_BYTES;
    const uint8_t *name = records + 4 * ISLE_RECORD_BYTES;
    const uint8_t *variable = records + 3 * ISLE_RECORD_BYTES;
    const size_t size = sizeof rule_text - 1;
    uint64_t result;

    make_tokens(tokens);
    expect(isle_read_space(sizeof tokens) == sizeof records, "the space for reading");
    result = isle_read(tokens, sizeof tokens, text_bytes(), size, 14, records, sizeof records);
    expect(result == (uint64_t)7 << 32, "reading");
    expect(isle_get_record(records, 0).kind == ISLE_KIND_RULE, "a rule is read");
    result = isle_make_template(text_bytes(), size, pattern, 4 * ISLE_RECORD_BYTES, name, ISLE_RECORD_BYTES, made,
                                sizeof made);
    expect(result == (uint64_t)3 << 32, "making a template");
    expect(isle_get_record(made, 2).kind == ISLE_KIND_PATTERN_MACRO_ARG, "a macro argument is made");
    result = isle_substitute(text_bytes(), size, made, 3 * ISLE_RECORD_BYTES, variable, 2 * ISLE_RECORD_BYTES, out,
                             sizeof out);
    expect(result == (uint64_t)4 << 32, "substituting");
    expect(memcmp(out, pattern, sizeof out) == 0, "the pattern comes back");
    result = isle_open(text_bytes(), size, records, 7 * ISLE_RECORD_BYTES, pattern, 4 * ISLE_RECORD_BYTES, store, 1,
                       out, sizeof out);
    expect(result == (uint64_t)4 << 32, "opening");
    expect(memcmp(out, pattern, sizeof out) == 0, "a pattern that calls nothing is opened to itself");
    result = isle_open(text_bytes(), size, records, 7 * ISLE_RECORD_BYTES, pattern, 4 * ISLE_RECORD_BYTES, store, 1,
                       out, sizeof out - 1);
    expect(isle_result_refusal(result) == ISLE_REFUSAL_NO_SPACE && isle_result_place(result) == 1, "too little space");
}

/* Reading the text gives the records that reading its tokens gives. */
static void test_text_entry(void)
{
    static const char name_and_form_feed[] = "(rule n \f";
    uint8_t tokens[RULE_TOKENS * ISLE_TOKEN_BYTES];
    uint8_t records[3 * RULE_TOKENS * ISLE_RECORD_BYTES];
    uint8_t again[sizeof records];
    const size_t size = sizeof rule_text - 1;
    uint64_t result;

    make_tokens(tokens);
    result = isle_read(tokens, sizeof tokens, text_bytes(), size, 14, records, sizeof records);
    expect(isle_read_text_space(size) == 3 * size * ISLE_RECORD_BYTES, "the space for reading text");
    expect(isle_read_text_space(1000000) == isle_read_space(ISLE_MAX_TOKENS * ISLE_TOKEN_BYTES), "the most of it");
    expect(isle_read_text(text_bytes(), size, again, sizeof again) == result, "reading text");
    expect(memcmp(records, again, sizeof records) == 0, "text and tokens give the same records");
    result = isle_read_text((const uint8_t *)name_and_form_feed, 9, again, sizeof again);
    expect(result == ((uint64_t)ISLE_REFUSAL_RULE_NAME << 56 | 6), "a bad byte behind the name of a rule");
    result = isle_read_text((const uint8_t *)name_and_form_feed + 1, 8, again, sizeof again);
    expect(result == (uint64_t)ISLE_REFUSAL_UNEXPECTED_TOKEN << 56, "a bad byte further on");
    result = isle_read_text((const uint8_t *)name_and_form_feed + 8, 1, again, sizeof again);
    expect(result == (uint64_t)ISLE_REFUSAL_NOT_A_TOKEN << 56, "a bad byte");
    expect(isle_result_refusal(isle_read_text(text_bytes(), size, again, 6 * ISLE_RECORD_BYTES)) == 6, "six records");
}

/* Every buffer is NULL with length 0. */
static void test_null(void)
{
    const isle_record wildcard = {ISLE_KIND_PATTERN_WILDCARD, 0, 0, 0, 0, 0};
    const uint64_t no_space = (uint64_t)ISLE_REFUSAL_NO_SPACE << 56;
    uint8_t one[ISLE_RECORD_BYTES];
    uint8_t out[ISLE_RECORD_BYTES];
    uint8_t mark[ISLE_TOKEN_BYTES];

    isle_put_record(one, 0, wildcard);
    isle_put_mark(mark, 0, ISLE_TOKEN_LPAREN, 0);
    expect(isle_read(NULL, 0, NULL, 0, 0, NULL, 0) == 0, "reading nothing");
    expect(isle_result_refusal(isle_read(mark, sizeof mark, NULL, 0, 1, NULL, 0)) == 11, "reading a parenthesis");
    expect(isle_read_text(NULL, 0, NULL, 0) == 0, "reading no text");
    expect(isle_read_text(text_bytes(), sizeof rule_text - 1, NULL, 0) == no_space, "reading text, no space");
    expect(isle_result_refusal(isle_make_template(NULL, 0, NULL, 0, NULL, 0, NULL, 0)) == 3, "a template of nothing");
    expect(isle_make_template(NULL, 0, one, sizeof one, NULL, 0, NULL, 0) == no_space, "a template, no space");
    expect(isle_result_is_accepted(isle_make_template(NULL, 0, one, sizeof one, NULL, 0, out, sizeof out)),
           "a template without parameters");
    expect(isle_result_refusal(isle_substitute(NULL, 0, NULL, 0, NULL, 0, NULL, 0)) == 3, "nothing substituted");
    expect(isle_substitute(NULL, 0, one, sizeof one, NULL, 0, NULL, 0) == no_space, "substituting, no space");
    expect(isle_result_refusal(isle_open(NULL, 0, NULL, 0, NULL, 0, NULL, 0, NULL, 0)) == 3, "opening nothing");
    expect(isle_open(NULL, 0, NULL, 0, one, sizeof one, NULL, 0, NULL, 0) == (no_space | 1), "opening, no space");
    expect(isle_result_is_accepted(isle_open(NULL, 0, NULL, 0, one, sizeof one, NULL, 0, out, sizeof out)),
           "opening without definitions and store");
}

int main(void)
{
    test_result();
    test_record();
    test_token();
    test_texts();
    test_entries();
    test_text_entry();
    test_null();
    return wrong;
}
