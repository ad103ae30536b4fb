#include "pattern.h"

#include "decimal.h"
#include "isle.h"
#include "memory.h"

#include <stdio.h>
#include <stdlib.h>

/* A pattern that was read is at most 64 deep, but an opened one can be thousands deep: below that the depth is
   written as a number. */
#define MAX_INDENTED_DEPTH ISLE_MAX_DEPTH

/* A piece that is not complete: how many children are still to come, and whether a `)` ends it. */
struct open_piece {
    uint32_t children_left;
    int has_parenthesis;
};

static void print_position(const struct source *source, uint32_t position)
{
    char label[24] = "?";
    struct line_column at;
    if (find_position(source, position, &at)) {
        snprintf(label, sizeof label, "%lu:%lu", (unsigned long)at.line, (unsigned long)at.column);
    }
    printf("%9s  ", label);
}

/* The depth is counted from 1. */
static void print_indentation(size_t depth)
{
    if (depth > MAX_INDENTED_DEPTH) {
        printf("%*s[depth %lu] ", MAX_INDENTED_DEPTH * 2, "", (unsigned long)depth);
        return;
    }
    printf("%*s", (int)(depth - 1) * 2, "");
}

/* Whether the first child is the name, which is printed with its parent. */
static int has_name(uint8_t kind)
{
    return kind == ISLE_KIND_PATTERN_VAR || kind == ISLE_KIND_PATTERN_BIND || kind == ISLE_KIND_PATTERN_CONST_PRIM ||
           kind == ISLE_KIND_PATTERN_TERM;
}

static void print_before_name(const isle_record *piece)
{
    switch (piece->kind) {
    case ISLE_KIND_PATTERN_CONST_BOOL: fputs(piece->flags & ISLE_FLAG_TRUE ? "true" : "false", stdout); break;
    case ISLE_KIND_PATTERN_CONST_INT: print_integer(piece->word1, piece->word2); break;
    case ISLE_KIND_PATTERN_CONST_PRIM: putchar('$'); break;
    case ISLE_KIND_PATTERN_TERM: putchar('('); break;
    case ISLE_KIND_PATTERN_WILDCARD: putchar('_'); break;
    case ISLE_KIND_PATTERN_AND: fputs("(and", stdout); break;
    default: break;
    }
}

/* Prints the piece at the index, with its name. Returns how many of its children have been printed. */
static uint32_t print_piece(const struct source *source, struct record_list pattern, size_t index)
{
    const isle_record piece = isle_get_record(pattern.bytes, index);
    isle_record name;

    print_before_name(&piece);
    if (!has_name(piece.kind) || index + 1 >= pattern.count) {
        return 0;
    }
    name = isle_get_record(pattern.bytes, index + 1);
    print_name(source, isle_upper_half(name.word1), isle_lower_half(name.word1));
    if (piece.kind == ISLE_KIND_PATTERN_BIND) {
        fputs(" @", stdout);
    }
    return 1;
}

/* Ends the pieces that have no child left. Returns how many are still open. */
static size_t close_pieces(struct open_piece *open, size_t depth)
{
    while (depth > 0 && open[depth - 1].children_left == 0) {
        depth--;
        if (open[depth].has_parenthesis) {
            putchar(')');
        }
        if (depth > 0) {
            open[depth - 1].children_left--;
        }
    }
    return depth;
}

static void print_pieces(const struct source *source, struct record_list pattern, struct open_piece *open)
{
    size_t depth = 0;
    size_t index = 0;
    while (index < pattern.count) {
        const isle_record piece = isle_get_record(pattern.bytes, index);
        uint32_t printed;

        print_position(source, piece.position);
        print_indentation(depth + 1);
        printed = print_piece(source, pattern, index);
        open[depth].children_left = piece.child_count > printed ? piece.child_count - printed : 0;
        open[depth].has_parenthesis = piece.kind == ISLE_KIND_PATTERN_TERM || piece.kind == ISLE_KIND_PATTERN_AND;
        depth = close_pieces(open, depth + 1);
        putchar('\n');
        index += 1 + printed;
    }
}

int print_pattern(const struct source *source, struct record_list pattern)
{
    /* At most one piece for each record is open. */
    struct open_piece *open = allocate(pattern.count * sizeof *open);
    if (open == NULL) {
        return 0;
    }
    print_pieces(source, pattern, open);
    free(open);
    return 1;
}
