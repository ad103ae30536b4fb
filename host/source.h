/* The text of the definitions, with lines and columns. Both are counted from 1; a column is a byte. */
#ifndef SOURCE_H
#define SOURCE_H

#include <stdint.h>

struct source {
    const uint8_t *text;
    uint32_t length;
    uint32_t *line_starts; /* the offset at which each line starts */
    uint32_t line_count;
};

struct line_column {
    uint32_t line;
    uint32_t column;
};

/* Finds the lines of a text, which must stay until the source is closed. 0 if there is no memory, else 1. */
int open_source(struct source *source, const uint8_t *text, uint32_t length);

void close_source(struct source *source);

/* Where a position is. 0 if it is outside the text, else 1; the end of the text is inside. */
int find_position(const struct source *source, uint32_t position, struct line_column *found);

/* Prints the line, and a caret under the column. Bytes that are no printable ASCII are shown as `?`,
   tabs and carriage returns as blanks. */
void print_line_with_caret(const struct source *source, struct line_column at);

/* Prints the bytes of a name: its start and its length in the text. */
void print_name(const struct source *source, uint32_t start, uint32_t length);

#endif
