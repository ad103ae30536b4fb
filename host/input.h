/* What is read: a text, or a token file. A token file is token count, text length and end position, 32 bits
   each with the most significant byte first; then the token records; then the text. What follows the text
   is ignored. */
#ifndef INPUT_H
#define INPUT_H

#include <stdint.h>
#include <stdio.h>

/* A text, and its tokens and the end position where they were made already; otherwise `tokens` is NULL. */
struct input {
    uint8_t *text;
    uint32_t text_length;
    uint8_t *tokens;
    uint32_t token_count;
    uint32_t end;
};

enum load_status {
    LOADED,
    TOO_LARGE,  /* a token file above the limits of isle_read, which would answer 7 */
    CUT_SHORT,  /* a token file that ends before its text does */
    UNREADABLE, /* reading failed */
    NO_MEMORY
};

/* Both fill the input, which is to be freed whatever the status is. Of a text that is too long only the first
   byte above the limit is loaded, so that isle_read_text answers 7. */
enum load_status load_text(FILE *in, struct input *input);
enum load_status load_tokens(FILE *in, struct input *input);

void free_input(struct input *input);

#endif
