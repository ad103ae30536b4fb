#include "input.h"

#include "isle.h"
#include "memory.h"

#include <stdlib.h>

#define HEADER_BYTES 12

static const struct input nothing;

enum load_status load_text(FILE *in, struct input *input)
{
    *input = nothing;
    input->text = allocate(ISLE_MAX_TEXT + 1);
    if (input->text == NULL) {
        return NO_MEMORY;
    }
    input->text_length = (uint32_t)fread(input->text, 1, ISLE_MAX_TEXT + 1, in);
    return ferror(in) ? UNREADABLE : LOADED;
}

static uint32_t number_at(const uint8_t *bytes)
{
    return (uint32_t)bytes[0] << 24 | (uint32_t)bytes[1] << 16 | (uint32_t)bytes[2] << 8 | bytes[3];
}

static enum load_status read_bytes(FILE *in, uint8_t *bytes, size_t count)
{
    if (fread(bytes, 1, count, in) == count) {
        return LOADED;
    }
    return ferror(in) ? UNREADABLE : CUT_SHORT;
}

enum load_status load_tokens(FILE *in, struct input *input)
{
    uint8_t header[HEADER_BYTES];
    enum load_status status;
    size_t token_bytes;

    *input = nothing;
    status = read_bytes(in, header, HEADER_BYTES);
    if (status != LOADED) {
        return status;
    }
    input->token_count = number_at(header);
    input->text_length = number_at(header + 4);
    input->end = number_at(header + 8);
    /* The sizes are held to the limits before anything is computed from them. */
    if (input->token_count > ISLE_MAX_TOKENS || input->text_length > ISLE_MAX_TEXT) {
        return TOO_LARGE;
    }
    token_bytes = (size_t)input->token_count * ISLE_TOKEN_BYTES;
    input->tokens = allocate(token_bytes);
    input->text = allocate(input->text_length);
    if (input->tokens == NULL || input->text == NULL) {
        return NO_MEMORY;
    }
    status = read_bytes(in, input->tokens, token_bytes);
    return status == LOADED ? read_bytes(in, input->text, input->text_length) : status;
}

void free_input(struct input *input)
{
    free(input->tokens);
    free(input->text);
    input->tokens = NULL;
    input->text = NULL;
}
