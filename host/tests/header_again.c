/* Includes isle.h in a second file of one program. */
#include "isle.h"

#include <string.h>

int refusals_with_a_text(void);

int refusals_with_a_text(void)
{
    int count = 0;
    int refusal;
    for (refusal = 1; refusal < 256; refusal++) {
        if (strcmp(isle_refusal_text(refusal), "unknown refusal") != 0) {
            count++;
        }
    }
    return count;
}
