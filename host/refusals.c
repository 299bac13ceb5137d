/* Prints every refusal as the header has it, a line `NUMBER WORDS` each, for host/run to set beside the tables of the documents. */
#include "lupiknam.h"
#include <stdio.h>
#include <string.h>

int main(void)
{
    uint32_t number = 0;
    for (; strcmp(lupiknam_refusal(number), "unknown refusal") != 0; number++)
        printf("%u %s\n", (unsigned)number, lupiknam_refusal(number));
    return number == 29 && strcmp(lupiknam_refusal(UINT32_MAX), "unknown refusal") == 0 ? 0 : 1;
}
