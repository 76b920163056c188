/* Prints the version of include/gdl90.h, and each number of one byte in words, for what other languages say to be held against:
     version VERSION
     NUMBER WORDS */
#include "gdl90.h"

#include <stdio.h>

int main(void)
{
    unsigned number;

    printf("version %s\n", GDL90_VERSION);
    for (number = 0; number < 256; number++)
        printf("%u %s\n", number, gdl90_number_words((uint8_t)number));
    return 0;
}
