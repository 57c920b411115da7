/* Answers calls of the C functions, line by line, for comparing them with others': "select OP LEFT RIGHT" and "assign OP LEFT RIGHT"
   with numbers, and "compare X Y" with the bits of two floats as hexadecimal digits. Prints what the function gives. */
#include <inttypes.h>
#include <stdio.h>
#include <string.h>
#include "margins.h"

static double of_bits(uint64_t bits) {
    double x;
    memcpy(&x, &bits, sizeof x);
    return x;
}

int main(void) {
    char line[128];
    while (fgets(line, sizeof line, stdin)) {
        unsigned op, left, right;
        uint64_t x, y;
        if (sscanf(line, "select %u %u %u", &op, &left, &right) == 3)
            printf("%" PRId32 "\n", margins_select((uint8_t)op, (uint8_t)left, (uint8_t)right));
        else if (sscanf(line, "assign %u %u %u", &op, &left, &right) == 3)
            printf("%" PRId32 "\n", margins_select_assign((uint8_t)op, (uint8_t)left, (uint8_t)right));
        else if (sscanf(line, "compare %" SCNx64 " %" SCNx64, &x, &y) == 2)
            printf("%" PRId32 "\n", margins_compare(of_bits(x), of_bits(y)));
        else
            return 1;
    }
    return 0;
}
