/* Asks which kinds some operators give, and how some margins stand to each other. */
#include <math.h>
#include <stdint.h>
#include <stdio.h>

#include "margins.h"

enum { INT = 2, FLOAT = 3, CHAR = 4, STR = 5, BLOB = 6 };
enum { PLUS = 0, GREATER_OR_EQUAL = 16, NO_OPERATOR = 19 };

static void print_kinds(const char *question, int32_t answer) {
    if (answer < 0)
        printf("%s: refused %d\n", question, (int)-answer);
    else
        printf("%s: kinds %d\n", question, (int)answer);
}

static void print_order(const char *question, int32_t answer) {
    static const char *const orders[] = {"less", "equal", "greater", "unordered"};
    printf("%s: %s\n", question, orders[answer]);
}

int main(void) {
    print_kinds("int >= float", margins_select(GREATER_OR_EQUAL, INT, FLOAT));
    print_kinds("char += str", margins_select_assign(PLUS, CHAR, STR));
    print_kinds("blob >= char", margins_select(GREATER_OR_EQUAL, BLOB, CHAR));
    print_kinds("operator 19", margins_select(NO_OPERATOR, INT, INT));
    print_order("25.3 + 0.1 beside 25.4", margins_compare(25.3 + 0.1, 25.4));
    print_order("0.0 beside 1e-15", margins_compare(0.0, 1e-15));
    print_order("a NaN beside itself", margins_compare(NAN, NAN));
    return 0;
}
