/* SELECT and COMPARE for programs in C. docs/RULES.md has the numbers of kinds, operators, orders and refusals. */
#ifndef MARGINS_H
#define MARGINS_H

#include <stdint.h>

#ifdef __cplusplus
extern "C" {
#endif

/* The set of kinds that an operator (0 to 18) can give for two kinds (0 to 8): bit k is set where the kind with number k is in
   it. A refusal is negative: -1 for a number that is no operator or no kind, -5 where there is no row. */
int32_t margins_select(uint8_t op, uint8_t left, uint8_t right);

/* The same for the assigning form: the kinds that the left operand can have afterwards. */
int32_t margins_select_assign(uint8_t op, uint8_t left, uint8_t right);

/* The order of two floats, with the tolerance: 0 less, 1 equal, 2 greater, 3 unordered (a NaN). */
int32_t margins_compare(double x, double y);

#ifdef __cplusplus
}
#endif

#endif
