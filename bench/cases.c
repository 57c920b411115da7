/* A plain getline and printf loop that answers the measured lines of `cases`: int + int, int ** int, float == float, str + str. */
#include "lines.h"

#include <float.h>
#include <math.h>

static const char *const op_names[] = {"+", "-", "*", "/", "%", "**", "<<", ">>", "&", "|", "^", "==", "!=", "<", "<=", ">", ">=", "..", "..="};

enum { PLUS = 0, POWER = 5, EQUALS = 11, OPS = 19 };
enum { NO_ROW = 5, TOO_BIG = 6, NEGATIVE_EXPONENT = 9, TOO_LONG = 10, NO_ROOM = 25 };

/* by repeated squaring */
static int power(int64_t x, int64_t n, int64_t *result) {
    if (n > UINT32_MAX)
        return TOO_BIG;
    if (n < 0)
        return NEGATIVE_EXPONENT;
    *result = 1;
    for (; n > 0; n >>= 1) {
        if ((n & 1) != 0 && __builtin_mul_overflow(*result, x, result))
            return TOO_BIG;
        if (n > 1 && __builtin_mul_overflow(x, x, &x))
            return TOO_BIG;
    }
    return 0;
}

static bool are_equal(double x, double y) {
    if (isinf(x) || isinf(y))
        return x == y;
    double m = x * y == 0.0 ? 1.0 : fmax(fabs(x), fabs(y));
    return fabs(x - y) / m <= DBL_EPSILON;
}

/* 0, or the number of a refusal */
static int apply(int op, const struct value *x, const struct value *y, int64_t limit, struct value *result) {
    if (x->kind == INT && y->kind == INT && op == PLUS) {
        result->kind = INT;
        return __builtin_add_overflow(x->integer, y->integer, &result->integer) ? TOO_BIG : 0;
    }
    if (x->kind == INT && y->kind == INT && op == POWER) {
        result->kind = INT;
        return power(x->integer, y->integer, &result->integer);
    }
    if (x->kind == FLOAT && y->kind == FLOAT && op == EQUALS) {
        result->kind = BOOL;
        result->truth = are_equal(x->real, y->real);
        return 0;
    }
    if (x->kind == STR && y->kind == STR && op == PLUS) {
        size_t len = x->len + y->len;
        if (limit > 0 && len > (uint64_t)limit)
            return TOO_LONG;
        if (len > MOST)
            return NO_ROOM;
        result->kind = STR;
        result->len = len;
        memcpy(result->text, x->text, x->len);
        memcpy(result->text + x->len, y->text, y->len);
        return 0;
    }
    return NO_ROW;
}

static int answer(char *line, struct value *result) {
    static struct value left, right;
    char *fields[8];
    if (split(line, fields, 8) != 8 || strcmp(fields[0], "apply") != 0)
        return 11;
    int op = name_in(op_names, OPS, fields[1]);
    int j = name_in(kind_names, KINDS, fields[2]), k = name_in(kind_names, KINDS, fields[4]);
    if (op < 0 || j < 0 || k < 0)
        return 1;
    int64_t string, blob;
    if (!read_int(fields[6], &string) || !read_int(fields[7], &blob) || string < 0 || blob < 0)
        return 2;
    if (!read_value(j, fields[3], &left) || !read_value(k, fields[5], &right))
        return 2;
    return apply(op, &left, &right, string, result);
}

int main(void) {
    static struct value result;
    char *line = NULL;
    size_t size = 0;
    while (next_line(&line, &size)) {
        int fault = answer(line, &result);
        if (fault != 0)
            printf("no\t%d\n", fault);
        else
            print_value(&result);
    }
    free(line);
    return 0;
}
