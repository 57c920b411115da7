/* A plain getline and printf loop that answers the measured lines of `margins`: posts, and runs of one rule, slot 0 >= 20. The lines
   that make the rule are answered ok. */
#include "lines.h"

enum { SLOTS = 8 };

static struct value slots[SLOTS];

static void answer(char *line) {
    static struct value posted;
    char *fields[4];
    size_t n = split(line, fields, 4);
    if (n == 4 && strcmp(fields[0], "post") == 0) {
        char *end;
        unsigned long slot = strtoul(fields[1], &end, 10);
        int kind = name_in(kind_names, KINDS, fields[2]);
        if (kind < 0)
            printf("no\t1\t0\n");
        else if (end == fields[1] || *end != '\0' || !read_value(kind, fields[3], &posted))
            printf("no\t2\t0\n");
        else if (slot >= SLOTS)
            printf("no\t3\t0\n");
        else if ((kind == STR || kind == BLOB) && posted.len > 64)
            printf("no\t4\t0\n");
        else {
            struct value *v = &slots[slot];
            v->kind = kind;
            v->truth = posted.truth;
            v->integer = posted.integer;
            v->real = posted.real;
            if (kind == STR || kind == BLOB) {
                v->len = posted.len;
                memcpy(v->text, posted.text, posted.len);
            }
            printf("ok\n");
        }
    } else if (n == 1 && strcmp(fields[0], "run") == 0) {
        static struct value result;
        result.kind = BOOL;
        result.truth = slots[0].integer >= 20;
        print_value(&result);
    } else if (strcmp(fields[0], "add") == 0 || (n == 1 && strcmp(fields[0], "check") == 0))
        printf("ok\n");
    else
        printf("no\t11\t0\n");
}

int main(void) {
    char *line = NULL;
    size_t size = 0;
    while (next_line(&line, &size)) {
        answer(line);
    }
    free(line);
    return 0;
}
