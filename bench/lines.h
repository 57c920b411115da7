/* What the two plain C programs of the benchmark share: splitting a line, and reading and printing values. */
#ifndef LINES_H
#define LINES_H

#define _POSIX_C_SOURCE 200809L
#include <errno.h>
#include <inttypes.h>
#include <stdbool.h>
#include <stdint.h>
#include <stdio.h>
#include <stdlib.h>
#include <string.h>

enum { UNIT, BOOL, INT, FLOAT, CHAR, STR, BLOB, EXCL, INCL, KINDS };

static const char *const kind_names[KINDS] = {"unit", "bool", "int", "float", "char", "str", "blob", "excl", "incl"};

enum { MOST = 65536 };

/* A value; a text has its bytes in `text`. */
struct value {
    int kind;
    bool truth;
    int64_t integer;
    double real;
    size_t len;
    unsigned char text[MOST];
};

/* Reads the next line of the standard input, without its line feed. */
static bool next_line(char **line, size_t *size) {
    ssize_t len = getline(line, size, stdin);
    if (len <= 0)
        return false;
    if ((*line)[len - 1] == '\n')
        (*line)[len - 1] = '\0';
    return true;
}

/* Cuts the line at its tabs, in place, and gives the number of fields; more than `most` are not told apart. */
static size_t split(char *line, char **fields, size_t most) {
    size_t n = 0;
    for (;;) {
        if (n < most)
            fields[n] = line;
        n++;
        char *tab = strchr(line, '\t');
        if (tab == NULL)
            return n;
        *tab = '\0';
        line = tab + 1;
    }
}

static int name_in(const char *const *names, int count, const char *name) {
    for (int i = 0; i < count; i++)
        if (strcmp(names[i], name) == 0)
            return i;
    return -1;
}

static bool read_int(const char *s, int64_t *n) {
    char *end;
    errno = 0;
    *n = strtoll(s, &end, 10);
    return errno == 0 && end != s && *end == '\0';
}

static int digit(char c) {
    return c >= '0' && c <= '9' ? c - '0' : c >= 'a' && c <= 'f' ? c - 'a' + 10 : -1;
}

static bool read_text(const char *s, struct value *v) {
    size_t len = strlen(s);
    if (len % 2 != 0 || len > 2 * MOST)
        return false;
    for (size_t i = 0; i < len / 2; i++) {
        int high = digit(s[2 * i]), low = digit(s[2 * i + 1]);
        if (high < 0 || low < 0)
            return false;
        v->text[i] = (unsigned char)(high * 16 + low);
    }
    v->len = len / 2;
    return true;
}

/* Whether the bytes are UTF-8 of one to three bytes a char, which is all that is measured. */
static bool is_utf8(const unsigned char *s, size_t len) {
    for (size_t i = 0; i < len;) {
        size_t more = s[i] < 0x80 ? 0 : s[i] >= 0xc2 && s[i] < 0xe0 ? 1 : s[i] >= 0xe1 && s[i] < 0xed ? 2 : len;
        if (more >= len - i)
            return false;
        for (i++; more > 0; more--, i++)
            if ((s[i] & 0xc0) != 0x80)
                return false;
    }
    return true;
}

static bool read_value(int kind, const char *s, struct value *v) {
    v->kind = kind;
    if (kind == UNIT)
        return *s == '\0';
    if (kind == BOOL) {
        v->truth = strcmp(s, "true") == 0;
        return v->truth || strcmp(s, "false") == 0;
    }
    if (kind == INT)
        return read_int(s, &v->integer);
    if (kind == FLOAT) {
        char *end;
        uint64_t bits = strtoull(s, &end, 16);
        memcpy(&v->real, &bits, sizeof bits);
        return end - s == 16 && *end == '\0';
    }
    if (kind == STR)
        return read_text(s, v) && is_utf8(v->text, v->len);
    return kind == BLOB && read_text(s, v);
}

static void print_text(const unsigned char *text, size_t len) {
    static const char digits[] = "0123456789abcdef";
    static char pairs[2 * MOST];
    for (size_t i = 0; i < len; i++) {
        pairs[2 * i] = digits[text[i] >> 4];
        pairs[2 * i + 1] = digits[text[i] & 15];
    }
    fwrite(pairs, 1, 2 * len, stdout);
}

static void print_value(const struct value *v) {
    printf("%s\t", kind_names[v->kind]);
    if (v->kind == BOOL)
        printf("%s", v->truth ? "true" : "false");
    else if (v->kind == INT)
        printf("%" PRId64, v->integer);
    else if (v->kind == FLOAT) {
        uint64_t bits;
        memcpy(&bits, &v->real, sizeof bits);
        printf("%016" PRIx64, bits);
    } else if (v->kind == STR || v->kind == BLOB)
        print_text(v->text, v->len);
    putchar('\n');
}

#endif
