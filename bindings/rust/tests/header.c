/* Makes each call as include/noontrough.h declares it and prints what it answered. header.rs has the answers, from documents 01 and 02. */
#include "noontrough.h"

#include <stdio.h>
#include <string.h>

/* Program K. */
static uint8_t const K[] = {
    15, 0,  2,                                            /* sizes */
    1,  4,  2,  1,  4,  0,  0,  0,  18, 17, 16, 19, 19, 22, 21, /* kinds */
    65, 90, 0,  0,  0,  0,  0,  1,  0,  48, 57, 0,  3,  0,  0,  /* operands */
    0,  0,  0,  0,  0,  1,  0,  1,  1,  2,  0,  0,  4,  5,  6,
    7,  0,  0,  9,  10, 0,  8,  11, 0,  12, 0,  0,  13, 0,  0,
    '0', ';'};                                            /* pool */

/* A copy of a, ab or abc, and one of bcd, cd or d, joined: abcd has three cuts. */
static uint8_t const JOINED[] = {
    13, 0,  4,                                         /* sizes */
    0,  0,  0,  0,  0,  0,  3, 3, 3, 3, 16, 16, 19,    /* kinds */
    0,  0,  1,  0,  0,  2,  0, 0, 3,                   /* operands: a, ab, abc */
    0,  1,  3,  0,  2,  2,  0, 3, 1,                   /* bcd, cd, d */
    1,  2,  0,  0,  6,  0,  4, 5, 0, 3, 8,  0,         /* unions */
    7,  0,  0,  9,  0,  0,  10, 11, 0,                 /* copies, join */
    'a', 'b', 'c', 'd'};                               /* pool */

static uint8_t const *bytes(char const *text)
{
    return (uint8_t const *)text;
}

/* The answer's numbers, and the whole buffer between brackets. */
static void show(char const *name, struct noontrough_answer answer, uint8_t const *out, size_t length)
{
    printf("%s %llu %llu %llu [%.*s]\n", name, (unsigned long long)answer.number, (unsigned long long)answer.node,
           (unsigned long long)answer.length, (int)length, (char const *)out);
}

static void show_put(struct noontrough_put_answer answer, uint8_t const *out, size_t length)
{
    printf("put %llu %llu %llu kept %llu made %llu dropped %llu [%.*s]\n", (unsigned long long)answer.number,
           (unsigned long long)answer.node, (unsigned long long)answer.length, (unsigned long long)answer.kept,
           (unsigned long long)answer.made, (unsigned long long)answer.dropped, (int)length, (char const *)out);
}

/* A put with this table and these texts, into so many bytes of a buffer of ten. */
static void put(uint8_t const *table, size_t table_len, char const *sheet, char const *source, size_t lent)
{
    uint8_t out[10];

    memset(out, '-', sizeof out);
    show_put(noontrough_put(table, table_len, bytes(sheet), strlen(sheet), bytes(source), strlen(source), out, lent),
             out, sizeof out);
}

/* Both ways of Adobe's metrics, into so many bytes of a buffer of forty-six. */
static void afm_import(char const *section, size_t lent)
{
    uint8_t out[46];

    memset(out, '-', sizeof out);
    show("import", noontrough_afm_import(bytes(section), strlen(section), out, lent), out, sizeof out);
}

static void afm_export(char const *sheet, size_t lent)
{
    uint8_t out[46];

    memset(out, '-', sizeof out);
    show("export", noontrough_afm_export(bytes(sheet), strlen(sheet), out, lent), out, sizeof out);
}

/* A section over the limit, and one of a single line of just this length. */
static void afm_limits(void)
{
    static uint8_t const long_section[NOONTROUGH_MAX_AFM + 1] = {0};
    uint8_t out[1] = {'-'};

    show("import", noontrough_afm_import(long_section, sizeof long_section, out, 1), out, 1);
    show("import", noontrough_afm_import(long_section, NOONTROUGH_MAX_AFM, out, 1), out, 1);
    show("export", noontrough_afm_export(long_section, sizeof long_section, out, 1), out, 1);
    show("export", noontrough_afm_export(long_section, NOONTROUGH_MAX_AFM, out, 1), out, 1);
}

/* A clash of this table, into so many bytes of a buffer of ten. */
static void clash(uint8_t const *table, size_t table_len, size_t lent)
{
    struct noontrough_clash_answer answer;
    uint8_t out[10];

    memset(out, '-', sizeof out);
    answer = noontrough_clash(table, table_len, out, lent);
    printf("clash %llu %llu %llu %llu %llu %llu [%.*s]\n", (unsigned long long)answer.outcome,
           (unsigned long long)answer.number, (unsigned long long)answer.node, (unsigned long long)answer.length,
           (unsigned long long)answer.first, (unsigned long long)answer.second, (int)sizeof out, (char const *)out);
}

int main(void)
{
    uint8_t out[10];
    uint8_t united[sizeof JOINED];

    show("check", noontrough_check(K, sizeof K), out, 0);
    show("check", noontrough_check(K, 2), out, 0);
    memset(out, '-', sizeof out);
    show("get", noontrough_get(K, sizeof K, bytes("AB1;C22;"), 8, out, sizeof out), out, sizeof out);
    memset(out, '-', sizeof out);
    show("get", noontrough_get(K, sizeof K, bytes("[;"), 2, out, sizeof out), out, sizeof out);
    put(K, sizeof K, "C;AB;", "AB1;C22;", 10);
    put(K, sizeof K, "C;D;", "AB1;C22;", 10);
    put(K, sizeof K, "A;A;A;", "A1;", 10);
    put(K, sizeof K, "", "AB1;C22;", 0);
    put(K, sizeof K, "C;AB;", "AB1;C22;", 7);
    put(K, sizeof K, "AB1;", "AB1;C22;", 10);
    put(K, sizeof K, "AB;", "[;", 10);
    put(K, 2, "AB;", "AB1;", 10);
    memset(out, '-', sizeof out);
    show("create", noontrough_create(K, sizeof K, bytes("AB;"), 3, out, sizeof out), out, sizeof out);
    memset(out, '-', sizeof out);
    show("create", noontrough_create(K, sizeof K, bytes("AB1;"), 4, out, sizeof out), out, sizeof out);
    clash(JOINED, sizeof JOINED, 10);
    clash(JOINED, sizeof JOINED, 4);
    clash(JOINED, sizeof JOINED, 3);
    memcpy(united, JOINED, sizeof JOINED);
    united[15] = 20; /* the last node as a union of its two copies, */
    clash(united, sizeof united, 10);
    united[sizeof united - 6] = 10; /* and of one copy with itself */
    clash(united, sizeof united, 10);
    clash(K, sizeof K, 0);
    clash(K, 2, 10);
    afm_import("StartKernPairs 1\nKPX A  V -80\nEndKernPairs\n", 46);
    afm_import("StartKernPairs 1\nKPX A  V -80\nEndKernPairs\n", 8);
    afm_import("StartKernPairs 1\nKPX A  V -80\nEndKernPairs\n", 7);
    afm_import("StartKernPairs 2\nKPX A  V -80\nEndKernPairs\n", 7);
    afm_import("StartKernPairs 2\nKPX A  V -80\nKPX A V\n", 7);
    afm_export("A;V;-80\n", 46);
    afm_export("A;V;-80\n", 42);
    afm_export("A;V;-80\n", 41);
    afm_export("A;V;-80\nA;V;-080\n", 41);
    afm_export("", 30);
    afm_limits();
    printf("%d %d\n", NOONTROUGH_BAD_LINE, NOONTROUGH_COUNT_WRONG);
    return 0;
}
