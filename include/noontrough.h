/*
 * noontrough.h: the sheet engine's seven calls.
 *
 * A lens program turns a source into a sheet (get), and an edited sheet back
 * into a source (put, create). A program that could read some text in two ways is
 * refused (check), and such a text is shown (clash). A program is a table of
 * bytes, made for instance by `noontrough assemble`; docs/GUIDE.md says how to
 * write one. Two calls need no program: they turn the pairs of Adobe's metrics
 * (AFM) into the lines of a sheet, and the lines of a sheet into such pairs. Texts
 * are bytes, with no terminating zero: a zero byte is a byte like any other.
 *
 * What holds for every call:
 *
 * Slices   A slice is a pointer to its first byte and a length in bytes. The
 *          pointer must not be NULL, not even with length 0; an empty slice may
 *          have any other pointer, and nothing is read or written through it.
 *          All bytes of the length must be readable, and those of `out`
 *          writable. Any contents are allowed, of any length: they give a
 *          result or a numbered refusal, and the call ends.
 * Overlap  `out` must not overlap any other slice of the call. The other slices
 *          are only read.
 * Output   A result stands at the start of `out`, from its first byte on; the
 *          bytes of `out` behind it are not changed. A refusal changes no byte
 *          of `out`.
 * Memory   Nothing is kept: when a call returns, the caller may reuse or free
 *          every slice. The program is checked anew on each call.
 * Stack    At most NOONTROUGH_STACK_BYTES bytes, clash at most
 *          NOONTROUGH_CLASH_STACK_BYTES, and check and get at most
 *          NOONTROUGH_READ_STACK_BYTES; most calls take far less, and those for
 *          Adobe's metrics next to nothing. This can be more than the threads of
 *          some systems and languages are given; a call that finds too little may
 *          end the process.
 * Threads  The engine has no state of its own. Calls may run at the same time,
 *          also on the same table and texts, as long as no other thread writes
 *          to a slice that a call was given.
 */
#ifndef NOONTROUGH_H
#define NOONTROUGH_H

#include <stddef.h>
#include <stdint.h>

#ifdef __cplusplus
extern "C" {
#endif

/* The longest source, sheet and result, in bytes. An output buffer of this
 * length is always long enough for a result that the engine can give. (Not so for
 * a clash and for Adobe's metrics, which have limits of their own.) */
#define NOONTROUGH_MAX_TEXT 4096

/* The longest text that a clash can have, in bytes. An output buffer of this
 * length is never too short for one. */
#define NOONTROUGH_MAX_CLASH 16512

/* The longest section of Adobe's metrics, and the longest sheet beside it, in
 * bytes. An output buffer of this length is always long enough for a result that
 * the engine can give. */
#define NOONTROUGH_MAX_AFM 65535

/* The most entries that the old source of a put may have. */
#define NOONTROUGH_MAX_ENTRIES 256

/* The stack that any call of any program keeps to: 1.8 MiB. A call takes what
 * its program needs. For a program like that of examples/k, check, get and create
 * take under 64 KiB, and a put or a clash under 96 KiB. The 2 MiB that a default
 * thread of Rust has are enough for every call. The bound is measured on x86-64,
 * not proved (docs/PERFORMANCE.md); the tests of bindings/rust fail if a call of
 * the programs that take most passes it. */
#define NOONTROUGH_STACK_BYTES (1840 * 1024)

/* The stack that check and get of any program keep to: 704 KiB. Measured and
 * tested in the same way, not proved. */
#define NOONTROUGH_READ_STACK_BYTES (704 * 1024)

/* The stack that a clash of any program keeps to: 832 KiB. Measured and tested in
 * the same way, not proved. */
#define NOONTROUGH_CLASH_STACK_BYTES (832 * 1024)

/*
 * The refusals. They are tried in this order: the program (1 to 11), the texts
 * (12 to 14), the number of old entries (15), the room for the result (16; of a
 * clash 17). The calls for Adobe's metrics have no program; they try the length
 * of the text (12), its lines (18), its count (19) and the room (16), in this
 * order. docs/GUIDE.md explains each by an example.
 */
enum noontrough_refusal {
    NOONTROUGH_SIZES_WRONG = 1,           /* node count, pool length or table length wrong */
    NOONTROUGH_UNKNOWN_KIND = 2,          /* a node of unknown kind */
    NOONTROUGH_BAD_OPERAND = 3,           /* an operand breaks a rule, or the root is no lens */
    NOONTROUGH_MATCH_IN_MATCH = 4,        /* a match inside a match */
    NOONTROUGH_LIMIT_PASSED = 5,          /* a node too large: size 512, 128 positions a side */
    NOONTROUGH_BAD_DEFAULT = 6,           /* a const's default is not in its pattern */
    NOONTROUGH_SOURCE_JOIN_TWO_CUTS = 7,  /* a source of a join can be cut two ways */
    NOONTROUGH_SHEET_JOIN_TWO_CUTS = 8,   /* a sheet of a join can be cut two ways */
    NOONTROUGH_UNION_OVERLAP = 9,         /* a text is a source of both arms of a union */
    NOONTROUGH_SOURCE_REPEAT_CUTS = 10,   /* a repeat: empty part or two cuts, in the source */
    NOONTROUGH_SHEET_REPEAT_CUTS = 11,    /* a repeat: empty part or two cuts, in the sheet */
    NOONTROUGH_TEXT_TOO_LONG = 12,        /* a text over 4,096 bytes (AFM: 65,535) */
    NOONTROUGH_NOT_A_SOURCE = 13,         /* the source is none of this program */
    NOONTROUGH_NOT_A_SHEET = 14,          /* the sheet is none of this program */
    NOONTROUGH_TOO_MANY_ENTRIES = 15,     /* the old source of a put has over 256 entries */
    NOONTROUGH_RESULT_TOO_LONG = 16,      /* the result passes `out` or 4,096 bytes (AFM: 65,535) */
    NOONTROUGH_CLASH_TOO_LONG = 17,       /* the text that shows a clash is longer than `out` */
    NOONTROUGH_BAD_LINE = 18,             /* AFM: a line not of its form; the node is its number */
    NOONTROUGH_COUNT_WRONG = 19           /* AFM: the count is not the number of pairs */
};

/* What check, get, create and the calls for Adobe's metrics answer. What does not
 * apply is 0. */
struct noontrough_answer {
    uint64_t number; /* 0 for a result, else the refusal, 1 to 16, 18 or 19 */
    uint64_t node;   /* for a refusal from 2 to 11, the node concerned, counted from 0; for 18
                        the number of the line, counted from 1; else 0 */
    uint64_t length; /* for a result, its length in bytes (check: the number of nodes); else 0 */
};

/* What put answers: the same, and how many entries it kept, made and dropped. What
 * does not apply is 0. The counts have 64 bits, as every number here; 16 would be
 * too few, since a put can make 524,288 entries. */
struct noontrough_put_answer {
    uint64_t number;  /* 0 for a result, else the refusal, 1 to 16 */
    uint64_t node;    /* for a refusal from 2 to 11, the node concerned, counted from 0; else 0 */
    uint64_t length;  /* for a result, its length in bytes; else 0 */
    uint64_t kept;    /* for a result, the sheet's entries that took an old entry; else 0 */
    uint64_t made;    /* for a result, the sheet's entries that took none; else 0 */
    uint64_t dropped; /* for a result, the old entries left unused; else 0 */
};

/* What comes of a clash. */
enum noontrough_outcome {
    NOONTROUGH_NO_CLASH = 0, /* the program is accepted */
    NOONTROUGH_CLASH = 1,    /* the program is refused with 7 to 11, and this is why */
    NOONTROUGH_REFUSAL = 2   /* the program is refused with 1 to 6, or the text is too long (17) */
};

/* What clash answers. What does not apply is 0. */
struct noontrough_clash_answer {
    uint64_t outcome; /* an enum noontrough_outcome */
    uint64_t number;  /* for a clash or a refusal, its number */
    uint64_t node;    /* for 2 to 11, the node concerned, counted from 0; else 0 */
    uint64_t length;  /* for a clash, the length of its text in bytes; else 0 */
    uint64_t first;   /* for a clash, the smallest end (for 9 the first child); else 0 */
    uint64_t second;  /* for a clash, the second smallest end (for 9 the second child); else 0 */
};

/*
 * Tests a program.
 *
 * table, table_len   the program's table
 *
 * Result: the length is the program's number of nodes. Refusals: 1 to 11.
 */
struct noontrough_answer noontrough_check(uint8_t const *table, size_t table_len);

/*
 * Gives the sheet of a source.
 *
 * table, table_len     the program's table
 * source, source_len   the source, at most 4,096 bytes
 * out, out_len         where the sheet goes; the result must fit out_len
 *
 * Result: the length is the sheet's. Refusals: 1 to 13 and 16.
 */
struct noontrough_answer noontrough_get(uint8_t const *table, size_t table_len,
                                        uint8_t const *source, size_t source_len,
                                        uint8_t *out, size_t out_len);

/*
 * Gives a new source from an edited sheet and the old source. Entries are found
 * by their keys; what the sheet does not show comes from the old source. Spaces at the
 * end of a key do not count there, so a name may be padded; they are written as the
 * sheet has them.
 *
 * table, table_len     the program's table
 * sheet, sheet_len     the edited sheet, at most 4,096 bytes
 * source, source_len   the old source, at most 4,096 bytes and 256 entries
 * out, out_len         where the new source goes; the result must fit out_len
 *
 * Result: the length is the new source's, and the sheet's entries are counted, which
 * are the texts that this put reads by a match, also empty ones: kept are those
 * that took an old entry, made those that did not. Dropped are the old entries left
 * unused. So kept + dropped is the number of the old source's entries, and kept + made
 * that of the new source's. Refusals: 1 to 16.
 */
struct noontrough_put_answer noontrough_put(uint8_t const *table, size_t table_len,
                                            uint8_t const *sheet, size_t sheet_len,
                                            uint8_t const *source, size_t source_len,
                                            uint8_t *out, size_t out_len);

/*
 * Gives a source from a sheet alone, with the program's defaults for what the
 * sheet does not show.
 *
 * table, table_len   the program's table
 * sheet, sheet_len   the sheet, at most 4,096 bytes
 * out, out_len       where the source goes; the result must fit out_len
 *
 * Result: the length is the source's. Refusals: 1 to 12, 14 and 16.
 */
struct noontrough_answer noontrough_create(uint8_t const *table, size_t table_len,
                                           uint8_t const *sheet, size_t sheet_len,
                                           uint8_t *out, size_t out_len);

/*
 * Shows why a program is refused with 7 to 11, by a text that breaks the rule: a
 * shortest one, and among the shortest the lowest in byte order.
 *
 * table, table_len   the program's table
 * out, out_len       where the text goes; NOONTROUGH_MAX_CLASH bytes are always
 *                    enough, and NOONTROUGH_MAX_TEXT is no limit here
 *
 * No clash: the program is accepted. `out` is not changed.
 *
 * Clash: number and node are those of check, and the text stands at the start of
 * `out`. It is one of the source for 7, 9 and 10, of the sheet for 8 and 11. For a
 * join (7, 8) `first` and `second` are the two smallest ends that its first half
 * can have in a cut of the text, counted from the text's start; for a repeat (10,
 * 11) those of its first part. They differ, save where a part can be empty: then
 * the text is empty and both are 0. For a union (9), whose arms both have the
 * text, they are the numbers of its two children, in the order of its operands.
 *
 * Refusals: 1 to 6 as check gives them, and 17, with node 0, after all of these,
 * if the text is longer than out_len.
 */
struct noontrough_clash_answer noontrough_clash(uint8_t const *table, size_t table_len,
                                                uint8_t *out, size_t out_len);

/*
 * Gives the sheet of a section of Adobe's metrics (AFM): for each of its pairs, in
 * their order, a line `left;right;value` that ends in a newline. No program is
 * needed.
 *
 * section, section_len   the section, at most NOONTROUGH_MAX_AFM bytes
 * out, out_len           where the sheet goes; the result must fit out_len, and
 *                        section_len bytes are always enough
 *
 * A section is a line `StartKernPairs count`, any number of lines
 * `KPX left right value`, the line `EndKernPairs` and nothing behind it. Each line
 * ends in a newline. One space or more separate the words of a line, and no other
 * spaces stand in it. A name has 1 to 63 bytes from 0x21 to 0x7E without `;`, a
 * value is a whole number from -32768 to 32767, and the count one from 0 to 65535;
 * none has a plus sign, leading zeros or a minus before nought.
 *
 * Result: the length is the sheet's. Refusals, in this order: 12 for a section over
 * NOONTROUGH_MAX_AFM bytes; 18 at the first line not of its form, whose number,
 * from 1, is the node (a line that is missing, one that has no newline and one
 * behind EndKernPairs count as such lines); 19 if the count is not the number of
 * pairs; 16. Nodes of 12, 16 and 19 are 0.
 */
struct noontrough_answer noontrough_afm_import(uint8_t const *section, size_t section_len,
                                               uint8_t *out, size_t out_len);

/*
 * Gives the section of a sheet: the other way. One space separates the words of a
 * line. From what it gives, noontrough_afm_import takes the same sheet; a section
 * that is exported after import has every pair as it was, in the same order.
 *
 * sheet, sheet_len   the sheet, at most NOONTROUGH_MAX_AFM bytes: any number of
 *                    lines `left;right;value`, each with a newline and none with a
 *                    space, and names and values as above
 * out, out_len       where the section goes; the result must fit out_len. It is
 *                    longer than the sheet: for n lines it has
 *                    sheet_len + 4 * n + 29 bytes and one more for each digit of n
 *
 * Result: the length is the section's. Refusals, in this order: 12 for a sheet over
 * NOONTROUGH_MAX_AFM bytes; 18 at the first line not of its form, whose number,
 * from 1, is the node; 16 if the section is longer than out_len or than
 * NOONTROUGH_MAX_AFM bytes. Nodes of 12 and 16 are 0.
 */
struct noontrough_answer noontrough_afm_export(uint8_t const *sheet, size_t sheet_len,
                                               uint8_t *out, size_t out_len);

#ifdef __cplusplus
}
#endif

#endif
