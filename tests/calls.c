/*
 * Every function of include/walsh.h, done and refused, each answer field by field. tests/run compiles it as C99 and as C++ and holds what it
 * prints to tests/calls.expected, which was worked out by hand from document 01, for tables, wide gates, weights with a sign and bridges from notes 1, 2, 4
 * and 8 of document 02, and not taken from the library. The comments say where answers come from; "paper" is document 01. Places where a result is lent
 * hold MARK before each call, so a number too many or too few shows.
 */
#include <stdio.h>
#include <string.h>

#include "walsh.h"

/* Each declaration once more, from crates/capi/src/lib.rt: where the header has another type, this does not compile. */
static struct walsh_sum (*const coefficient)(const int32_t *, size_t, uint32_t) = walsh_coefficient;
static struct walsh_reply (*const spectrum)(const int32_t *, size_t, int32_t *, size_t) = walsh_spectrum;
static struct walsh_reply (*const rows)(const int32_t *, size_t, int32_t *, size_t) = walsh_rows;
static struct walsh_reply (*const stuck)(const int32_t *, size_t, const uint32_t *, size_t, const uint32_t *, size_t, int32_t *, size_t) = walsh_stuck;
static struct walsh_reply (*const opened)(const int32_t *, size_t, const uint32_t *, size_t, int32_t *, size_t) = walsh_opened;
static struct walsh_reply (*const bridged)(const int32_t *, size_t, uint32_t, uint32_t, int32_t *, size_t) = walsh_bridged;
static struct walsh_reply (*const circuit)(const uint8_t *, size_t, uint32_t, int32_t *, size_t) = walsh_circuit;
static struct walsh_signature (*const plan)(const uint8_t *, size_t, uint32_t *, size_t) = walsh_plan;
static struct walsh_written (*const report)(const uint8_t *, size_t, uint8_t *, size_t, uint32_t *, size_t) = walsh_report;
static struct walsh_measured (*const reading)(const uint8_t *, size_t, uint32_t, uint32_t) = walsh_reading;
static struct walsh_comparison (*const pair)(const uint8_t *, size_t, uint32_t, uint32_t, uint32_t) = walsh_pair;
static struct walsh_part (*const field)(const uint8_t *, size_t, size_t) = walsh_field;

#define MARK 77
#define COUNT(list) (sizeof(list) / sizeof((list)[0]))
#define TEXT(text) (const uint8_t *)(text), strlen(text) /* two arguments */
#define NO_LIST NULL, 0
#define NO_TEXT NULL, 0

/* The paper's listing, x1x2 + x3 not x2, with x2 stuck; FIRST and SECOND stand for the lines of the faults. */
#define LISTING_OF(FIRST, SECOND) \
    "circuit,3,4,1,2,2\ngate,not,2,0\ngate,and,1,2\ngate,and,3,4\ngate,or,5,6\noutput,7,1\n" FIRST "\n" SECOND "\n"
#define LISTING LISTING_OF("fault,2,0", "fault,2,1")
/* The paper's x1x2 + x3, an input stuck. */
#define OR_OF_AND "circuit,3,2,1,4,1\ngate,and,1,2\ngate,or,3,4\noutput,5,1\nfault,1,0\nfault,1,1\nfault,3,0\nfault,3,1\n"
/* The paper's silent fault. */
#define SILENT "circuit,2,2,1,1,1\ngate,and,1,2\ngate,or,1,3\noutput,4,1\nfault,3,0\n"
/* The paper's two outputs, x1 and x2, that need two labels; CAP is a digit. */
#define TWO_OUTPUTS(CAP) \
    "circuit,2,4,2,2," CAP "\ngate,xor,1,1\ngate,xor,1,1\ngate,xor,1,3\ngate,xor,2,4\noutput,5,1\noutput,6,1\nfault,3,1\nfault,4,1\n"
/* x8 + x1x2x3x4x5x6x7, which is 1 on the 128 rows with x8 and one more; the product stuck at 0. */
#define HALF_AND_A_ROW \
    "circuit,8,7,1,1,1\ngate,and,1,2\ngate,and,3,9\ngate,and,4,10\ngate,and,5,11\ngate,and,6,12\ngate,and,7,13\ngate,or,8,14\n" \
    "output,15,1\nfault,14,0\n"

/* A table of two inputs, one of them stuck; MARKS stands for its four rows. The doubled rows of 01-1 are 0, 2, 1, 2; with input 1 at 0 they are
   0, 0, 1, 1, with input 2 at 1 they are 1, 2, 1, 2. */
#define TABLE_OF(MARKS) "table,2,2,1\n" MARKS "\n" "fault,1,0\n" "fault,2,1\n"
#define TABLE TABLE_OF("01-1")
/* Source document 004, figure 2: the ones of figure 1 below but for rows 14 and 15, which are free. Input 1 stuck. */
#define FREE_ROWS "table,4,1,1\n" "00000101111000--\n" "fault,1,1\n"
/* Ones on both rows, whatever holds the input. */
#define SILENT_INPUT "table,1,1,1\n" "11\n" "fault,1,0\n"
/* x1 xor x3, where x2 is always x1; an input stuck at 0. The sums are 8, 0, 0, 0, 0, -4, -4, 0; under the faults 8, 0, 0, 0, -4, 0, -4, 0, then
   8, 0, 0, 0, -4, -4, 0, 0, then 8, -4, -4, 0, 0, 0, 0, 0: no label shows all three, 1 and 4 together do. CAP is a digit. */
#define TWINS(CAP) "table,3,3," CAP "\n" "0--11--0\n" "fault,1,0\n" "fault,2,0\n" "fault,3,0\n"

/* The listing with a bridge: x1 and x3 show x1x3, and then the output is x1x3 whatever x2 is, 1 on rows 5 and 7 of 8. */
#define BRIDGED_LISTING LISTING_OF("fault,2,0", "bridge,1,3")
/* x1x2 + x3, x1 and x2 bridged: x1x2 stays what it is. */
#define SILENT_BRIDGE "circuit,3,2,1,1,1\ngate,and,1,2\ngate,or,3,4\noutput,5,1\nbridge,1,2\n"
/* x1 and x2 as outputs of weights 2 and 3: rows 0, 2, 3, 5. Bridged both show x1x2: rows 0, 0, 0, 5. */
#define BRIDGED_OUTPUTS "circuit,2,0,2,1,1\noutput,1,2\noutput,2,3\nbridge,1,2\n"
/* Example 6.2 of source document 004 (ones at rows 0, 3, 4, 5, 6, 9, 12 of 16) with its bridges; FIRST stands for the line of the first. */
#define BRIDGED_TABLE_OF(FIRST) "table,4,3,2\n" "1001111001001000\n" FIRST "\n" "bridge,2,3\n" "bridge,3,4\n"
#define BRIDGED_TABLE BRIDGED_TABLE_OF("bridge,1,2")

/* x1x2x3 by one gate, x1 stuck at 0 and then the gate's line at 1: 1 on row 7 of 8, on none, on all. */
#define WIDE_AND "circuit,3,1,1,2,1\ngate,and,1,2,3\noutput,4,1\nfault,1,0\nfault,4,1\n"
/* Four inputs and one gate, which drives line 5 and is stuck at 0. */
#define WIDE_OF(GATE) "circuit,4,1,1,1,1\n" GATE "\noutput,5,1\nfault,5,0\n"

/* The listing with its output subtracted. */
#define SUBTRACTED "circuit,3,4,1,2,2\ngate,not,2,0\ngate,and,1,2\ngate,and,3,4\ngate,or,5,6\noutput,7,-1\nfault,2,0\nfault,2,1\n"
/* An input with two weights, which cancel. */
#define CANCELLED "circuit,1,0,2,1,1\noutput,1,7\noutput,1,-7\nfault,1,0\n"
/* An input of this weight, stuck at 0. */
#define WEIGHED(WEIGHT) "circuit,1,0,1,1,1\noutput,1," WEIGHT "\nfault,1,0\n"

/* x1 and its complement, which change places on row 1 when x1 is stuck at 0; the complement has this weight. */
#define EXCHANGED(WEIGHT) "circuit,1,1,2,1,1\ngate,not,1,0\noutput,1,1\noutput,2," WEIGHT "\nfault,1,0\n"
/* The same with a gate that nothing reads, and a fault of it behind the hidden one. */
#define SILENT_BEHIND "circuit,1,2,2,2,1\ngate,not,1,0\ngate,xor,1,1\noutput,1,1\noutput,2,1\nfault,1,0\nfault,3,1\n"

static int32_t out[2 * WALSH_MAX_LIST];
static int32_t list[2 * WALSH_MAX_LIST];
static uint32_t work[WALSH_WORKING_NUMBERS + 1];
static uint8_t bytes[WALSH_REPORT_BYTES];
static uint8_t long_text[WALSH_MAX_TEXT_BYTES + 1];

/* The number by the header's name for it, so that a wrong value in the enum shows. */
static const char *name(uint32_t number)
{
    switch (number) {
    case WALSH_DONE: return "done";
    case WALSH_TEXT_TOO_LONG: return "text too long";
    case WALSH_MALFORMED_LINE: return "malformed line";
    case WALSH_NUMBER_OUT_OF_RANGE: return "number out of range";
    case WALSH_GATE_READS_AHEAD: return "gate reads ahead";
    case WALSH_NO_SUCH_LINE: return "no such line";
    case WALSH_LINES_NOT_RISING: return "lines not rising";
    case WALSH_BYTES_AFTER_TEXT: return "bytes after text";
    case WALSH_BUFFER_TOO_SHORT: return "buffer too short";
    case WALSH_BAD_LENGTH: return "bad length";
    case WALSH_ENTRY_OUT_OF_RANGE: return "entry out of range";
    case WALSH_BAD_SUM: return "bad sum";
    case WALSH_ARGUMENT_OUT_OF_RANGE: return "argument out of range";
    case WALSH_SILENT_FAULT: return "silent fault";
    case WALSH_NO_SET_WITHIN_CAP: return "no set within cap";
    case WALSH_BAD_MARK: return "bad mark";
    case WALSH_HIDDEN_FAULT: return "hidden fault";
    case WALSH_BAD_BRIDGE: return "bad bridge";
    default: return "unknown";
    }
}

static const char *kind_name(uint32_t kind)
{
    switch (kind) {
    case WALSH_NO_READING: return "no reading";
    case WALSH_PLAIN_SYNDROME: return "plain syndrome";
    case WALSH_WEIGHTED_SUM: return "weighted sum";
    case WALSH_CONSTRAINED_VALUE: return "constrained value";
    default: return "unknown";
    }
}

static void number_place(const char *what, uint32_t number, size_t place)
{
    printf("%s: number %lu (%s) place %zu", what, (unsigned long)number, name(number), place);
}

static void put_sum(const char *what, struct walsh_sum r)
{
    number_place(what, r.number, r.place);
    printf(" value %ld\n", (long)r.value);
}

static void put_signature(const char *what, struct walsh_signature r)
{
    size_t i;

    number_place(what, r.number, r.place);
    printf(" size %zu labels", r.size);
    for (i = 0; i < WALSH_MAX_LABELS; i++)
        printf(" %lu", (unsigned long)r.labels[i]);
    putchar('\n');
}

static void put_measured(const char *what, struct walsh_measured r)
{
    number_place(what, r.number, r.place);
    printf(" kind %lu (%s) fixed %lu value %.17g\n", (unsigned long)r.kind, kind_name(r.kind), (unsigned long)r.fixed, r.value);
}

static void put_comparison(const char *what, struct walsh_comparison r)
{
    number_place(what, r.number, r.place);
    printf(" sound %.17g faulty %.17g difference %.17g\n", r.sound, r.faulty, r.difference);
}

static void put_part(const char *what, struct walsh_part r)
{
    printf("%s: start %zu length %zu\n", what, r.start, r.length);
}

/* MARK in all of `out`. */
static void clear(void)
{
    size_t i;

    for (i = 0; i < COUNT(out); i++)
        out[i] = MARK;
}

/* How many numbers of `out` no longer hold MARK; no result here has a 77. */
static size_t written_numbers(void)
{
    size_t i, n = 0;

    for (i = 0; i < COUNT(out); i++)
        n += out[i] != MARK;
    return n;
}

/* The answer, how much of `out` was written, and its first numbers. Clears `out` for the next call. */
static void put_reply(const char *what, struct walsh_reply r, size_t shown)
{
    size_t i;

    number_place(what, r.number, r.place);
    printf(" written %zu", written_numbers());
    for (i = 0; i < shown; i++)
        printf(" %ld", (long)out[i]);
    putchar('\n');
    clear();
}

/* Number, bytes, and as many bytes of the report as were written; the byte after them holds MARK still, and nothing is written where number 8 is. */
static void put_written(const char *what, struct walsh_written r)
{
    size_t i, n = 0;

    for (i = 0; i < COUNT(bytes); i++)
        n += bytes[i] != MARK;
    printf("%s: number %lu (%s) bytes %zu written %zu\n", what, (unsigned long)r.number, name(r.number), r.bytes, n);
    if (r.bytes <= sizeof bytes)
        fwrite(bytes, 1, r.bytes, stdout);
    memset(bytes, MARK, sizeof bytes);
}

#define FIELD(type, field) printf(" " #field " %zu+%zu", offsetof(struct type, field), sizeof(((struct type *)0)->field))
#define END(type) printf(" of %zu\n", sizeof(struct type))

/* Where each field begins and how many bytes it has: the types of crates/replies/src/lib.rt, laid out by the rules of C on x86-64. */
static void layouts(void)
{
    printf("reply:"), FIELD(walsh_reply, number), FIELD(walsh_reply, place), END(walsh_reply);
    printf("sum:"), FIELD(walsh_sum, number), FIELD(walsh_sum, value), FIELD(walsh_sum, place), END(walsh_sum);
    printf("signature:"), FIELD(walsh_signature, number), FIELD(walsh_signature, place), FIELD(walsh_signature, size);
    FIELD(walsh_signature, labels), END(walsh_signature);
    printf("written:"), FIELD(walsh_written, number), FIELD(walsh_written, bytes), END(walsh_written);
    printf("measured:"), FIELD(walsh_measured, number), FIELD(walsh_measured, kind), FIELD(walsh_measured, fixed), FIELD(walsh_measured, place);
    FIELD(walsh_measured, value), END(walsh_measured);
    printf("comparison:"), FIELD(walsh_comparison, number), FIELD(walsh_comparison, place), FIELD(walsh_comparison, sound);
    FIELD(walsh_comparison, faulty), FIELD(walsh_comparison, difference), END(walsh_comparison);
    printf("part:"), FIELD(walsh_part, start), FIELD(walsh_part, length), END(walsh_part);
}

/* Ones at rows 5, 7, 8, 9, 10, 14, 15 of 16, and their spectrum (paper). */
static const int32_t figure[16] = {0, 0, 0, 0, 0, 1, 0, 1, 1, 1, 1, 0, 0, 0, 1, 1};
static const int32_t figure_spectrum[16] = {7, -1, -1, -1, -1, 3, 3, -1, -3, -3, 1, 1, -3, 1, -3, 1};

static void coefficients(void)
{
    int32_t four[4] = {1, 2, 3, WALSH_MAX_ROW + 1};

    put_sum("coefficient, figure at 0", coefficient(figure, 16, 0));
    put_sum("coefficient, figure at 5", coefficient(figure, 16, 5));
    put_sum("coefficient, figure at 14", coefficient(figure, 16, 14));
    put_sum("coefficient, label 16 of 16", coefficient(figure, 16, 16));
    put_sum("coefficient, no rows", coefficient(NO_LIST, 0));
    put_sum("coefficient, one row", coefficient(figure, 1, 0));
    /* 12 comes before 10. */
    put_sum("coefficient, row 1,001", coefficient(four, 4, 0));
    put_sum("coefficient, row 1,001 and label 4", coefficient(four, 4, 4));
}

static void spectra(void)
{
    int32_t two[2] = {WALSH_MAX_ROW, -WALSH_MAX_ROW};
    size_t i;

    put_reply("spectrum, figure", spectrum(figure, 16, out, 17), 17);
    /* 1,000 - 1,000 and 1,000 + 1,000. */
    put_reply("spectrum, rows at their limits", spectrum(two, 2, out, 2), 3);
    two[1] = -WALSH_MAX_ROW - 1;
    put_reply("spectrum, row -1,001", spectrum(two, 2, out, 2), 1);
    /* 10 comes before 8. */
    put_reply("spectrum, row -1,001 and no room", spectrum(two, 2, NO_LIST), 1);
    put_reply("spectrum, a number short", spectrum(figure, 16, out, 15), 1);
    put_reply("spectrum, no room", spectrum(figure, 16, NO_LIST), 1);
    put_reply("spectrum, no rows", spectrum(NO_LIST, out, 16), 1);
    put_reply("spectrum, no rows and no room", spectrum(NO_LIST, NO_LIST), 1);
    put_reply("spectrum, twelve rows", spectrum(figure, 12, out, 16), 1);
    /* All rows 1: the length at label 0, and 0 elsewhere. */
    for (i = 0; i < COUNT(list); i++)
        list[i] = 1;
    put_reply("spectrum, longest list", spectrum(list, WALSH_MAX_LIST, out, COUNT(out)), 3);
    put_reply("spectrum, longer list", spectrum(list, 2 * WALSH_MAX_LIST, out, COUNT(out)), 1);
}

static void ways_back(void)
{
    /* The sums by row are 4, 2, 2, 0, and the second does not divide by 4. */
    int32_t four[4] = {2, 1, 1, 0};
    /* Rows 999 and 1,001. */
    int32_t two[2] = {2000, -2};

    put_reply("rows, figure", rows(figure_spectrum, 16, out, 17), 17);
    put_reply("rows, undivided", rows(four, 4, out, 4), 1);
    put_reply("rows, row 1,001", rows(two, 2, out, 2), 1);
    /* 8 comes before 11. */
    put_reply("rows, row 1,001 and no room", rows(two, 2, NO_LIST), 1);
    /* 2,048,000 at label 0 alone is the spectrum of 2,048 rows 1,000. */
    memset(list, 0, sizeof list);
    list[0] = WALSH_MAX_COEFFICIENT;
    put_reply("rows, largest coefficient", rows(list, WALSH_MAX_LIST, out, COUNT(out)), 3);
    list[0] = 0;
    list[3] = WALSH_MAX_COEFFICIENT + 1;
    put_reply("rows, larger coefficient", rows(list, WALSH_MAX_LIST, out, COUNT(out)), 1);
    put_reply("rows, no coefficients", rows(NO_LIST, out, 16), 1);
}

static void stuck_inputs(void)
{
    /* x1x2 + x3: rows 0 0 0 1 1 1 1 1, and the sums by hand. At 0: 5; under faults the paper has 4, 6, 2, 8. */
    static const int32_t or_of_and[8] = {5, -1, -1, 1, -3, -1, -1, 1};
    static const uint32_t zero[4] = {0, 0, 0, 0}, one[1] = {1}, two[1] = {2}, three[1] = {3}, four[1] = {4};
    static const uint32_t first[4] = {1, 2, 3, 4}, equal[2] = {2, 2}, mixed[2] = {1, 0}, other[2] = {0, 1}, ones[2] = {1, 1};
    int32_t sixteen[16], spoilt[8];
    int x;

    put_reply("stuck, x1 at 0", stuck(or_of_and, 8, one, 1, zero, 1, out, 9), 9);
    put_reply("stuck, x1 at 1", stuck(or_of_and, 8, one, 1, one, 1, out, 9), 9);
    put_reply("stuck, x3 at 0", stuck(or_of_and, 8, three, 1, zero, 1, out, 9), 9);
    put_reply("stuck, x3 at 1", stuck(or_of_and, 8, three, 1, one, 1, out, 9), 9);
    /* All inputs at 0: the function is 0 on all rows. */
    put_reply("stuck, all at 0", stuck(or_of_and, 8, first, WALSH_MAX_STUCK, zero, WALSH_MAX_STUCK, out, 9), 9);

    /* x1x2x3 + x4 not(x2x3): the paper has 8, then 8, 8, 4, 12 with x1 and x2 stuck. */
    for (x = 0; x < 16; x++)
        list[x] = ((x >> 1) & (x >> 2) & 1) ? (x & 1) : (x >> 3);
    put_reply("spectrum, product or not", spectrum(list, 16, sixteen, 16), 0);
    printf("at 0: %ld\n", (long)sixteen[0]);
    put_reply("stuck, x1 and x2 at 0, 0", stuck(sixteen, 16, first, 2, zero, 2, out, 16), 1);
    put_reply("stuck, x1 and x2 at 1, 0", stuck(sixteen, 16, first, 2, mixed, 2, out, 16), 1);
    put_reply("stuck, x1 and x2 at 0, 1", stuck(sixteen, 16, first, 2, other, 2, out, 16), 1);
    put_reply("stuck, x1 and x2 at 1, 1", stuck(sixteen, 16, first, 2, ones, 2, out, 16), 1);

    put_reply("stuck, no inputs", stuck(or_of_and, 8, NO_LIST, NO_LIST, out, 8), 1);
    put_reply("stuck, no values", stuck(or_of_and, 8, one, 1, NO_LIST, out, 8), 1);
    put_reply("stuck, four inputs", stuck(sixteen, 16, first, WALSH_MAX_STUCK + 1, zero, WALSH_MAX_STUCK + 1, out, 16), 1);
    put_reply("stuck, not rising", stuck(or_of_and, 8, equal, 2, zero, 2, out, 8), 1);
    put_reply("stuck, input 0", stuck(or_of_and, 8, zero, 1, one, 1, out, 8), 1);
    put_reply("stuck, input 4 of 3", stuck(or_of_and, 8, four, 1, one, 1, out, 8), 1);
    put_reply("stuck, value 2", stuck(or_of_and, 8, one, 1, two, 1, out, 8), 1);
    put_reply("stuck, no coefficients", stuck(NO_LIST, one, 1, zero, 1, out, 8), 1);
    put_reply("stuck, no room", stuck(or_of_and, 8, one, 1, zero, 1, NO_LIST), 1);
    memcpy(spoilt, or_of_and, sizeof spoilt);
    spoilt[6] = -WALSH_MAX_COEFFICIENT - 1;
    put_reply("stuck, coefficient out of range", stuck(spoilt, 8, one, 1, zero, 1, out, 8), 1);
}

static void opened_lines(void)
{
    static const uint32_t zero[4] = {0, 0, 0, 0}, one[1] = {1}, two[1] = {2}, other[2] = {0, 1}, mixed[2] = {1, 0};
    /* 1 on the row x1 = 0, x2 = 0, x3 = 1 of 8, with x2 and x3 opened: the signs of label AND 4. At 0, 1 its rows are 1, 0; at 1, 0 they are 0, 0. */
    static const int32_t spot[8] = {1, 1, 1, 1, -1, -1, -1, -1};
    /* At label 1 the sum is 1 + 0. */
    static const int32_t odd[4] = {2, 1, 0, 0};
    int32_t opened_sum[32];
    int x;

    /* x1x5 + x4 not(x2x3), x5 being the opened line: 17 at 0 and -5 at the line; 6 with it at 0 and 11 at 1 (paper). At 0 all sixteen follow from
       x4 not(x2x3): 2, 0 by x1 times 3, 1, 1, -1 by x2 and x3 times 1, -1 by x4. */
    for (x = 0; x < 32; x++)
        list[x] = ((x & 1) & (x >> 4)) | ((x >> 3) & 1 & ~((x >> 1) & (x >> 2)));
    put_reply("spectrum, opened", spectrum(list, 32, opened_sum, 32), 0);
    printf("at 0: %ld, at the line: %ld\n", (long)opened_sum[0], (long)opened_sum[16]);
    put_reply("opened, at 0", opened(opened_sum, 32, zero, 1, out, 17), 17);
    put_reply("opened, at 1", opened(opened_sum, 32, one, 1, out, 16), 1);
    put_reply("opened, two at 0, 1", opened(spot, 8, other, 2, out, 3), 3);
    put_reply("opened, two at 1, 0", opened(spot, 8, mixed, 2, out, 3), 3);
    put_reply("opened, undivided", opened(odd, 4, zero, 1, out, 2), 1);
    /* 8 comes before 11. */
    put_reply("opened, undivided and no room", opened(odd, 4, zero, 1, NO_LIST), 1);
    put_reply("opened, no lines", opened(odd, 4, NO_LIST, out, 4), 1);
    put_reply("opened, no inputs left", opened(odd, 4, zero, 2, out, 4), 1);
    put_reply("opened, four lines", opened(opened_sum, 32, zero, WALSH_MAX_STUCK + 1, out, 4), 1);
    put_reply("opened, value 2", opened(odd, 4, two, 1, out, 4), 1);
    put_reply("opened, no coefficients", opened(NO_LIST, zero, 1, out, 4), 1);
}

static void bridged_inputs(void)
{
    /* Ones at rows 0, 3, 4, 5, 6, 9, 12 of 16, and their spectrum; at label 0 the example has 10, 4, 10, 9, 7, 7 under the bridges
       (004, example 6.2). */
    static const int32_t example[16] = {7, 1, 3, 1, -1, -3, -1, 1, 3, 1, -1, 1, -1, 1, -1, 5};
    /* The paper's listing. Bridged x1 and x3 leave rows 5 and 7: 2, and by signs -2, 0, 0, -2, 2, 0, 0. */
    static const int32_t listing[8] = {4, -2, 0, 2, -2, 0, -2, 0};
    /* Of inputs 1 and 2 the halves are of 0 + 0 at label 0 and of 1 + 0 at label 4. */
    static const int32_t odd[8] = {0, 0, 0, 0, 0, 1, 0, 0};
    /* No spectrum of rows: 100 + 12 + 1, 12, 12, -12. */
    static const int32_t any[4] = {100, 20, 4, 1};
    int32_t spoilt[4] = {0, 1, 0, -WALSH_MAX_COEFFICIENT - 1};
    size_t i;

    put_reply("bridged, example at 1 and 2", bridged(example, 16, 1, 2, out, 16), 1);
    put_reply("bridged, example at 1 and 3", bridged(example, 16, 1, 3, out, 16), 1);
    put_reply("bridged, example at 1 and 4", bridged(example, 16, 1, 4, out, 16), 1);
    put_reply("bridged, example at 2 and 4", bridged(example, 16, 2, 4, out, 16), 1);
    put_reply("bridged, example at 2 and 3", bridged(example, 16, 2, 3, out, 16), 1);
    put_reply("bridged, example at 3 and 4", bridged(example, 16, 3, 4, out, 16), 1);
    put_reply("bridged, listing at 1 and 3", bridged(listing, 8, 1, 3, out, 9), 9);
    put_reply("bridged, any list", bridged(any, 4, 1, 2, out, 5), 5);
    put_reply("bridged, odd half", bridged(odd, 8, 1, 2, out, 8), 1);
    /* Label 5 names inputs 1 and 3: with 2 and 3 it is in the half of label 1, with 1 and 3 in none. */
    put_reply("bridged, odd half at 2 and 3", bridged(odd, 8, 2, 3, out, 8), 1);
    put_reply("bridged, odd number in no half", bridged(odd, 8, 1, 3, out, 9), 9);
    put_reply("bridged, equal inputs", bridged(listing, 8, 2, 2, out, 8), 1);
    put_reply("bridged, falling inputs", bridged(listing, 8, 3, 1, out, 8), 1);
    put_reply("bridged, input 0", bridged(listing, 8, 0, 1, out, 8), 1);
    put_reply("bridged, input 4 of 3", bridged(listing, 8, 1, 4, out, 8), 1);
    put_reply("bridged, largest argument", bridged(listing, 8, 1, 4294967295u, out, 8), 1);
    put_reply("bridged, a list of two", bridged(listing, 2, 1, 2, out, 8), 1);
    put_reply("bridged, no coefficients", bridged(NO_LIST, 1, 2, out, 8), 1);
    put_reply("bridged, a number short", bridged(listing, 8, 1, 3, out, 7), 1);
    put_reply("bridged, no room", bridged(listing, 8, 1, 3, NO_LIST), 1);
    /* 9, 12, 10, 8, 11: one less is wrong each time. */
    put_reply("bridged, all wrong", bridged(spoilt, 3, 2, 2, out, 2), 1);
    put_reply("bridged, all but the length", bridged(spoilt, 4, 2, 2, out, 3), 1);
    put_reply("bridged, and the inputs", bridged(spoilt, 4, 1, 2, out, 3), 1);
    spoilt[3] = 0;
    put_reply("bridged, and the range", bridged(spoilt, 4, 1, 2, out, 3), 1);
    put_reply("bridged, the half alone", bridged(spoilt, 4, 1, 2, out, 4), 1);
    /* Three times the largest coefficient; the largest with one input, its negative with both. */
    for (i = 0; i < WALSH_MAX_LIST; i++)
        list[i] = WALSH_MAX_COEFFICIENT;
    put_reply("bridged, largest numbers", bridged(list, WALSH_MAX_LIST, 1, 2, out, COUNT(out)), 5);
}

static void circuits(void)
{
    /* Sound: the paper's eight. Under fault 1 the output is x3, under fault 2 it is x1. */
    put_reply("circuit, sound", circuit(TEXT(LISTING), 0, out, 9), 9);
    put_reply("circuit, fault 1", circuit(TEXT(LISTING), 1, out, 9), 9);
    put_reply("circuit, fault 2", circuit(TEXT(LISTING), 2, out, 9), 9);
    put_reply("circuit, fault 3 of 2", circuit(TEXT(LISTING), 3, out, 8), 1);
    /* 12 comes before 8. */
    put_reply("circuit, fault 3 and no room", circuit(TEXT(LISTING), 3, NO_LIST), 1);
    put_reply("circuit, no room", circuit(TEXT(LISTING), 0, NO_LIST), 1);
    put_reply("circuit, no text", circuit(NO_TEXT, 0, out, 8), 1);
    /* 129 ones at label 0. */
    put_reply("circuit, eight inputs", circuit(TEXT(HALF_AND_A_ROW), 0, out, WALSH_CIRCUIT_NUMBERS), 1);
    put_reply("circuit, eight inputs and a number short", circuit(TEXT(HALF_AND_A_ROW), 0, out, WALSH_CIRCUIT_NUMBERS - 1), 1);
}

static void put_refusal(const char *what, const char *text)
{
    put_reply(what, circuit(TEXT(text), 0, out, COUNT(out)), 1);
}

/* The head line alone: where its numbers pass, the second line is missing. */
static void put_head(const char *what, int inputs, int gates, int outputs, int faults, int cap)
{
    char text[64];

    sprintf(text, "circuit,%d,%d,%d,%d,%d\n", inputs, gates, outputs, faults, cap);
    put_refusal(what, text);
}

static void put_output(const char *what, int line, int weight)
{
    char text[64];

    sprintf(text, "circuit,1,0,1,1,1\noutput,%d,%d\n", line, weight);
    put_refusal(what, text);
}

/* 1 to 7, and the limits of a text at and past their ends. */
static void texts(void)
{
    memset(long_text, 'x', sizeof long_text);
    put_reply("text, longest", circuit(long_text, WALSH_MAX_TEXT_BYTES, 0, out, COUNT(out)), 1);
    put_reply("text, longer", circuit(long_text, WALSH_MAX_TEXT_BYTES + 1, 0, out, COUNT(out)), 1);
    put_refusal("text, no line end", "circuit,1,0,1,1,1\noutput,1,1\nfault,1,0");
    put_refusal("text, gate reads itself", "circuit,1,2,1,1,1\ngate,not,1,0\ngate,or,3,1\n");
    put_refusal("text, output of no line", "circuit,1,1,1,1,1\ngate,not,1,0\noutput,3,1\n");
    put_refusal("text, lines not rising", "circuit,2,0,1,2,1\noutput,1,1\nfault,1,0\nfault,2,0,1,0\n");
    put_refusal("text, a line more", "circuit,1,0,1,1,1\noutput,1,1\nfault,1,0\n\n");
    put_head("head, at its limits", WALSH_MAX_INPUTS, WALSH_MAX_GATES, WALSH_MAX_OUTPUTS, WALSH_MAX_FAULTS, WALSH_MAX_LABELS);
    put_head("head, inputs", WALSH_MAX_INPUTS + 1, 0, 1, 1, 1);
    put_head("head, gates", 1, WALSH_MAX_GATES + 1, 1, 1, 1);
    put_head("head, outputs", 1, 0, WALSH_MAX_OUTPUTS + 1, 1, 1);
    put_head("head, faults", 1, 0, 1, WALSH_MAX_FAULTS + 1, 1);
    put_head("head, cap", 1, 0, 1, 1, WALSH_MAX_LABELS + 1);
    put_output("output, largest line", WALSH_MAX_LINES, 1);
    put_output("output, larger line", WALSH_MAX_LINES + 1, 1);
    put_output("output, largest weight", 1, WALSH_MAX_WEIGHT);
    put_output("output, larger weight", 1, WALSH_MAX_WEIGHT + 1);
}

static void plans(void)
{
    size_t all = WALSH_WORKING_NUMBERS;

    work[all] = MARK;
    /* The five answers are the paper's. */
    put_signature("plan, listing", plan(TEXT(LISTING), work, all + 1));
    put_signature("plan, silent", plan(TEXT(SILENT), work, all + 1));
    put_signature("plan, two outputs", plan(TEXT(TWO_OUTPUTS("1")), work, all + 1));
    put_signature("plan, two outputs with cap 2", plan(TEXT(TWO_OUTPUTS("2")), work, all + 1));
    put_signature("plan, no text", plan(NO_TEXT, work, all));
    printf("number after the working numbers: %lu\n", (unsigned long)work[all]);
    put_signature("plan, a working number short", plan(TEXT(LISTING), work, all - 1));
    put_signature("plan, no working numbers", plan(TEXT(LISTING), NO_LIST));
    put_signature("plan, nothing", plan(NO_TEXT, NO_LIST));
}

static void reports(void)
{
    size_t all = WALSH_WORKING_NUMBERS;

    memset(bytes, MARK, sizeof bytes);
    /* The paper's report, and its refusals as lines. */
    put_written("report, listing", report(TEXT(LISTING), bytes, sizeof bytes, work, all));
    put_written("report, silent", report(TEXT(SILENT), bytes, sizeof bytes, work, all));
    put_written("report, two outputs", report(TEXT(TWO_OUTPUTS("1")), bytes, sizeof bytes, work, all));
    put_written("report, no text", report(NO_TEXT, bytes, sizeof bytes, work, all));
    put_written("report, a byte short", report(TEXT(LISTING), bytes, sizeof bytes - 1, work, all));
    put_written("report, a working number short", report(TEXT(LISTING), bytes, sizeof bytes, work, all - 1));
    put_written("report, no bytes", report(TEXT(LISTING), NO_LIST, work, all));
    put_written("report, nothing", report(NO_TEXT, NO_LIST, NO_LIST));
    printf("number after the working numbers: %lu\n", (unsigned long)work[all]);
}

static void readings(void)
{
    /* 4 ones in 8 rows; 5 in 8; 129 in 256. */
    put_measured("reading, listing", reading(TEXT(LISTING), 0, 0));
    put_measured("reading, x1x2 + x3", reading(TEXT(OR_OF_AND), 0, 0));
    put_measured("reading, 129 of 256", reading(TEXT(HALF_AND_A_ROW), 0, 0));
    /* x1 and x2 of weight 1: 0 + 1 + 1 + 2 by 4. x1 of weight 3: 0 + 3 by 2. */
    put_measured("reading, two outputs", reading(TEXT(TWO_OUTPUTS("1")), 0, 0));
    put_measured("reading, weight 3", reading(TEXT("circuit,1,0,1,1,1\noutput,1,3\nfault,1,0\n"), 0, 0));
    /* x1x2 + x3 with x1 = 1 is x2 + x3; with x2 = 1 and x3 = 0 it is x1; with x1 = x2 = x3 = 1 one row is left. */
    put_measured("reading, x1 at 1", reading(TEXT(OR_OF_AND), 1, 1));
    put_measured("reading, x2 at 1 and x3 at 0", reading(TEXT(OR_OF_AND), 6, 2));
    put_measured("reading, all at 1", reading(TEXT(OR_OF_AND), 7, 7));
    /* The constrained case goes first: weight 3, x1 fixed. */
    put_measured("reading, weight 3 and x1 at 1", reading(TEXT("circuit,1,0,1,1,1\noutput,1,3\nfault,1,0\n"), 1, 1));
    put_measured("reading, mask 8 of 3 inputs", reading(TEXT(OR_OF_AND), 8, 0));
    put_measured("reading, values outside the mask", reading(TEXT(OR_OF_AND), 2, 6));
    put_measured("reading, no text", reading(NO_TEXT, 0, 0));
    put_measured("reading, silent fault", reading(TEXT(SILENT), 0, 0)); /* x1 in 4 rows; the fault plays no part */
}

static void pairs(void)
{
    /* Sound 5 of 8; the paper has 4, 6, 2, 8 under the faults. */
    put_comparison("pair, x1 at 0", pair(TEXT(OR_OF_AND), 1, 0, 0));
    put_comparison("pair, x1 at 1", pair(TEXT(OR_OF_AND), 2, 0, 0));
    put_comparison("pair, x3 at 0", pair(TEXT(OR_OF_AND), 3, 0, 0));
    put_comparison("pair, x3 at 1", pair(TEXT(OR_OF_AND), 4, 0, 0));
    /* x2 = 1 and x3 = 0 applied: x1, and with x3 stuck at 1 always 1. */
    put_comparison("pair, x3 at 1 where 0 is applied", pair(TEXT(OR_OF_AND), 4, 6, 2));
    put_comparison("pair, 129 of 256 and 128", pair(TEXT(HALF_AND_A_ROW), 1, 0, 0));
    put_comparison("pair, fault 0", pair(TEXT(OR_OF_AND), 0, 0, 0));
    put_comparison("pair, fault 5 of 4", pair(TEXT(OR_OF_AND), 5, 0, 0));
    put_comparison("pair, mask 8", pair(TEXT(OR_OF_AND), 1, 8, 0));
    put_comparison("pair, values outside the mask", pair(TEXT(OR_OF_AND), 1, 2, 6));
    put_comparison("pair, no text", pair(NO_TEXT, 1, 0, 0));
}

/* The calls that take tables, doubled, and the two that do not. */
static void tables(void)
{
    put_reply("table, sound", circuit(TEXT(TABLE), 0, out, 5), 5);
    put_reply("table, input 1 at 0", circuit(TEXT(TABLE), 1, out, 5), 5);
    put_reply("table, input 2 at 1", circuit(TEXT(TABLE), 2, out, 5), 5);
    put_reply("table, fault 3 of 2", circuit(TEXT(TABLE), 3, out, 5), 1);
    /* 12 comes before 8. */
    put_reply("table, fault 3 and no room", circuit(TEXT(TABLE), 3, NO_LIST), 1);
    put_reply("table, a number short", circuit(TEXT(TABLE), 0, out, 3), 1);
    /* Twice the figure's 6, -1, 0, -1, 0, 3, 2, -1, -2, -3, 0, 1, -4, 1, -2, 1. */
    put_reply("table, figure 2", circuit(TEXT(FREE_ROWS), 0, out, 17), 17);
}

/* 1 to 7 and 15 in a table. */
static void table_texts(void)
{
    put_refusal("marks, one too few", TABLE_OF("01-"));
    put_refusal("marks, one too many", TABLE_OF("01-11"));
    put_refusal("marks, none", TABLE_OF(""));
    put_refusal("marks, no line end", "table,2,2,1\n" "01-1");
    put_refusal("marks, no line", "table,2,2,1\n");
    /* 2 comes before 15. */
    put_refusal("marks, another and one too few", TABLE_OF("01x"));
    put_refusal("marks, carriage return after", TABLE_OF("01-1\r"));
    put_refusal("marks, carriage return among", TABLE_OF("01-\r"));
    put_refusal("marks, another", TABLE_OF("01x1"));
    put_refusal("marks, comma", TABLE_OF("0,11"));
    put_refusal("table, three fields", "table,2,2\n" "01-1\n");
    put_refusal("table, another word", "tables,2,2,1\n" "01-1\n");
    put_refusal("table, nine inputs", "table,9,2,1\n" "01-1\n");
    put_refusal("table, value 2", TABLE_OF("01-1\nfault,1,0\nfault,1,2"));
    put_refusal("table, fault of no input", TABLE_OF("01-1\nfault,3,0"));
    put_refusal("table, fault of line 57", TABLE_OF("01-1\nfault,57,0"));
    put_refusal("table, lines not rising", TABLE_OF("01-1\nfault,2,0,1,0"));
    put_refusal("table, a line more", TABLE "\n");
    put_refusal("table, a fault too few", "table,2,2,1\n" "01-1\n" "fault,1,0\n");
}

static void table_plans(void)
{
    size_t all = WALSH_WORKING_NUMBERS, i, n = 0;

    put_signature("plan, table", plan(TEXT(TABLE), work, all));
    put_signature("plan, silent input", plan(TEXT(SILENT_INPUT), work, all));
    put_signature("plan, twins", plan(TEXT(TWINS("1")), work, all));
    put_signature("plan, twins with cap 2", plan(TEXT(TWINS("2")), work, all));
    put_signature("plan, table and a working number short", plan(TEXT(TABLE), work, all - 1));
    for (i = 0; i < COUNT(work); i++)
        work[i] = MARK;
    put_signature("plan, another mark", plan(TEXT(TABLE_OF("0,11")), work, all));
    /* The text comes before 8. */
    put_signature("plan, another mark and no working numbers", plan(TEXT(TABLE_OF("0,11")), NO_LIST));
    put_written("report, another mark", report(TEXT(TABLE_OF("0,11")), bytes, sizeof bytes, work, all));
    for (i = 0; i < COUNT(work); i++)
        n += work[i] != MARK;
    printf("working numbers used: %zu\n", n);
    put_written("report, table", report(TEXT(TABLE), bytes, sizeof bytes, work, all));
    put_written("report, silent input", report(TEXT(SILENT_INPUT), bytes, sizeof bytes, work, all));
    put_written("report, twins", report(TEXT(TWINS("1")), bytes, sizeof bytes, work, all));
    put_written("report, another mark and a byte short", report(TEXT(TABLE_OF("0,11")), bytes, sizeof bytes - 1, work, all));
}

static void tables_unread(void)
{
    /* For these the word of line 1 is wrong, and that goes before all that is wrong later, and before the arguments. */
    put_measured("reading, table", reading(TEXT(TABLE), 0, 0));
    put_measured("reading, another mark", reading(TEXT(TABLE_OF("0,11")), 0, 0));
    put_measured("reading, table and mask 8", reading(TEXT(TABLE), 8, 0));
    put_comparison("pair, table", pair(TEXT(TABLE), 1, 0, 0));
    put_comparison("pair, another mark", pair(TEXT(TABLE_OF("0,11")), 1, 0, 0));
    put_comparison("pair, table and fault 3", pair(TEXT(TABLE), 3, 0, 0));
    memset(long_text, '0', sizeof long_text);
    memcpy(long_text, TABLE, strlen(TABLE));
    put_reply("table, longest", circuit(long_text, WALSH_MAX_TEXT_BYTES, 0, out, COUNT(out)), 1);
    put_measured("reading, longest table", reading(long_text, WALSH_MAX_TEXT_BYTES, 0, 0));
    put_reply("table, longer", circuit(long_text, WALSH_MAX_TEXT_BYTES + 1, 0, out, COUNT(out)), 1);
    put_measured("reading, longer table", reading(long_text, WALSH_MAX_TEXT_BYTES + 1, 0, 0));
    put_comparison("pair, longer table", pair(long_text, WALSH_MAX_TEXT_BYTES + 1, 1, 0, 0));
}

/* The calls on texts with bridges. */
static void bridges(void)
{
    size_t all = WALSH_WORKING_NUMBERS, i, n = 0;

    put_reply("bridge, listing sound", circuit(TEXT(BRIDGED_LISTING), 0, out, 9), 9);
    put_reply("bridge, listing", circuit(TEXT(BRIDGED_LISTING), 2, out, 9), 9);
    put_reply("bridge, listing and fault 3", circuit(TEXT(BRIDGED_LISTING), 3, out, 9), 1);
    put_reply("bridge, outputs", circuit(TEXT(BRIDGED_OUTPUTS), 1, out, 5), 5);
    /* Twice 7, and twice the example's 10 and 7. */
    put_reply("bridge, table sound", circuit(TEXT(BRIDGED_TABLE), 0, out, 16), 1);
    put_reply("bridge, table at 1 and 2", circuit(TEXT(BRIDGED_TABLE), 1, out, 16), 1);
    put_reply("bridge, table at 2 and 3", circuit(TEXT(BRIDGED_TABLE), 2, out, 16), 1);
    put_signature("plan, bridged listing", plan(TEXT(BRIDGED_LISTING), work, all));
    put_signature("plan, silent bridge", plan(TEXT(SILENT_BRIDGE), work, all));
    put_signature("plan, bridged table", plan(TEXT(BRIDGED_TABLE), work, all));
    put_written("report, bridged listing", report(TEXT(BRIDGED_LISTING), bytes, sizeof bytes, work, all));
    put_written("report, silent bridge", report(TEXT(SILENT_BRIDGE), bytes, sizeof bytes, work, all));
    put_written("report, bridged table", report(TEXT(BRIDGED_TABLE), bytes, sizeof bytes, work, all));
    /* 4 and 2 of 8; with x1 at 1 and x3 at 0 applied the sound output is x2, the bridged one 0. */
    put_comparison("pair, bridged listing", pair(TEXT(BRIDGED_LISTING), 2, 0, 0));
    put_comparison("pair, bridged listing, x1 at 1 and x3 at 0", pair(TEXT(BRIDGED_LISTING), 2, 5, 1));
    /* 0 + 2 + 3 + 5 by 4, and 5 by 4. */
    put_comparison("pair, bridged outputs", pair(TEXT(BRIDGED_OUTPUTS), 1, 0, 0));
    put_measured("reading, bridged outputs", reading(TEXT(BRIDGED_OUTPUTS), 0, 0));
    put_comparison("pair, bridged table", pair(TEXT(BRIDGED_TABLE), 1, 0, 0));

    put_refusal("bridge, equal inputs", LISTING_OF("bridge,2,2", "fault,2,0"));
    put_refusal("bridge, falling inputs", LISTING_OF("fault,2,0", "bridge,3,2"));
    put_refusal("bridge, a gate's line", LISTING_OF("fault,2,0", "bridge,2,5"));
    put_refusal("bridge, a table's input above N", BRIDGED_TABLE_OF("bridge,2,5"));
    put_refusal("bridge, line 57", LISTING_OF("bridge,57,1", "fault,2,0"));
    put_refusal("bridge, line 0", LISTING_OF("bridge,1,0", "fault,2,0"));
    put_refusal("bridge, one input", LISTING_OF("bridge,1", "fault,2,0"));
    put_refusal("bridge, three inputs", LISTING_OF("bridge,1,2,3", "fault,2,0"));
    put_refusal("bridge, another word", LISTING_OF("bridges,1,2", "fault,2,0"));
    /* The first line decides, and stuck lines are refused as before. */
    put_refusal("bridge, equal inputs and no such line", LISTING_OF("bridge,2,2", "fault,8,0"));
    put_refusal("bridge, no such line and equal inputs", LISTING_OF("fault,8,0", "bridge,2,2"));
    put_refusal("bridge, lines not rising and equal inputs", LISTING_OF("fault,2,0,1,0", "bridge,2,2"));

    for (i = 0; i < COUNT(work); i++)
        work[i] = MARK;
    put_signature("plan, bad bridge", plan(TEXT(BRIDGED_TABLE_OF("bridge,2,1")), work, all));
    /* The text comes before 8. */
    put_signature("plan, bad bridge and no working numbers", plan(TEXT(BRIDGED_TABLE_OF("bridge,2,1")), NO_LIST));
    put_written("report, bad bridge", report(TEXT(BRIDGED_TABLE_OF("bridge,2,1")), bytes, sizeof bytes, work, all));
    for (i = 0; i < COUNT(work); i++)
        n += work[i] != MARK;
    printf("working numbers used: %zu\n", n);
    put_measured("reading, bad bridge and mask 8", reading(TEXT(LISTING_OF("bridge,2,1", "fault,2,0")), 8, 0));
    put_comparison("pair, bad bridge and fault 3", pair(TEXT(LISTING_OF("fault,2,0", "bridge,2,1")), 3, 0, 0));
}

/* Gates of three and four lines. */
static void wide_gates(void)
{
    size_t all = WALSH_WORKING_NUMBERS;

    put_reply("gate, and of three", circuit(TEXT(WIDE_AND), 0, out, 9), 9);
    put_reply("gate, and of three, fault 1", circuit(TEXT(WIDE_AND), 1, out, 9), 9);
    put_reply("gate, and of three, fault 2", circuit(TEXT(WIDE_AND), 2, out, 9), 9);
    put_signature("plan, and of three", plan(TEXT(WIDE_AND), work, all));
    put_written("report, and of three", report(TEXT(WIDE_AND), bytes, sizeof bytes, work, all));
    put_measured("reading, and of three", reading(TEXT(WIDE_AND), 0, 0));
    put_comparison("pair, and of three, fault 2", pair(TEXT(WIDE_AND), 2, 0, 0));
    /* The parity of four inputs: 8 ones, and all rows of odd parity at label 15. */
    put_reply("gate, xor of four", circuit(TEXT(WIDE_OF("gate,xor,1,2,3,4")), 0, out, 17), 17);
    put_reply("gate, xnor of three", circuit(TEXT(WIDE_OF("gate,xnor,1,2,3")), 0, out, 17), 9);
    /* 1 on row 0 alone. */
    put_reply("gate, nor of four", circuit(TEXT(WIDE_OF("gate,nor,1,2,3,4")), 0, out, 17), 17);
    /* Not x1x2: 12 of 16 rows, and the opposite of what x1x2 has elsewhere. */
    put_reply("gate, nand of lines read twice", circuit(TEXT(WIDE_OF("gate,nand,1,2,1,2")), 0, out, 17), 4);

    put_refusal("gate, one line", WIDE_OF("gate,and,1"));
    put_refusal("gate, five lines", WIDE_OF("gate,and,1,2,3,4,1"));
    put_refusal("gate, a comma more", WIDE_OF("gate,and,1,2,"));
    put_refusal("gate, not of three fields", WIDE_OF("gate,not,1,0,2"));
    put_refusal("gate, not of two lines", WIDE_OF("gate,not,1,2"));
    put_refusal("gate, line 0", WIDE_OF("gate,or,1,2,0"));
    put_refusal("gate, line 57", WIDE_OF("gate,or,1,2,3,57"));
    put_refusal("gate, its own line", WIDE_OF("gate,or,1,2,3,5"));
    /* 3 comes before 4, over all fields. */
    put_refusal("gate, a later line and line 57", WIDE_OF("gate,or,6,2,3,57"));
}

static void fields(void)
{
    put_part("field 0", field(TEXT("circuit,3,48"), 0));
    put_part("field 1", field(TEXT("circuit,3,48"), 1));
    put_part("field 2", field(TEXT("circuit,3,48"), 2));
    put_part("field 3 of 3", field(TEXT("circuit,3,48"), 3));
    put_part("field 1, empty", field(TEXT("a,,b"), 1));
    put_part("field 1 at the end", field(TEXT("ab,"), 1));
    put_part("field 0 of no text", field(NO_TEXT, 0));
    put_part("field 9 of no text", field(NO_TEXT, 9));
    /* Where the number of inputs stands in both texts. */
    put_part("field 1 of the listing", field(TEXT(LISTING), 1));
    put_part("field 1 of a table", field(TEXT(TABLE), 1));
}

/* Weights below 0. */
static void signed_weights(void)
{
    size_t all = WALSH_WORKING_NUMBERS;

    /* Each number of the listing negated, and the same label. */
    put_reply("subtracted, sound", circuit(TEXT(SUBTRACTED), 0, out, 9), 9);
    put_reply("subtracted, fault 2", circuit(TEXT(SUBTRACTED), 2, out, 9), 9);
    put_signature("subtracted, plan", plan(TEXT(SUBTRACTED), work, all));
    put_written("subtracted, report", report(TEXT(SUBTRACTED), bytes, sizeof bytes, work, all));
    put_measured("subtracted, reading", reading(TEXT(SUBTRACTED), 0, 0));
    /* With x2 at 1 the listing is x1; with x1 at 1 it is x2 + x3, and under fault 2 it is 1. A difference of 0 is +0. */
    put_measured("subtracted, reading with x2 at 1", reading(TEXT(SUBTRACTED), 2, 2));
    put_comparison("subtracted, fault 1", pair(TEXT(SUBTRACTED), 1, 0, 0));
    put_comparison("subtracted, fault 2 with x1 at 1", pair(TEXT(SUBTRACTED), 2, 1, 1));
    /* Rows 0 and 0: every fault that changes the outputs is hidden, and the mean is +0. */
    put_reply("cancelled, sound", circuit(TEXT(CANCELLED), 0, out, 3), 3);
    put_signature("cancelled, plan", plan(TEXT(CANCELLED), work, all));
    put_measured("cancelled, reading", reading(TEXT(CANCELLED), 0, 0));
    /* Rows 0 and -15, and 0 and 2. */
    put_reply("weight -15, sound", circuit(TEXT(WEIGHED("-15")), 0, out, 3), 3);
    put_measured("weight -15, reading", reading(TEXT(WEIGHED("-15")), 0, 0));
    put_measured("weight 2, reading", reading(TEXT(WEIGHED("2")), 0, 0));

    put_output("output, smallest weight", 1, -WALSH_MAX_WEIGHT);
    put_output("output, smaller weight", 1, -WALSH_MAX_WEIGHT - 1);
    put_output("output, weight 0", 1, 0);
    put_refusal("output, weight -0", WEIGHED("-0"));
    put_refusal("output, weight +1", WEIGHED("+1"));
    put_refusal("output, two signs", WEIGHED("--1"));
    put_refusal("output, a sign alone", WEIGHED("-"));
    put_refusal("output, four digits and a sign", WEIGHED("-9999"));
    put_refusal("output, five digits and a sign", WEIGHED("-10000"));
    put_refusal("output, a line with a sign", "circuit,1,0,1,1,1\noutput,-1,16\nfault,1,0\n");
    put_refusal("fault, a value with a sign", "circuit,1,0,1,1,1\noutput,1,-1\nfault,1,-0\n");
}

static void hidden_faults(void)
{
    size_t all = WALSH_WORKING_NUMBERS;

    /* Rows 1 and 1, sound and under the fault. */
    put_reply("hidden, sound", circuit(TEXT(EXCHANGED("1")), 0, out, 3), 3);
    put_reply("hidden, fault 1", circuit(TEXT(EXCHANGED("1")), 1, out, 3), 3);
    put_signature("hidden, plan", plan(TEXT(EXCHANGED("1")), work, all));
    put_signature("hidden, too few working numbers", plan(TEXT(EXCHANGED("1")), work, all - 1));
    put_written("hidden, report", report(TEXT(EXCHANGED("1")), bytes, sizeof bytes, work, all));
    put_comparison("hidden, pair", pair(TEXT(EXCHANGED("1")), 1, 0, 0));
    /* Rows 2 and 1, and 2 and 2 under the fault: another weight shows it at label 0. */
    put_signature("told apart, plan", plan(TEXT(EXCHANGED("2")), work, all));
    put_signature("silent behind hidden, plan", plan(TEXT(SILENT_BEHIND), work, all));
}

int main(void)
{
    clear();
    layouts();
    coefficients();
    spectra();
    ways_back();
    stuck_inputs();
    opened_lines();
    bridged_inputs();
    circuits();
    texts();
    plans();
    reports();
    readings();
    pairs();
    tables();
    table_texts();
    table_plans();
    tables_unread();
    bridges();
    wide_gates();
    signed_weights();
    hidden_faults();
    fields();
    return 0;
}
