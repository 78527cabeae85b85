/*
 * The Walsh signature planner, for C99 and C++. Link target/staticlib/libcapi.a, which `bash tools/build capi` writes for Linux on x86-64; it
 * needs nothing but memcpy and memset of the C library. docs/FORMAT.md says what the text of a circuit or of a table is and what each refusal means;
 * samples/plan.c is a short program.
 *
 * For every call:
 *
 * - A list or a text is a pointer and a length. Lengths count numbers, or bytes of a text. A text needs no 0 byte at its end.
 * - A pointer must be aligned and valid for its length. With length 0 it may be a null pointer.
 * - What a call writes to (`out`, `work`) must overlap nothing else that the call is lent.
 * - Any values may be passed: what cannot be taken is refused by a number and a place (enum walsh_number).
 * - A refusal writes nothing, with two exceptions: walsh_report writes its refusal as the report, and WALSH_SILENT_FAULT,
 *   WALSH_HIDDEN_FAULT and WALSH_NO_SET_WITHIN_CAP may have used the working numbers.
 * - `out` may be longer than the result: what stands after the result stays as it was.
 * - No call keeps a pointer, allocates memory, reads or writes a file or a stream, or needs more than 64 KiB of stack. There is no state between
 *   calls, so calls may run at the same time wherever none writes what another is lent. walsh_plan and walsh_report search, each anew;
 *   docs/BENCHMARK.md has the longest search.
 *
 * The order of the refusals in a call's comment is the order of its tests: where several apply, the first is given. "1 to 7 and 19" is the text,
 * line by line: 19 comes at the line of a bridge, after 2 and 3. So is "1 to 7, 15 and 19", where tables are taken: 15 comes at line 2 of a table,
 * after 2, and 4 never does.
 */
#ifndef WALSH_H
#define WALSH_H

#include <stddef.h>
#include <stdint.h>

#ifdef __cplusplus
extern "C" {
#endif

/* What to lend. */
#define WALSH_WORKING_NUMBERS 4608 /* working numbers of walsh_plan and walsh_report, at least */
#define WALSH_REPORT_BYTES 1024    /* bytes of a report, at least: the longest fits */
#define WALSH_CIRCUIT_NUMBERS 256  /* coefficients of the largest circuit or table */

/* What is taken, at most. */
#define WALSH_MAX_TEXT_BYTES 16384
#define WALSH_MAX_INPUTS 8
#define WALSH_MAX_GATES 48
#define WALSH_MAX_LINES 56 /* the inputs and the gates; of a table the inputs alone are lines */
#define WALSH_MAX_OUTPUTS 4
#define WALSH_MAX_WEIGHT 15 /* the size of a weight, of either sign; 0 is none */
#define WALSH_MAX_FAULTS 32
#define WALSH_MAX_STUCK 3          /* stuck lines of one fault, stuck inputs or opened lines of one call */
#define WALSH_MAX_LABELS 4         /* labels of a plan, and the largest cap */
#define WALSH_MAX_LIST 2048        /* numbers of a list; lists have 2, 4, 8 .. numbers */
#define WALSH_MAX_ROW 1000         /* rows are -1,000 to 1,000 */
#define WALSH_MAX_COEFFICIENT 2048000 /* coefficients are -2,048,000 to 2,048,000 */

/* The numbers of an answer. A place is 0 where the comment names none. */
enum walsh_number {
    WALSH_DONE = 0,
    WALSH_TEXT_TOO_LONG = 1,
    WALSH_MALFORMED_LINE = 2,        /* place: the line of the text, from 1, in 3 to 7, 15 and 19 too; malformed, missing or without its line end */
    WALSH_NUMBER_OUT_OF_RANGE = 3,   /* place: the line */
    WALSH_GATE_READS_AHEAD = 4,      /* place: the line; the gate reads its own or a later line, in any of its fields */
    WALSH_NO_SUCH_LINE = 5,          /* place: the line; an output or a stuck line is above the last (a table: above N); outside 1 to 56: 3 */
    WALSH_LINES_NOT_RISING = 6,      /* place: the line, a fault's of stuck lines */
    WALSH_BYTES_AFTER_TEXT = 7,      /* place: the line after the last that was due */
    WALSH_BUFFER_TOO_SHORT = 8,      /* `out` or `work` */
    WALSH_BAD_LENGTH = 9,            /* of a list: not 2, 4, 8 .. 2,048 */
    WALSH_ENTRY_OUT_OF_RANGE = 10,   /* place: the first index, from 0, of a row or coefficient out of range */
    WALSH_BAD_SUM = 11,              /* place: the first index, from 0, where a sum does not divide or gives a row out of range */
    WALSH_ARGUMENT_OUT_OF_RANGE = 12, /* each call's comment says which */
    WALSH_SILENT_FAULT = 13,         /* place: the first fault, from 1, that changes no output on any row */
    WALSH_NO_SET_WITHIN_CAP = 14,    /* no set of labels within the cap shows every fault */
    WALSH_BAD_MARK = 15,             /* place: the line, 2; a mark of a table is not `0`, `1` or `-`; nothing is written, as with 1 to 7 */
    WALSH_HIDDEN_FAULT = 16,         /* place: the first fault, from 1, that changes outputs and no row's weighted sum; given where no fault is silent */
    WALSH_BAD_BRIDGE = 19            /* place: the line; of a bridge an input is above N, or the two do not rise; nothing is written, as with 1 to 7 */
};

/* The kinds of a reading. */
enum walsh_kind {
    WALSH_NO_READING = 0,       /* with a refusal */
    WALSH_PLAIN_SYNDROME = 1,   /* one output of weight 1 */
    WALSH_WEIGHTED_SUM = 2,     /* more outputs, or a weight other than 1: the mean of weighted sums; may be negative */
    WALSH_CONSTRAINED_VALUE = 3 /* some inputs fixed, whatever the outputs */
};

/* What the calls give back. `number` is one of enum walsh_number; all other fields but `place` are 0 with a refusal. */

/* What a call gives back that writes its result to `out`: whether it is done,
   and if not, the place of the refusal. */
struct walsh_reply {
    uint32_t number;
    size_t place;
};

/* What walsh_coefficient gives back: one coefficient,
   or a refusal with its place. */
struct walsh_sum {
    uint32_t number;
    int32_t value;
    size_t place;
};

/* What walsh_plan gives back: the labels to count, in their order,
   or a refusal with its place, a line of the text or, of 13 and 16, a fault. */
struct walsh_signature {
    uint32_t number;
    size_t place;
    size_t size;                       /* how many labels the plan has */
    uint32_t labels[WALSH_MAX_LABELS]; /* 0 past the size */
};

/* What walsh_report gives back: how long the report is. It has no place: every refusal but 8
   stands in the report itself, and the number is then WALSH_DONE too. */
struct walsh_written {
    uint32_t number; /* WALSH_DONE or WALSH_BUFFER_TOO_SHORT */
    size_t bytes;    /* of the report */
};

/* What walsh_reading gives back: the reading and its kind,
   or a refusal with its place. */
struct walsh_measured {
    uint32_t number;
    uint32_t kind;  /* one of enum walsh_kind */
    uint32_t fixed; /* how many inputs are fixed */
    size_t place;
    double value;
};

/* What walsh_pair gives back: the readings of the sound and of the faulty circuit and their difference,
   or a refusal with its place. */
struct walsh_comparison {
    uint32_t number;
    size_t place;
    double sound;
    double faulty;
    double difference; /* sound minus faulty */
};

/* What walsh_field gives back: a part of the text, which begins `start` bytes after the text's pointer.
   It has no number: a field that is not there is an empty part at the text's end. */
struct walsh_part {
    size_t start; /* from 0 in the lent text */
    size_t length;
};

/* Calls on a text. walsh_plan, walsh_report and walsh_circuit take circuits and tables. Of a table all rows and coefficients are doubled, in all
   three: a row is 2 where its mark is `1`, 1 where it is `-` (a free row), 0 where it is `0`. walsh_reading and walsh_pair take circuits only: a
   table is refused by 1 where it is too long, and else by 2 at line 1, whatever stands in its lines. A gate of a circuit reads two, three or four
   lines, a `not` one. A fault of either text is one to three stuck lines or a bridge: two inputs that both show the AND of what is applied to them,
   wherever they are read. The numbers of the faults count both. */

/* Plans the circuit or table: the first shortest set of labels, within the text's cap, that shows every fault. What the first
   WALSH_WORKING_NUMBERS of `work` hold after a plan, 13, 16 or 14 may be anything; later ones stay.
   Refusals: 1 to 7, 15 and 19, 8 (fewer working numbers), 13, 16, 14. */
struct walsh_signature walsh_plan(const uint8_t *text, size_t text_length, uint32_t *work, size_t work_length);

/* Writes the report on the text to `out`: the plan with its coefficients, a table's doubled, or the line `refused,NUMBER,PLACE`. `work` is as
   in walsh_plan.
   Refusal: 8 before all else (fewer than WALSH_REPORT_BYTES bytes or WALSH_WORKING_NUMBERS working numbers). */
struct walsh_written walsh_report(const uint8_t *text, size_t text_length, uint8_t *out, size_t out_length, uint32_t *work, size_t work_length);

/* Writes the 2^N coefficients of the circuit or table, by label, a table's doubled: sound for fault 0, else under that fault of the text, from 1.
   N, the number of inputs, is field 1 of an accepted text (walsh_field).
   Refusals: 1 to 7, 15 and 19, 12 (a fault above the text's last), 8. */
struct walsh_reply walsh_circuit(const uint8_t *text, size_t text_length, uint32_t fault, int32_t *out, size_t out_length);

/* Reads the sound circuit: the mean of the rows that have the given values at the fixed inputs, an exact fraction. Bit i-1 of the mask
   fixes input i at that bit of the values; mask 0 fixes none.
   Refusals: 1 to 7 and 19 (2 at line 1 for a table), 12 (a mask of 2^N or above, or values outside the mask). */
struct walsh_measured walsh_reading(const uint8_t *text, size_t text_length, uint32_t mask, uint32_t values);

/* Reads the circuit sound and under a fault of the text, from 1; mask and values as in walsh_reading: they say what is applied, and an input
   that the fault holds shows its stuck value all the same, and a bridged one the AND. The difference is exact too.
   Refusals: 1 to 7 and 19 (2 at line 1 for a table), 12 (also fault 0 or a fault above the text's last). */
struct walsh_comparison walsh_pair(const uint8_t *text, size_t text_length, uint32_t fault, uint32_t mask, uint32_t values);

/* Finds field `number`, from 0, of any text: the part between two commas or ends, or the empty part at the text's end where there is no such
   field. It looks at commas only, line ends are bytes like any other, and it never refuses. */
struct walsh_part walsh_field(const uint8_t *text, size_t text_length, size_t number);

/* Calls on lists. A list of 2^n numbers belongs to n inputs. Bit i-1 of a row's index is the value of input i, and bit i-1 of a label names it. */

/* The coefficient of the rows at one label: the sum of the rows, each negative where label AND row has an odd number of ones.
   Refusals: 9, 12 (a label not below the length), 10. */
struct walsh_sum walsh_coefficient(const int32_t *rows, size_t rows_length, uint32_t label);

/* Rows, each from -1,000 to 1,000, to their coefficients at all labels: as many, that of label l at index l.
   Refusals: 9, 10, 8. */
struct walsh_reply walsh_spectrum(const int32_t *rows, size_t rows_length, int32_t *out, size_t out_length);

/* Coefficients at all labels, each from -2,048,000 to 2,048,000, back to their rows: as many.
   Refusals: 9, 10, 8, 11 (no rows in range have these coefficients). */
struct walsh_reply walsh_rows(const int32_t *coefficients, size_t coefficients_length, int32_t *out, size_t out_length);

/* Coefficients to the coefficients, as many, with one to three inputs stuck: rising inputs, from 1, and as many values 0 or 1. Where
   the list is the spectrum of rows, the result is that of the faulted rows. A list that is no spectrum of rows is not refused for that, and its
   result may have numbers of 8 times WALSH_MAX_COEFFICIENT.
   Refusals: 9, 12 (any other inputs or values), 10, 8. */
struct walsh_reply walsh_stuck(const int32_t *coefficients, size_t coefficients_length, const uint32_t *inputs, size_t inputs_length,
                               const uint32_t *values, size_t values_length, int32_t *out, size_t out_length);

/* An opened line is cut and driven from outside, as one more input. Coefficients of n inputs and k opened lines, which come last, to the 2^n
   coefficients with those lines at the k values 0 or 1; values[0] is for line n+1. k is 1 to 3 and n at least 1. Where the list is the
   spectrum of rows, the result is that of the faulted rows.
   Refusals: 9, 12 (any other k or values), 10, 8, 11 (a sum does not divide by 2^k). */
struct walsh_reply walsh_opened(const int32_t *coefficients, size_t coefficients_length, const uint32_t *values, size_t values_length,
                                int32_t *out, size_t out_length);

/* Coefficients to the coefficients, as many, with two inputs bridged: both show the AND of what is applied to them. The first is at least 1 and
   below the second, which is at most n; a list of 2 has no such inputs. Where the list is the spectrum of rows, the result is that of the bridged
   rows. A list that is no spectrum of rows is not refused for that alone, and its result may have numbers of 3 times WALSH_MAX_COEFFICIENT.
   Refusals: 9, 12 (any other inputs), 10, 8, 11 (the half of the sum of a coefficient with the first input and the one with the second in its
   place is not whole; the place is the first such label, without both inputs). */
struct walsh_reply walsh_bridged(const int32_t *coefficients, size_t coefficients_length, uint32_t first, uint32_t second, int32_t *out,
                                 size_t out_length);

#ifdef __cplusplus
}
#endif

#endif
