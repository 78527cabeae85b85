/*
 * Plans the text, a circuit or a table, in the file that is named, or on standard input. Standard output gets the report, byte for byte what
 * `signature` writes, and standard error one line on the plan. Unlike `signature`, which ends with status 0 after a refusal too, it tells a script
 * by its exit status: 0 there is a plan, 1 the text is refused, 2 the text could not be read or the report not written, or more than one file is
 * named.
 *
 *     bash tools/build capi
 *     cc -Iinclude samples/plan.c target/staticlib/libcapi.a -o target/plan
 *     target/plan samples/full-adder.txt
 */
#include <stdio.h>

#include "walsh.h"

static uint8_t text[WALSH_MAX_TEXT_BYTES + 1]; /* a byte more than is taken, so that a longer text is refused and not cut */
static uint8_t report[WALSH_REPORT_BYTES];
static uint32_t work[WALSH_WORKING_NUMBERS];

/* The refusals of walsh_plan in words. A place, where there is one, is printed after them. */
static const char *reason(uint32_t number)
{
    switch (number) {
    case WALSH_TEXT_TOO_LONG: return "the text is too long";
    case WALSH_MALFORMED_LINE: return "missing or malformed: line";
    case WALSH_NUMBER_OUT_OF_RANGE: return "a number out of range: line";
    case WALSH_GATE_READS_AHEAD: return "a gate reads its own or a later line: line";
    case WALSH_NO_SUCH_LINE: return "an output or a fault names a line above the last: line";
    case WALSH_LINES_NOT_RISING: return "the lines of a fault do not rise: line";
    case WALSH_BYTES_AFTER_TEXT: return "bytes after the last line: line";
    case WALSH_SILENT_FAULT: return "no fixture can see this fault:";
    case WALSH_HIDDEN_FAULT: return "the weights hide this fault:";
    case WALSH_NO_SET_WITHIN_CAP: return "no set of labels within the cap shows every fault";
    case WALSH_BAD_MARK: return "a mark other than 0, 1 and -: line";
    case WALSH_BAD_BRIDGE: return "a bridge is not of two rising inputs: line";
    default: return "refused";
    }
}

static int failed(const char *what)
{
    perror(what);
    return 2;
}

int main(int argc, char **argv)
{
    const char *name = "standard input";
    FILE *file = stdin;
    struct walsh_signature plan;
    struct walsh_written written;
    size_t length, i;

    if (argc > 2) {
        fputs("usage: plan [FILE]\n", stderr);
        return 2;
    }
    if (argc == 2) {
        name = argv[1];
        file = fopen(name, "rb");
        if (file == NULL)
            return failed(name);
    }
    length = fread(text, 1, sizeof text, file);
    if (ferror(file))
        return failed(name);
    if (file != stdin)
        fclose(file);

    /* Each of the two searches for the plan: who needs only one of them calls only that one. */
    plan = walsh_plan(text, length, work, WALSH_WORKING_NUMBERS);
    written = walsh_report(text, length, report, sizeof report, work, WALSH_WORKING_NUMBERS);
    if (written.number != WALSH_DONE) {
        fputs("the lent buffers are too short\n", stderr);
        return 2;
    }
    if (fwrite(report, 1, written.bytes, stdout) != written.bytes || fflush(stdout) != 0)
        return failed("standard output");

    if (plan.number != WALSH_DONE) {
        fprintf(stderr, "%s: %s", name, reason(plan.number));
        if (plan.place != 0)
            fprintf(stderr, " %zu", plan.place);
        fputc('\n', stderr);
        return 1;
    }
    fprintf(stderr, "%s: a plan of %zu, labels", name, plan.size);
    for (i = 0; i < plan.size; i++)
        fprintf(stderr, " %lu", (unsigned long)plan.labels[i]);
    fputc('\n', stderr);
    return 0;
}
