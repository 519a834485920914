/* Tallies a sheet file: tally_sheet FILE [x0 y0 z0 x1 y1 z1 [from until]]. Without a lot it is the whole world, without a span all time.
 * It ends with 1 for a sheet that is refused, and with 2 where its words, its input or its output fail.
 * From the repository's root, after `tools/build library`:
 *     gcc -Wall -Wextra -O2 -I include examples/c/tally_sheet.c target/staticlib/libanowhetele.a -o target/tally_sheet */
#include <inttypes.h>
#include <stdio.h>
#include <stdlib.h>

#include "anowhetele.h"

/* The room for the tally: some thousand names. A host that has more of them lends more. */
#define ROOM 1048576

static uint8_t out[ROOM], spare[ROOM];

static void fail(const char *what, const char *name)
{
    fprintf(stderr, "tally_sheet: %s %s\n", what, name);
    exit(2);
}

/* The whole of a file; the caller frees it. */
static uint8_t *read_file(const char *name, size_t *length)
{
    FILE *file = fopen(name, "rb");
    if (!file)
        fail("cannot open", name);
    size_t room = 65536, got;
    uint8_t *bytes = malloc(room);
    *length = 0;
    while (bytes && (got = fread(bytes + *length, 1, room - *length, file)) > 0) {
        *length += got;
        if (*length == room)
            bytes = realloc(bytes, room *= 2);
    }
    if (!bytes)
        fail("no memory for", name);
    if (ferror(file))
        fail("cannot read", name);
    fclose(file);
    return bytes;
}

static int64_t number(const char *text, int64_t least, int64_t greatest)
{
    char *end;
    long long n = strtoll(text, &end, 10);
    if (end == text || *end || n < least || n > greatest)
        fail("not a number in range:", text);
    return n;
}

static anow_lot lot_of(char **words)
{
    int32_t c[6];
    for (int i = 0; i < 6; i++)
        c[i] = (int32_t)number(words[i], INT32_MIN, INT32_MAX);
    return (anow_lot){ c[0], c[1], c[2], c[3], c[4], c[5] };
}

static anow_span span_of(char **words)
{
    return (anow_span){ (uint32_t)number(words[0], 0, UINT32_MAX), (uint32_t)number(words[1], 0, UINT32_MAX) };
}

static uint64_t big_endian(const uint8_t *bytes, int width)
{
    uint64_t n = 0;
    for (int i = 0; i < width; i++)
        n = n << 8 | bytes[i];
    return n;
}

/* The rows of a tally that the library wrote: count, one space, the name's bytes. */
static void print_rows(const uint8_t *tally, size_t length)
{
    const uint8_t *row = tally + 9, *end = tally + length;
    while (row < end) {
        size_t name = (size_t)big_endian(row, 2);
        printf("%" PRIu64 " ", big_endian(row + 2 + name, 8));
        fwrite(row + 2, 1, name, stdout);
        putchar('\n');
        row += 2 + name + 8;
    }
}

/* Standard output keeps the mark of a write that failed, and closing it writes what is left. */
static void close_output(void)
{
    int failed = ferror(stdout);
    if (fclose(stdout) || failed)
        fail("cannot write to", "standard output");
}

static void print_refusal(anow_answer answer)
{
    fprintf(stderr, "refused %" PRIu32, answer.number);
    if (anow_has_offset(answer.number))
        fprintf(stderr, " at offset %" PRIu64 " of record %" PRIu32, answer.offset, answer.record);
    else
        fprintf(stderr, " at record %" PRIu32, answer.record);
    fprintf(stderr, ": %s\n", anow_words(answer.number));
}

int main(int argc, char **argv)
{
    if (argc != 2 && argc != 8 && argc != 10) {
        fprintf(stderr, "usage: tally_sheet FILE [x0 y0 z0 x1 y1 z1 [from until]]\n");
        return 2;
    }
    anow_lot lot = argc > 2 ? lot_of(argv + 2) : ANOW_WHOLE_WORLD;
    anow_span span = argc > 8 ? span_of(argv + 8) : ANOW_ALL_TIME;
    size_t length;
    uint8_t *sheet = read_file(argv[1], &length);
    anow_answer answer = anow_tally_sheet(sheet, length, lot, span, out, sizeof out, spare, sizeof spare);
    free(sheet);
    if (answer.number) {
        print_refusal(answer);
        return 1;
    }
    print_rows(out, (size_t)answer.length);
    close_output();
    return 0;
}
