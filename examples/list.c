/* Lists the explanations and repairs of Book X, or of the book in the file that is named, and goes on in more room until the listing is complete.

       bash tools/build badolkhup
       cc -Iinclude -o target/list examples/list.c target/staticlib/libbadolkhup.a
       target/list [BOOK]
*/
#include <badolkhup.h>
#include <inttypes.h>
#include <stdio.h>
#include <stdlib.h>

/* Book X in plain form. */
static const int32_t book_x[] = {3, 5, 0, -3, 0, 1, 1, 0, 2, -1, 3, 0, 3, 2, 0, 4, -2, 3, 0, 5, -1, 2, 0};

static uint8_t book[65536]; /* one byte more than a book can have, so that a longer one is refused and not cut */
static uint16_t work[BADOLKHUP_WORK_WORDS];
static uint64_t answer[4];

static int refused(uint32_t number) {
    printf("refused %" PRIu32 " %" PRIu64 "\n", number, answer[1]);
    return 1;
}

static void print_record(uint32_t kind, uint32_t set) {
    fputs(kind == BADOLKHUP_EXPLANATION ? "explain" : "repair", stdout);
    for (int group = 1; group <= 32; group++)
        if (set >> (group - 1) & 1) printf(" %d", group);
    puts(set == 0 ? " none" : "");
}

/* The number of bytes of Book X, written as a book, or of the named file. */
static size_t book_from(const char *path) {
    if (path == NULL) {
        uint32_t number = badolkhup_write(book_x, sizeof book_x / sizeof *book_x, book, sizeof book, answer);
        if (number != 0) exit(refused(number));
        return answer[1];
    }
    FILE *file = fopen(path, "rb");
    if (file == NULL) {
        perror(path);
        exit(2);
    }
    size_t read = fread(book, 1, sizeof book, file);
    fclose(file);
    return read;
}

int main(int argc, char **argv) {
    size_t size = book_from(argc > 1 ? argv[1] : NULL);
    uint32_t number = badolkhup_check(book, size, answer);
    if (number != 0) return refused(number);
    uint64_t groups = answer[2];

    size_t room = 4, count = 0;
    uint32_t *records = malloc(2 * room * sizeof *records);
    for (;;) {
        if (records == NULL) return 2;
        number = badolkhup_list(book, size, records, 2 * room, count, work, BADOLKHUP_WORK_WORDS, answer);
        if (number != 0) return refused(number);
        count = answer[1];
        if (answer[2] == 1) break;
        room *= 2; /* stopped: the same records in twice the room */
        records = realloc(records, 2 * room * sizeof *records);
    }

    printf("groups %" PRIu64 "\n", groups);
    for (size_t i = 0; i < count; i++) print_record(records[2 * i], records[2 * i + 1]);
    printf("complete %zu\n", count);
    free(records);
    return 0;
}
