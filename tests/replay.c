/* replay [--from IMAGE] [--to IMAGE] BENCHFILE: runs a bench file through the C host, and prints what a bench prints: I, S or C, the
   answer, and after C 0 the response. Memory is all zero at first, or that of an image, and is written into one at the end. */

#include <string.h>

#include "bench.h"
#include "purse.h"

static uint8_t memory[PURSE_MEMORY];
static uint8_t session[PURSE_SESSION];
static uint8_t response[PURSE_RESPONSE];

/* The unselected session, which a bench has at first and after answer 7: any fresh card's. */
static void unselect(void)
{
    static const uint8_t data[5 + 51] = { [0] = 5, [6] = 1, [7] = 3 };
    static uint8_t scratch[PURSE_MEMORY];

    purse_install(scratch, sizeof scratch, session, sizeof session, data, sizeof data, PURSE_NO_LIMIT);
}

static uint64_t call(const struct record *record)
{
    switch (record->kind) {
    case INSTALLATION:
        return purse_install(memory, sizeof memory, session, sizeof session, record->input, record->input_len,
                             record->limit);
    case START_UP:
        return purse_start_up(memory, sizeof memory, session, sizeof session, record->limit);
    default:
        return purse_command(memory, sizeof memory, session, sizeof session, record->input, record->input_len,
                             record->random, PURSE_RANDOM, response, sizeof response, record->limit);
    }
}

static void print(unsigned kind, uint64_t result)
{
    printf("%c %u", "ISC"[kind - INSTALLATION], purse_answer(result));
    if (kind == COMMAND && purse_answer(result) == PURSE_DONE) {
        putchar(' ');
        for (size_t i = 0; i < purse_length(result); i++)
            printf("%02X", response[i]);
    }
    putchar('\n');
}

/* Memory from an image, or into one; whoever calls says which. */
static void move_image(const char *name, const char *mode)
{
    FILE *file = fopen(name, mode);
    size_t moved;

    if (file == NULL) {
        perror(name);
        exit(2);
    }
    moved = mode[0] == 'r' ? fread(memory, 1, sizeof memory, file) : fwrite(memory, 1, sizeof memory, file);
    if (fclose(file) != 0 || moved != sizeof memory) {
        fprintf(stderr, "%s: has not the %u bytes of a card's memory\n", name, (unsigned)sizeof memory);
        exit(2);
    }
}

int main(int argc, char **argv)
{
    struct reader reader;
    struct record record;
    const char *to = NULL;

    for (; argc > 3; argc -= 2, argv += 2) {
        if (strcmp(argv[1], "--from") == 0)
            move_image(argv[2], "rb");
        else if (strcmp(argv[1], "--to") == 0)
            to = argv[2];
        else
            break;
    }
    if (argc != 2) {
        fprintf(stderr, "usage: replay [--from IMAGE] [--to IMAGE] BENCHFILE\n");
        return 2;
    }
    reader = open_bench(argv[1]);
    unselect();
    while (reader.left > 0) {
        if (!read_record(&reader, &record)) {
            puts("X");
            break;
        }
        uint64_t result = call(&record);
        print(record.kind, result);
        if (purse_answer(result) == PURSE_CUT)
            unselect();
    }
    if (to != NULL)
        move_image(to, "wb");
    return 0;
}
