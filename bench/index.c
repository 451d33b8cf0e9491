// How fast the index of a file in memory is made (crates/index_bench), beside a machine that reads single bytes and beside reading the memory. See
// bench/index.
#include <stdint.h>
#include <stdio.h>
#include <stdlib.h>
#include <time.h>

// crates/index_bench: the rows behind the header of a file, or a negative number for a refusal.
int64_t index_rows(const uint8_t *bytes, size_t len);

// The same for bytes that are known to be UTF-8.
int64_t utf8_rows(const uint8_t *bytes, size_t len);

// Where the machine stands in the grammar of RFC 4180, section 2: before a field, in one with no quotes, inside quotes, behind a quote that may close
// the field, or behind a CR.
enum state { BEFORE, PLAIN, QUOTED, CLOSED, RETURN };

// The same for a file that is a table, byte by byte: keeps in `places`, which has room for each byte, where the comma or LF behind each field stands,
// and checks that all records have as many fields. -1 for a refusal. It does not check UTF-8.
static __attribute__((noinline)) int64_t machine_rows(const uint8_t *bytes, size_t len, uint32_t *places) {
    enum state state = BEFORE;
    size_t count = 0, first = 0, records = 0, width = 0;
    for (size_t at = 0; at < len; at++) {
        uint8_t byte = bytes[at];
        if (state == QUOTED) {
            if (byte == '"')
                state = CLOSED;
        } else if (byte == '"') {
            if (state != BEFORE && state != CLOSED)
                return -1;
            state = QUOTED;
        } else if (state == RETURN && byte != '\n') {
            return -1;
        } else if (byte == ',') {
            places[count++] = (uint32_t)at;
            state = BEFORE;
        } else if (byte == '\n') {
            places[count++] = (uint32_t)at;
            if (records == 0)
                width = count;
            else if (count - first != width)
                return -1;
            records++;
            first = count;
            state = BEFORE;
        } else if (byte == '\r') {
            state = RETURN;
        } else if (state == CLOSED) {
            return -1;
        } else {
            state = PLAIN;
        }
    }
    if (state == QUOTED || state == RETURN)
        return -1;
    if (len > 0 && bytes[len - 1] != '\n') {
        if (records > 0 && count + 1 - first != width)
            return -1;
        records++;
    }
    return (int64_t)records - 1;
}

// Reads the memory once.
static __attribute__((noinline, optimize("O3"))) uint64_t sum_of(const uint64_t *words, size_t count) {
    uint64_t sum = 0;
    for (size_t at = 0; at < count; at++)
        sum += words[at];
    return sum;
}

// The seconds on a clock.
static double now(clockid_t clock) {
    struct timespec time;
    clock_gettime(clock, &time);
    return (double)time.tv_sec + (double)time.tv_nsec / 1e9;
}

// The least time of any run.
struct best {
    double wall, processor;
};

static void keep_least(struct best *best, double wall, double processor) {
    wall = now(CLOCK_MONOTONIC) - wall;
    processor = now(CLOCK_PROCESS_CPUTIME_ID) - processor;
    if (best->wall == 0 || wall < best->wall)
        best->wall = wall;
    if (best->processor == 0 || processor < best->processor)
        best->processor = processor;
}

#define TIME(best, run)                                                                                                                             \
    do {                                                                                                                                            \
        double wall = now(CLOCK_MONOTONIC), processor = now(CLOCK_PROCESS_CPUTIME_ID);                                                              \
        run;                                                                                                                                        \
        keep_least(best, wall, processor);                                                                                                          \
    } while (0)

static void print(const char *name, size_t len, struct best best, struct best memory, struct best machine) {
    printf("%-15s %8.5f %7.0f %15.2f %16.2f %13.5f %7.0f %15.2f %16.2f\n", name, best.wall, (double)len / best.wall / 1e6, memory.wall / best.wall,
           machine.wall / best.wall, best.processor, (double)len / best.processor / 1e6, memory.processor / best.processor,
           machine.processor / best.processor);
}

int main(int argc, char **argv) {
    if (argc != 3)
        return 2;
    FILE *file = fopen(argv[1], "rb");
    if (file == NULL || fseek(file, 0, SEEK_END) != 0)
        return 2;
    size_t len = (size_t)ftell(file);
    rewind(file);
    uint8_t *bytes = malloc(len + 8);
    uint32_t *places = malloc(len * sizeof(uint32_t));
    if (bytes == NULL || places == NULL || fread(bytes, 1, len, file) != len)
        return 2;
    struct best index = {0, 0}, checked = {0, 0}, machine = {0, 0}, memory = {0, 0};
    int64_t rows = index_rows(bytes, len), again = 0, others = 0;
    uint64_t sum = 0;
    if (rows < 0) {
        fprintf(stderr, "the file is refused: %lld\n", (long long)rows);
        return 1;
    }
    for (int round = atoi(argv[2]); round > 0; round--) {
        TIME(&index, rows = utf8_rows(bytes, len));
        TIME(&checked, again = index_rows(bytes, len));
        TIME(&machine, others = machine_rows(bytes, len, places));
        TIME(&memory, sum += sum_of((const uint64_t *)bytes, len / 8));
        if (rows < 0 || rows != again || rows != others) {
            fprintf(stderr, "the index has %lld or %lld rows and the machine %lld\n", (long long)rows, (long long)again, (long long)others);
            return 1;
        }
    }
    printf("%zu bytes, %lld rows, sum %llu\n", len, (long long)rows, (unsigned long long)sum);
    printf("%-15s %8s %7s %15s %16s %13s %7s %15s %16s\n", "reader", "wall, s", "MB/s", "MB/s / memory's", "MB/s / machine's", "processor, s", "MB/s",
           "MB/s / memory's", "MB/s / machine's");
    print("index", len, index, memory, machine);
    print("index and UTF-8", len, checked, memory, machine);
    print("machine", len, machine, memory, machine);
    print("memory", len, memory, memory, machine);
    return 0;
}
