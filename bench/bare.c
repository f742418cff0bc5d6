/* What the benchmarks compare the program with, and how they run the program.
 *
 * bare loop FILE MOMENT PUTS KEYS LENGTH EACH   the writes and syncs of so many puts, with nothing else; EACH is how many
 *                                               puts stand in one frame
 * bare read FOLDER COUNT                        opens, syncs and reads so many data files one after another
 * bare parse FOLDER COUNT RECORDS               reads so many data files whole, parses their frames and hashes each key; the
 *                                               records have to be so many
 * bare gets FOLDER COUNT PLACES SAYS            reads the records at these places of so many data files, one read each; with
 *                                               SAYS 1 each is written to /dev/null by one write. A place is three
 *                                               numbers of 4 bytes: the file's, the offset, the length
 * bare forget FOLDER COUNT                      asks the system to forget what it holds of so many data files
 * bare run SCRIPT PROGRAM WORD..                the program on a script, with its output thrown away
 *
 * Each prints the seconds that passed, the seconds of processor time and, of the program, the most memory in KiB. */
#define _GNU_SOURCE
#include <errno.h>
#include <fcntl.h>
#include <libgen.h>
#include <stdint.h>
#include <stdio.h>
#include <stdlib.h>
#include <string.h>
#include <sys/resource.h>
#include <sys/wait.h>
#include <time.h>
#include <unistd.h>

static void need(int is_well, const char *what) {
    if (!is_well) {
        fprintf(stderr, "bare: %s: %s\n", what, strerror(errno));
        exit(1);
    }
}

static double now(void) {
    struct timespec at;
    clock_gettime(CLOCK_MONOTONIC, &at);
    return at.tv_sec + at.tv_nsec / 1e9;
}

static double processor_seconds(const struct rusage *used) {
    return used->ru_utime.tv_sec + used->ru_stime.tv_sec +
           (used->ru_utime.tv_usec + used->ru_stime.tv_usec) / 1e6;
}

static void put_bytes(int file, const void *bytes, size_t count, off_t at) {
    need(pwrite(file, bytes, count, at) == (ssize_t)count, "write");
}

static void write_at(int file, const void *bytes, size_t count, off_t at) {
    put_bytes(file, bytes, count, at);
    need(fdatasync(file) == 0, "sync");
}

static uint8_t *put_number(uint8_t *to, uint64_t number, int bytes) {
    for (int at = 0; at < bytes; at++)
        to[at] = number >> 8 * (bytes - 1 - at);
    return to + bytes;
}

/* The record of one put. */
static size_t spell_record(uint8_t *record, uint64_t number, uint64_t keys, size_t length) {
    char key[32];
    int key_length = snprintf(key, sizeof key, "key%llu", (unsigned long long)((number - 1) % keys));
    uint8_t *to = record;
    *to++ = 1;
    to = put_number(to, number, 8);
    to = put_number(to, UINT64_MAX, 8);
    to = put_number(to, key_length, 2);
    to = put_number(to, length, 4);
    to = memcpy(to, key, key_length) + key_length;
    to = memset(to, 'v', length) + length;
    return to - record;
}

/* The end of a frame, and the closed gate behind it. */
static size_t spell_end(uint8_t *end, uint64_t moment) {
    uint8_t *to = end;
    *to++ = 0;
    to = put_number(to, moment, 8);
    *to++ = 0;
    return to - end;
}

static void make_file(const char *path, int *file) {
    char folder[4096];
    snprintf(folder, sizeof folder, "%s", path);
    *file = open(path, O_RDWR | O_CREAT | O_EXCL, 0666);
    need(*file >= 0, path);
    write_at(*file, "\0", 1, 0);
    int names = open(dirname(folder), O_RDONLY);
    need(names >= 0 && fsync(names) == 0 && close(names) == 0, "sync of the names");
}

static void report(double begun) {
    struct rusage used;
    getrusage(RUSAGE_SELF, &used);
    printf("%.6f %.6f\n", now() - begun, processor_seconds(&used));
}

static void loop(char **words) {
    uint64_t moment = strtoull(words[1], NULL, 10), puts = strtoull(words[2], NULL, 10);
    uint64_t keys = strtoull(words[3], NULL, 10), each = strtoull(words[5], NULL, 10);
    size_t length = strtoull(words[4], NULL, 10);
    uint8_t *bytes = malloc(length + 128);
    need(bytes != NULL, "memory");
    double begun = now();
    int file;
    make_file(words[0], &file);
    off_t gate = 0, at = 1;
    put_bytes(file, "\1", 1, at++);
    for (uint64_t number = 1; number <= puts; number++) {
        size_t count = spell_record(bytes, number, keys, length);
        put_bytes(file, bytes, count, at);
        at += count;
        if (number % each != 0 && number != puts)
            continue;
        count = spell_end(bytes, moment);
        write_at(file, bytes, count, at);
        write_at(file, "\1", 1, gate);
        at += count;
        gate = at - 1;
    }
    need(close(file) == 0, "close");
    report(begun);
}

static void file_path(char *path, const char *folder, uint64_t number) {
    snprintf(path, 4096, "%s/s0-%010llu.log", folder, (unsigned long long)number);
}

static void read_files(char **words) {
    uint64_t count = strtoull(words[1], NULL, 10);
    char path[4096], bytes[65536];
    double begun = now();
    for (uint64_t number = 1; number <= count; number++) {
        file_path(path, words[0], number);
        int file = open(path, O_RDWR);
        need(file >= 0 && fdatasync(file) == 0, path);
        while (read(file, bytes, sizeof bytes) > 0)
            ;
        need(close(file) == 0, "close");
    }
    report(begun);
}

static uint64_t number_at(const uint8_t *from, int bytes) {
    uint64_t number = 0;
    for (int at = 0; at < bytes; at++)
        number = number << 8 | from[at];
    return number;
}

static uint32_t hash_of(const uint8_t *key, size_t length) {
    uint32_t hash = 2166136261u;
    for (size_t at = 0; at < length; at++)
        hash = (hash ^ key[at]) * 16777619u;
    return hash;
}

/* A file whole, once it was synced. The bytes are the caller's to free. */
static uint8_t *whole_file(const char *path, size_t *size) {
    int file = open(path, O_RDWR);
    need(file >= 0 && fdatasync(file) == 0, path);
    off_t end = lseek(file, 0, SEEK_END);
    need(end >= 0, path);
    uint8_t *bytes = malloc(end + 1);
    need(bytes != NULL && pread(file, bytes, end, 0) == end && close(file) == 0, path);
    *size = end;
    return bytes;
}

/* The records of the frames that count in a data file, which is undamaged; the hashes of their keys are joined into one. */
static uint64_t parse_file(const uint8_t *bytes, size_t size, uint32_t *joined) {
    uint64_t records = 0;
    size_t at = 2;
    int is_open = size > 1 && bytes[0] == 1;
    while (is_open && at < size) {
        const uint8_t *item = bytes + at;
        if (item[0] == 0) {
            is_open = item[9] == 1;
            at += 10;
            continue;
        }
        size_t front = item[0] == 1 ? 23 : 11;
        size_t key = number_at(item + (item[0] == 1 ? 17 : 9), 2);
        size_t value = item[0] == 1 ? number_at(item + 19, 4) : 0;
        *joined ^= hash_of(item + front, key);
        at += front + key + value;
        records++;
    }
    return records;
}

/* What was computed is kept here, so that no compiler leaves it out. */
static volatile uint32_t kept;

static void parse_files(char **words) {
    uint64_t count = strtoull(words[1], NULL, 10), wanted = strtoull(words[2], NULL, 10), records = 0;
    uint32_t joined = 0;
    char path[4096];
    double begun = now();
    for (uint64_t number = 1; number <= count; number++) {
        size_t size;
        file_path(path, words[0], number);
        uint8_t *bytes = whole_file(path, &size);
        records += parse_file(bytes, size, &joined);
        free(bytes);
    }
    report(begun);
    kept = joined;
    if (records != wanted) {
        fprintf(stderr, "bare: there are %llu records\n", (unsigned long long)records);
        exit(1);
    }
}

static void get_records(char **words) {
    uint64_t count = strtoull(words[1], NULL, 10);
    int says = words[3][0] == '1';
    char path[4096];
    size_t size;
    uint8_t *places = whole_file(words[2], &size), bytes[70000];
    int *files = malloc((count + 1) * sizeof *files);
    need(files != NULL, "memory");
    for (uint64_t number = 1; number <= count; number++) {
        file_path(path, words[0], number);
        files[number] = open(path, O_RDONLY);
        need(files[number] >= 0, path);
    }
    int output = open("/dev/null", O_WRONLY);
    need(output >= 0, "/dev/null");
    double begun = now();
    for (const uint8_t *place = places; place < places + size; place += 12) {
        ssize_t length = number_at(place + 8, 4);
        need(pread(files[number_at(place, 4)], bytes, length, number_at(place + 4, 4)) == length, "read");
        need(!says || write(output, bytes, length) == length, "output");
    }
    report(begun);
}

static void forget_files(char **words) {
    uint64_t count = strtoull(words[1], NULL, 10);
    char path[4096];
    double begun = now();
    for (uint64_t number = 1; number <= count; number++) {
        file_path(path, words[0], number);
        int file = open(path, O_RDONLY);
        need(file >= 0 && fdatasync(file) == 0, path);
        need(posix_fadvise(file, 0, 0, POSIX_FADV_DONTNEED) == 0, "forgetting");
        need(close(file) == 0, "close");
    }
    report(begun);
}

static void run(char **words) {
    double begun = now();
    pid_t child = fork();
    need(child >= 0, "fork");
    if (child == 0) {
        int script = open(words[0], O_RDONLY), thrown = open("/dev/null", O_WRONLY);
        need(script >= 0 && thrown >= 0 && dup2(script, 0) == 0 && dup2(thrown, 1) == 1, words[0]);
        execv(words[1], words + 1);
        need(0, words[1]);
    }
    int status;
    struct rusage used;
    need(wait4(child, &status, 0, &used) == child, "wait");
    double passed = now() - begun;
    if (!WIFEXITED(status) || WEXITSTATUS(status) != 0) {
        fprintf(stderr, "bare: the program ended with %d\n", status);
        exit(1);
    }
    printf("%.6f %.6f %ld\n", passed, processor_seconds(&used), used.ru_maxrss);
}

int main(int count, char **words) {
    if (count == 8 && strcmp(words[1], "loop") == 0)
        loop(words + 2);
    else if (count == 4 && strcmp(words[1], "read") == 0)
        read_files(words + 2);
    else if (count == 5 && strcmp(words[1], "parse") == 0)
        parse_files(words + 2);
    else if (count == 6 && strcmp(words[1], "gets") == 0)
        get_records(words + 2);
    else if (count == 4 && strcmp(words[1], "forget") == 0)
        forget_files(words + 2);
    else if (count >= 4 && strcmp(words[1], "run") == 0)
        run(words + 2);
    else
        return 2;
    return 0;
}
