/* Decodes a file that is mapped into memory: usage: file CODE COUNT > SAMPLES. The samples have 8 bits, blocks 16 samples. */
#define _POSIX_C_SOURCE 200809L
#include <fcntl.h>
#include <inttypes.h>
#include <rice.h>
#include <stdio.h>
#include <stdlib.h>
#include <sys/mman.h>
#include <sys/stat.h>
#include <unistd.h>

/* Maps a file. NULL if it can't be. */
static const uint8_t *map(const char *name, size_t *size) {
    int file = open(name, O_RDONLY);
    if (file < 0) return NULL;
    struct stat about;
    void *bytes = MAP_FAILED;
    if (fstat(file, &about) == 0 && about.st_size > 0) {
        *size = (size_t)about.st_size;
        bytes = mmap(NULL, *size, PROT_READ, MAP_PRIVATE, file, 0);
    }
    close(file);
    return bytes == MAP_FAILED ? NULL : bytes;
}

int main(int argc, char **argv) {
    if (argc != 3) return 2;
    const struct rice_setting setting = {.bits = 8, .block = 16, .interval = 128, .preprocess = true};
    struct rice_report report;
    size_t size, count = strtoull(argv[2], NULL, 10), room = count * rice_sample_width(&setting);
    const uint8_t *code = map(argv[1], &size);
    uint8_t *samples = calloc(room + 1, 1);
    if (!code || !samples) return 1;
    uint32_t status = rice_decode(&setting, count, code, size, samples, room, &report);
    fwrite(samples, 1, report.written, stdout);
    if (status != RICE_DONE) {
        fprintf(stderr, "%s: %s, at %" PRIu64 "\n", argv[1], rice_status_text(status), report.place);
    }
    free(samples);
    munmap((void *)code, size);
    return status == RICE_DONE ? 0 : 1;
}
