/* The files that its arguments name, through the archive: each header is read, its first samples are taken, and its header is
 * written again. tests/wave_files.py works the same lines out from the rules. */
#include <stdio.h>
#include <string.h>
#include "octave_eq.h"

enum { ROOM = 8192, MOST = 8, HEADER = 44 };

static const char *last_part(const char *path)
{
    const char *slash = strrchr(path, '/');
    return slash ? slash + 1 : path;
}

/* A sample of two, three or four bytes, the last of these a float. */
static int64_t sample_from(const uint8_t *bytes, size_t size)
{
    float value;
    if (size != sizeof value)
        return oeq_sample_from_bytes(bytes, size);
    memcpy(&value, bytes, sizeof value);
    return oeq_sample_from_float(value);
}

/* The samples that are wholly there, at most MOST. */
static void show_samples(const uint8_t *data, size_t there, uint32_t bits)
{
    size_t size = bits / 8;
    printf("samples");
    for (size_t i = 0; i < MOST && (i + 1) * size <= there; i++) {
        int64_t answer = sample_from(data + i * size, size);
        if (oeq_is_refusal(answer))
            printf(" refused-%d", oeq_refusal_number(answer));
        else
            printf(" %lld", (long long)answer);
    }
    printf("\n");
}

static void show_header(uint32_t rate, uint32_t length, uint32_t channels)
{
    uint8_t header[HEADER];
    int64_t answer = oeq_wave_write(header, HEADER, rate, length, (int32_t)channels);
    if (oeq_is_refusal(answer)) {
        printf("header refused %d\n", oeq_refusal_number(answer));
        return;
    }
    printf("header ");
    for (int i = 0; i < HEADER; i++)
        printf("%02x", header[i]);
    printf("\n");
}

static void show_file(const char *name, const uint8_t *file, size_t got)
{
    uint32_t found[5];
    int64_t answer = oeq_wave_read(file, got, found);
    if (oeq_is_refusal(answer)) {
        printf("%s refused %d\n", name, oeq_refusal_number(answer));
        return;
    }
    printf("%s %u %u %u %u %u\n", name, found[0], found[1], found[2], found[3], found[4]);
    size_t there = got - found[3];
    show_samples(file + found[3], found[2] < there ? found[2] : there, found[1]);
    show_header(found[0], found[2], found[4]);
}

int main(int count, char **names)
{
    static uint8_t file[ROOM];
    for (int i = 1; i < count; i++) {
        FILE *f = fopen(names[i], "rb");
        if (f == NULL) {
            perror(names[i]);
            return 1;
        }
        size_t got = fread(file, 1, ROOM, f);
        fclose(f);
        show_file(last_part(names[i]), file, got);
    }
    return 0;
}
