/* Prints what windnadel_check says of each file: good, or refused N at P. */
#include <inttypes.h>
#include <stdint.h>
#include <stdio.h>
#include <stdlib.h>

uint64_t windnadel_check(const uint8_t *source, size_t len);

enum { MOST = 65536 };

static void answered(const char *path)
{
    static uint8_t source[MOST];
    FILE *file = fopen(path, "rb");
    if (!file) {
        perror(path);
        exit(1);
    }
    size_t len = fread(source, 1, MOST, file);
    fclose(file);
    uint64_t answer = windnadel_check(source, len);
    if (answer == 0)
        printf("%s: good\n", path);
    else
        printf("%s: refused %" PRIu64 " at %" PRIu64 "\n", path, answer >> 32, answer & 0xFFFFFFFFu);
}

int main(int count, char **paths)
{
    for (int i = 1; i < count; i++)
        answered(paths[i]);
    return 0;
}
