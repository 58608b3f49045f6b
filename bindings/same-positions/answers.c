/* answers MAP POSITIONS: prints the original position for each line LINE:COLUMN of POSITIONS; what follows a tab does
** not count. */
#include <sourcemap.h>
#include <stdio.h>
#include <stdlib.h>
#include <string.h>

static uint8_t *read_file(const char *path, size_t *length)
{
    FILE *file = fopen(path, "rb");
    size_t size = 1 << 20;
    uint8_t *bytes = malloc(size);
    if (!file || !bytes) {
        perror(path);
        exit(2);
    }
    *length = fread(bytes, 1, size, file);
    fclose(file);
    return bytes;
}

static void print_answer(sm_map *map, uint32_t line, uint32_t column)
{
    sm_found found = { { 0 }, false };
    sm_text source = SM_TEXT_EMPTY, name = SM_TEXT_EMPTY;
    if (sm_lookup(map, line, column, &found) != SM_OK) {
        puts("none");
        return;
    }
    if (sm_lookup_source(map, line, column, &source) != SM_OK) {
        source.at = (const uint8_t *)"<unknown>";
        source.length = strlen("<unknown>");
    }
    printf("%.*s:%lu:%lu", (int)source.length, (const char *)source.at, (unsigned long)found.token.original_line,
           (unsigned long)found.token.original_column);
    if (sm_lookup_name(map, line, column, &name) == SM_OK)
        printf(" name=%.*s", (int)name.length, (const char *)name.at);
    putchar('\n');
}

int main(int count, char **words)
{
    sm_map map = SM_EMPTY;
    sm_error error = { 0 };
    unsigned long line, column;
    char row[4096];
    FILE *positions;
    uint8_t *bytes;
    size_t length = 0;
    if (count != 3 || !(positions = fopen(words[2], "r")))
        return 2;
    bytes = read_file(words[1], &length);
    if (sm_open(&map, bytes, length, &error) != SM_OK) {
        fprintf(stderr, "%s: %s\n", words[1], (const char *)error.text);
        return 1;
    }
    while (fgets(row, sizeof row, positions))
        if (sscanf(row, "%lu:%lu", &line, &column) == 2)
            print_answer(&map, (uint32_t)line, (uint32_t)column);
    fclose(positions);
    sm_close(&map);
    free(bytes);
    return 0;
}
