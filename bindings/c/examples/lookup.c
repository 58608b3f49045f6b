/* Prints the original position of a generated position:
** lookup MAP LINE COLUMN, both counted from 0. */
#include <sourcemap.h>
#include <stdio.h>
#include <stdlib.h>
#include <string.h>

static uint8_t *read_file(const char *path, size_t *length)
{
    FILE *file = fopen(path, "rb");
    uint8_t *bytes = NULL;
    if (file && fseek(file, 0, SEEK_END) == 0) {
        long size = ftell(file);
        rewind(file);
        /* one byte more, so that an empty file has an address too */
        if (size >= 0 && (bytes = (uint8_t *)malloc((size_t)size + 1)) != NULL)
            *length = fread(bytes, 1, (size_t)size, file);
    }
    if (file)
        fclose(file);
    return bytes;
}

/* A number of decimal digits, at most 4294967295. */
static int read_number(const char *word, uint32_t *number)
{
    double value;
    size_t digits = strspn(word, "0123456789");
    if (digits == 0 || digits > 10 || word[digits] != '\0')
        return 0;
    value = strtod(word, NULL);
    if (value > 4294967295.0)
        return 0;
    *number = (uint32_t)value;
    return 1;
}

static int print_original(sm_map *map, uint32_t line, uint32_t column)
{
    sm_found found;
    sm_text source = SM_TEXT_EMPTY, name = SM_TEXT_EMPTY;
    memset(&found, 0, sizeof found);
    if (sm_lookup(map, line, column, &found) != SM_OK) {
        puts("none");
        return 1;
    }
    sm_lookup_source(map, line, column, &source);
    sm_lookup_name(map, line, column, &name);
    printf("%.*s:%lu:%lu", (int)source.length, (const char *)source.at, (unsigned long)found.token.original_line,
           (unsigned long)found.token.original_column);
    if (name.length > 0)
        printf(" name=%.*s", (int)name.length, (const char *)name.at);
    putchar('\n');
    return 0;
}

int main(int count, char **words)
{
    sm_map map = SM_EMPTY;
    sm_error error;
    size_t length = 0;
    int status = 1;
    uint8_t *bytes;
    uint32_t line, column;
    memset(&error, 0, sizeof error);
    if (count != 4 || !read_number(words[2], &line) || !read_number(words[3], &column)) {
        fputs("usage: lookup MAP LINE COLUMN\n", stderr);
        return 2;
    }
    if ((bytes = read_file(words[1], &length)) == NULL) {
        perror(words[1]);
        return 2;
    }
    if (sm_open(&map, bytes, length, &error) == SM_OK)
        status = print_original(&map, line, column);
    else
        fprintf(stderr, "%s: %s\n", words[1], (const char *)error.text);
    sm_close(&map);
    free(bytes);
    return status;
}
