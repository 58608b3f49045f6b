/* native MAP RANDOM SEED OUT: compiles a map, and writes what the C library answers of the compiled map.
**
**   OUT.smc        the compiled map
**   OUT.positions  two numbers each: the position of each token, and RANDOM others of lines and columns that tokens have
**   OUT.tokens     eight numbers each: the closest token to each position, of sm_compiled_lookup_many()
**   OUT.texts      each a length, 4294967295 for none, and bytes: sources, names, contents of each source, file
**
** An index map is flattened. All numbers have four bytes. */
#include <sourcemap.h>
#include <stdio.h>
#include <stdlib.h>
#include <string.h>

static void fail(const char *what)
{
    fprintf(stderr, "native: %s\n", what);
    exit(1);
}

static void *room(size_t count, size_t size)
{
    void *made = calloc(count + 1, size);
    if (made == NULL)
        fail("out of memory");
    return made;
}

static uint8_t *read_file(const char *path, size_t *length)
{
    FILE *file = fopen(path, "rb");
    uint8_t *bytes;
    if (file == NULL || fseek(file, 0, SEEK_END) != 0)
        fail(path);
    *length = (size_t)ftell(file);
    rewind(file);
    bytes = room(*length, 1);
    if (fread(bytes, 1, *length, file) != *length)
        fail(path);
    fclose(file);
    return bytes;
}

static FILE *create(const char *out, const char *end)
{
    char path[4096];
    FILE *file;
    snprintf(path, sizeof path, "%s.%s", out, end);
    file = fopen(path, "wb");
    if (file == NULL)
        fail(path);
    return file;
}

static void put(FILE *file, const void *bytes, size_t length)
{
    if (fwrite(bytes, 1, length, file) != length)
        fail("a file cannot be written");
}

static void put_word(FILE *file, uint32_t word)
{
    put(file, &word, sizeof word);
}

static uint64_t state;

static uint64_t drawn(void)
{
    uint64_t z = (state += 0x9e3779b97f4a7c15u);
    z = (z ^ (z >> 30)) * 0xbf58476d1ce4e5b9u;
    z = (z ^ (z >> 27)) * 0x94d049bb133111ebu;
    return z ^ (z >> 31);
}

/* The positions of all tokens, then random ones: a line of some token, and up to 64 columns around another token. */
static sm_position *positions_of(sm_map *map, uint32_t tokens, size_t random, size_t *count)
{
    sm_token *all = room(tokens, sizeof *all);
    sm_position *positions = room(tokens + random, sizeof *positions);
    size_t i;
    if (sm_tokens(map, 0, all, tokens) != tokens)
        fail("not all tokens were read");
    for (i = 0; i < tokens; i++) {
        positions[i].line = all[i].line;
        positions[i].column = all[i].column;
    }
    for (; i < tokens + random; i++) {
        positions[i].line = tokens ? all[drawn() % tokens].line : (uint32_t)(drawn() % 9);
        positions[i].column = (tokens ? all[drawn() % tokens].column : 0) + (uint32_t)(drawn() % 64);
    }
    *count = i;
    free(all);
    return positions;
}

static void write_token(FILE *file, const sm_token *token, bool found)
{
    uint32_t words[8] = { token->line, token->column, token->original_line, token->original_column,
                          token->source, token->name, token->is_range, found };
    put(file, words, sizeof words);
}

static void write_tokens(FILE *file, sm_text compiled, const sm_position *positions, size_t count)
{
    sm_found *found = room(count, sizeof *found);
    size_t i;
    if (sm_compiled_lookup_many(compiled.at, compiled.length, positions, count, found, count) != count)
        fail("not all positions were answered");
    for (i = 0; i < count; i++)
        write_token(file, &found[i].token, found[i].found);
    free(found);
}

/* The tokens by index, of the map that was not compiled. */
static void write_all(FILE *file, sm_map *map, uint32_t tokens)
{
    sm_token *all = room(tokens, sizeof *all);
    uint32_t i;
    if (sm_tokens(map, 0, all, tokens) != tokens)
        fail("not all tokens were read");
    for (i = 0; i < tokens; i++)
        write_token(file, &all[i], true);
    free(all);
}

static void write_text(FILE *file, sm_code code, sm_text text)
{
    if (code != SM_OK && code != SM_ABSENT)
        fail("a text cannot be read");
    put_word(file, code == SM_OK ? (uint32_t)text.length : SM_NONE);
    if (code == SM_OK)
        put(file, text.at, text.length);
}

static void write_texts(FILE *file, sm_text map, const sm_counts *counts)
{
    sm_text text = SM_TEXT_EMPTY;
    uint32_t id;
    sm_code code;
    for (id = 0; id < counts->sources; id++) {
        code = sm_compiled_source(map.at, map.length, id, &text);
        write_text(file, code, text);
    }
    for (id = 0; id < counts->names; id++) {
        code = sm_compiled_name(map.at, map.length, id, &text);
        write_text(file, code, text);
    }
    for (id = 0; id < counts->sources; id++) {
        code = sm_compiled_contents(map.at, map.length, id, &text);
        write_text(file, code, text);
    }
    code = sm_compiled_file(map.at, map.length, &text);
    write_text(file, code, text);
}

int main(int count, char **words)
{
    sm_map map = SM_EMPTY;
    sm_bytes bytes = SM_EMPTY;
    sm_error error = { 0 };
    sm_text compiled = SM_TEXT_EMPTY;
    sm_counts counts = { 0 };
    sm_position *positions;
    uint8_t *json;
    size_t length = 0, asked = 0;
    FILE *file;
    if (count != 5)
        fail("usage: native MAP RANDOM SEED OUT");
    state = strtoull(words[3], NULL, 10);
    json = read_file(words[1], &length);
    if (sm_open(&map, json, length, &error) != SM_OK)
        fail((const char *)error.text);
    if (sm_kind(&map) == SM_KIND_INDEX && sm_flatten(&map, &error) != SM_OK)
        fail((const char *)error.text);
    if (sm_compile(&map, true, &bytes, &error) != SM_OK || sm_bytes_text(&bytes, &compiled) != SM_OK)
        fail((const char *)error.text);
    if (sm_compiled_count(compiled.at, compiled.length, &counts) != SM_OK)
        fail("the compiled map is refused");
    positions = positions_of(&map, counts.tokens, strtoul(words[2], NULL, 10), &asked);
    file = create(words[4], "smc");
    put(file, compiled.at, compiled.length);
    fclose(file);
    file = create(words[4], "positions");
    put(file, positions, asked * sizeof *positions);
    fclose(file);
    file = create(words[4], "tokens");
    write_tokens(file, compiled, positions, asked);
    fclose(file);
    file = create(words[4], "all");
    write_all(file, &map, counts.tokens);
    fclose(file);
    file = create(words[4], "texts");
    write_texts(file, compiled, &counts);
    fclose(file);
    printf("%lu\n", (unsigned long)asked);
    sm_close(&bytes);
    sm_close(&map);
    free(positions);
    free(json);
    return 0;
}
