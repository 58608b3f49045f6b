/* Damages compiled maps, and compares what the C library says of them with a second reading of the bytes, which is made
** from docs/COMPILED.md alone.
**
**   compiled CASES SEED [--only CASE] [MAP..]
**
** Maps are made by the library: some here, and those of the files MAP. Each case damages one of them by one to three
** changes. Memory that may not be read begins right after its last byte, or ends right before its first one. The case
** fails if a call crashes, does not return, or contradicts the second reading. A case depends on the seed and its number
** alone. Prints how many cases ended how, then `N passed, M failed`, and the status is 1 if M is not 0. */
#define _DEFAULT_SOURCE
#include <sourcemap.h>

#include <signal.h>
#include <stdio.h>
#include <stdlib.h>
#include <string.h>
#include <sys/mman.h>
#include <unistd.h>

#define MOST_FILES 64
#define MOST_FAILURES 20
#define LOOKUPS 8
#define TEXTS 12
#define SECONDS 20

struct bytes {
    const uint8_t *at;
    size_t length;
};

static unsigned long current_case;

/*
** Random numbers: splitmix64, begun by seed and case
*/

static uint64_t state;

static uint64_t drawn(void)
{
    uint64_t z = (state += 0x9e3779b97f4a7c15u);
    z = (z ^ (z >> 30)) * 0xbf58476d1ce4e5b9u;
    z = (z ^ (z >> 27)) * 0x94d049bb133111ebu;
    return z ^ (z >> 31);
}

static uint64_t below(uint64_t bound)
{
    return bound > 0 ? drawn() % bound : 0;
}

static void begin_random(uint64_t seed, uint64_t number)
{
    state = seed * 0x2545f4914f6cdd1du + number;
    drawn();
}

/*
** The second reading. It finds tokens one by one, and knows no search
*/

#define BLOCK 64

static uint64_t number_at(struct bytes file, uint64_t offset, int size)
{
    uint64_t number = 0;
    int i;
    for (i = size - 1; i >= 0; i--)
        number = number << 8 | (offset + i < file.length ? file.at[offset + i] : 0);
    return number;
}

static uint64_t word(struct bytes file, uint64_t offset)
{
    return number_at(file, offset, 4);
}

struct header {
    uint64_t tokens, blocks, sources, names, contents, scopes, tables;
};

static struct header header_of(struct bytes file)
{
    struct header header;
    header.tokens = word(file, 12);
    header.sources = word(file, 16);
    header.names = word(file, 20);
    header.contents = word(file, 24);
    header.scopes = word(file, 52);
    header.tables = word(file, 48);
    header.blocks = (header.tokens + BLOCK - 1) / BLOCK;
    return header;
}

static uint64_t file_text(const struct header *header)
{
    return header->sources + header->names + header->scopes;
}

static uint64_t text_count(const struct header *header)
{
    return file_text(header) + 1 + header->contents;
}

static uint64_t text_entry(const struct header *header, uint64_t text)
{
    return header->tables + 8 * header->blocks + 32 * header->blocks + 4 * text;
}

static sm_code refusal(struct bytes file)
{
    struct header header = header_of(file);
    if (file.length < 64)
        return SM_COMPILED_TRUNCATED;
    if (file.at[0] != 0x8f || memcmp(file.at + 1, "SMC", 3) != 0)
        return SM_COMPILED_MAGIC;
    if (word(file, 4) != 1)
        return SM_COMPILED_VERSION;
    if (file.length < word(file, 8))
        return SM_COMPILED_TRUNCATED;
    if (file.length > word(file, 8) || text_entry(&header, text_count(&header) + 1) > file.length)
        return SM_COMPILED_EXTENT;
    return SM_OK;
}

struct token {
    uint32_t line, column, source, original_line, original_column, name;
    bool is_range;
    uint64_t scope;
};

/* The number of `width` bits from a bit of the bytes at `start` on. */
static uint64_t packed(struct bytes file, uint64_t start, uint64_t bit, uint64_t width)
{
    uint64_t word_there = number_at(file, start + bit / 8, 8) >> bit % 8;
    return word_there & (((uint64_t)1 << width) - 1);
}

static struct token token_at(struct bytes file, const struct header *header, uint64_t index)
{
    uint64_t block = index / BLOCK, place = index % BLOCK;
    uint64_t first = number_at(file, header->tables + 8 * block, 8);
    uint64_t head = header->tables + 8 * header->blocks + 32 * block;
    uint64_t field_start = word(file, head), values[8];
    struct token token;
    int field;
    for (field = 0; field < 8; field++) {
        uint64_t width = number_at(file, head + 24 + field, 1) % 64;
        uint64_t base = field == 0 ? first >> 32 : field < 6 ? word(file, head + 4 * field) : 0;
        values[field] = base + packed(file, field_start, place * width, width);
        field_start += 8 * width;
    }
    token.line = (uint32_t)(place == 0 ? first >> 32 : values[0]);
    token.column = (uint32_t)(place == 0 ? first : values[1]);
    token.source = (uint32_t)values[2];
    token.original_line = (uint32_t)values[3];
    token.original_column = (uint32_t)values[4];
    token.name = (uint32_t)values[5];
    token.is_range = values[6] != 0;
    token.scope = values[7];
    return token;
}

static uint64_t position_of(const struct token *token)
{
    return (uint64_t)token->line << 32 | token->column;
}

/* One byte sequence of UTF-8: its length, or 0 if there is none. */
static size_t sequence(const uint8_t *at, size_t left)
{
    static const uint32_t LEAST[] = { 0, 0, 0x80, 0x800, 0x10000 };
    size_t length = at[0] < 0x80 ? 1 : at[0] >> 5 == 6 ? 2 : at[0] >> 4 == 14 ? 3 : at[0] >> 3 == 30 ? 4 : 0, i;
    uint32_t character;
    if (length <= 1)
        return length;
    if (length > left)
        return 0;
    character = at[0] & (0xffu >> (length + 1));
    for (i = 1; i < length; i++) {
        if (at[i] >> 6 != 2)
            return 0;
        character = character << 6 | (at[i] & 63);
    }
    if (character < LEAST[length] || character > 0x10ffff || character >> 11 == 27)
        return 0;
    return length;
}

static bool is_utf8(const uint8_t *at, size_t length)
{
    while (length > 0) {
        size_t read = sequence(at, length);
        if (read == 0)
            return false;
        at += read;
        length -= read;
    }
    return true;
}

/* The code of a call that reads a text by its number, and the text. */
static sm_code text_of(struct bytes file, const struct header *header, uint64_t text, sm_text *found)
{
    uint64_t start = word(file, text_entry(header, text)), end = word(file, text_entry(header, text + 1));
    if (end < start || end > file.length)
        return SM_COMPILED_TEXT;
    if (start == end)
        return SM_ABSENT;
    if (!is_utf8(file.at + start, end - 1 - start))
        return SM_UTF8;
    found->at = file.at + start;
    found->length = end - 1 - start;
    return SM_OK;
}

static sm_code scope_of(struct bytes file, const struct header *header, const struct token *token, sm_text *found)
{
    if (token->scope == 0 || token->scope > header->scopes)
        return SM_ABSENT;
    return text_of(file, header, header->sources + header->names + token->scope - 1, found);
}

/*
** What a case asks of the library, beside the second reading
*/

static const uint8_t UNTOUCHED[] = "untouched";

static bool is_same_text(sm_text a, sm_text b)
{
    return a.at == b.at && a.length == b.length;
}

struct reading {
    struct bytes file;
    struct header header;
    struct token *tokens;
    bool in_order;
    const char *fault;
};

static void expect(struct reading *reading, bool holds, const char *fault)
{
    if (!holds && reading->fault == NULL)
        reading->fault = fault;
}

static void read_tokens(struct reading *reading)
{
    uint64_t i;
    reading->in_order = true;
    reading->tokens = malloc((reading->header.tokens + 1) * sizeof *reading->tokens);
    if (reading->tokens == NULL)
        abort();
    for (i = 0; i < reading->header.tokens; i++) {
        reading->tokens[i] = token_at(reading->file, &reading->header, i);
        if (i > 0 && position_of(&reading->tokens[i]) < position_of(&reading->tokens[i - 1]))
            reading->in_order = false;
    }
}

static sm_code verdict(const struct reading *reading)
{
    uint64_t text;
    if (!reading->in_order)
        return SM_COMPILED_ORDER;
    for (text = 0; text < text_count(&reading->header); text++) {
        sm_text found;
        sm_code code = text_of(reading->file, &reading->header, text, &found);
        if (code != SM_OK && code != SM_ABSENT)
            return code;
    }
    return SM_OK;
}

/* Whether a token is one that a lookup may find: at the position, and the token ahead of it is not; or before the
** position, and the next token is after it. In a sorted file there is one such token at most. */
static bool is_next_to(const struct reading *reading, uint64_t index, uint64_t position)
{
    const struct token *token = &reading->tokens[index];
    uint64_t here = position_of(token);
    if (here == position)
        return index == 0 || position_of(token - 1) < position;
    return here < position && (index + 1 == reading->header.tokens || position_of(token + 1) > position);
}

static bool is_written(const struct token *token, sm_position position, const sm_found *found)
{
    uint64_t added = token->is_range && token->line == position.line ? position.column - (uint64_t)token->column : 0;
    uint64_t column = token->original_column + added;
    return found->found && found->token.line == token->line && found->token.column == token->column
           && found->token.original_line == token->original_line
           && found->token.original_column == (column < SM_NONE ? column : SM_NONE)
           && found->token.source == token->source && found->token.name == token->name
           && found->token.is_range == token->is_range;
}

/* Whether a lookup may write this, and call the scope so. */
static bool is_answer(const struct reading *reading, sm_position position, const sm_found *found, sm_code scope_code,
                      sm_text scope)
{
    uint64_t at = (uint64_t)position.line << 32 | position.column, i;
    for (i = 0; i < reading->header.tokens; i++) {
        if (is_next_to(reading, i, at) && is_written(&reading->tokens[i], position, found)) {
            sm_text wanted = { UNTOUCHED, 9 };
            sm_code code = scope_of(reading->file, &reading->header, &reading->tokens[i], &wanted);
            if (code == scope_code && is_same_text(wanted, scope))
                return true;
        }
    }
    return false;
}

/* Whether a lookup may find no token: a sorted file has none at or before the position; of any file the first token is
** after it. */
static bool may_be_absent(const struct reading *reading, sm_position position)
{
    uint64_t at = (uint64_t)position.line << 32 | position.column;
    return reading->header.tokens == 0 || position_of(&reading->tokens[0]) > at;
}

static sm_position draw_position(const struct reading *reading)
{
    sm_position position = { (uint32_t)below(5), (uint32_t)below(200) };
    if (reading->header.tokens > 0 && below(8) > 0) {
        const struct token *token = &reading->tokens[below(reading->header.tokens)];
        position.line = token->line;
        position.column = token->column + (uint32_t)below(3) - 1;
    } else if (below(4) == 0) {
        position.line = below(2) ? SM_NONE : (uint32_t)drawn();
        position.column = below(2) ? SM_NONE : (uint32_t)drawn();
    }
    return position;
}

static bool is_same_found(const sm_found *a, const sm_found *b)
{
    const sm_token *x = &a->token, *y = &b->token;
    return a->found == b->found && x->line == y->line && x->column == y->column && x->original_line == y->original_line
           && x->original_column == y->original_column && x->source == y->source && x->name == y->name
           && x->is_range == y->is_range;
}

static void check_lookup(struct reading *reading, sm_position position, const sm_found *from_many)
{
    static const sm_found BEFORE = { { 1, 2, 3, 4, 5, 6, true }, false };
    static const sm_found NONE_FOUND = { { 0, 0, 0, 0, 0, 0, false }, false };
    struct bytes file = reading->file;
    sm_found found = BEFORE;
    sm_text scope = { UNTOUCHED, 9 };
    sm_code code = sm_compiled_lookup(file.at, file.length, position.line, position.column, &found);
    sm_code scope_code = sm_compiled_scope(file.at, file.length, position.line, position.column, &scope);
    if (code == SM_OK) {
        expect(reading, is_answer(reading, position, &found, scope_code, scope), "a lookup");
        expect(reading, is_same_found(&found, from_many), "one lookup of many");
        return;
    }
    expect(reading, code == SM_ABSENT && is_same_found(&found, &BEFORE), "a lookup without a token");
    expect(reading, may_be_absent(reading, position), "a missing token");
    expect(reading, is_same_found(from_many, &NONE_FOUND), "none of many");
    expect(reading, scope_code == SM_ABSENT && scope.at == UNTOUCHED, "the scope of no token");
}

static void check_lookups(struct reading *reading)
{
    sm_position positions[LOOKUPS];
    sm_found found[LOOKUPS + 1];
    size_t i;
    memset(found, 0, sizeof found);
    found[LOOKUPS].token.line = 77;
    for (i = 0; i < LOOKUPS; i++)
        positions[i] = draw_position(reading);
    expect(reading, sm_compiled_lookup_many(reading->file.at, reading->file.length, positions, LOOKUPS, found, LOOKUPS + 1)
           == LOOKUPS, "the number of answers");
    expect(reading, found[LOOKUPS].token.line == 77, "an answer too many");
    for (i = 0; i < LOOKUPS; i++)
        check_lookup(reading, positions[i], &found[i]);
}

static uint32_t draw_id(uint64_t count)
{
    switch (below(4)) {
    case 0: return (uint32_t)(count + below(3) - 1);
    case 1: return below(2) ? SM_NONE : (uint32_t)drawn();
    default: return (uint32_t)below(count + 1);
    }
}

static void check_text(struct reading *reading, sm_code got, sm_text text, uint64_t count, uint64_t first, uint32_t id)
{
    sm_text wanted = { UNTOUCHED, 9 };
    sm_code code = id < count ? text_of(reading->file, &reading->header, first + id, &wanted) : SM_ABSENT;
    expect(reading, got == code, "the code of a text");
    expect(reading, is_same_text(text, wanted), "a text");
}

static void check_texts(struct reading *reading)
{
    const struct header *header = &reading->header;
    struct bytes file = reading->file;
    int i;
    for (i = 0; i < TEXTS; i++) {
        sm_text text = { UNTOUCHED, 9 };
        uint32_t id;
        sm_code code;
        switch (i % 4) {
        case 0:
            id = draw_id(header->sources);
            code = sm_compiled_source(file.at, file.length, id, &text);
            check_text(reading, code, text, header->sources, 0, id);
            break;
        case 1:
            id = draw_id(header->names);
            code = sm_compiled_name(file.at, file.length, id, &text);
            check_text(reading, code, text, header->names, header->sources, id);
            break;
        case 2:
            id = draw_id(header->contents);
            code = sm_compiled_contents(file.at, file.length, id, &text);
            check_text(reading, code, text, header->contents, file_text(header) + 1, id);
            break;
        default:
            code = sm_compiled_file(file.at, file.length, &text);
            check_text(reading, code, text, 1, file_text(header), 0);
        }
    }
}

static void check_header(struct reading *reading)
{
    struct bytes file = reading->file;
    sm_counts counts = { 9, 9, 9, 9, 9 };
    sm_debug_id id, before;
    sm_code code;
    memset(&before, 99, sizeof before);
    id = before;
    expect(reading, sm_compiled_count(file.at, file.length, &counts) == SM_OK, "the code of counts");
    expect(reading, counts.tokens == reading->header.tokens && counts.sources == reading->header.sources
           && counts.names == reading->header.names && counts.ignored == 0 && counts.sections == 0, "counts");
    code = sm_compiled_debug_id(file.at, file.length, &id);
    expect(reading, code == (word(file, 28) == 0 ? SM_ABSENT : SM_OK), "the code of the debug id");
    expect(reading, memcmp(&id, code == SM_OK ? file.at + 32 : (const uint8_t *)&before, sizeof id) == 0, "the debug id");
}

/* Bytes that are refused: every call says so, and writes nothing. */
static void check_refused(struct reading *reading, sm_code wanted)
{
    static const sm_position POSITIONS[1] = { { 0, 0 } };
    struct bytes file = reading->file;
    sm_found found = { { 1, 2, 3, 4, 5, 6, true }, false }, same = found;
    sm_counts counts = { 9, 9, 9, 9, 9 };
    sm_debug_id id = { { 7 } };
    sm_text text = { UNTOUCHED, 9 };
    expect(reading, sm_compiled_verify(file.at, file.length) == wanted, "verify");
    expect(reading, sm_compiled_lookup(file.at, file.length, 0, 0, &found) == wanted, "a refused lookup");
    expect(reading, sm_compiled_lookup_many(file.at, file.length, POSITIONS, 1, &found, 1) == 0, "refused lookups");
    expect(reading, sm_compiled_count(file.at, file.length, &counts) == wanted, "refused counts");
    expect(reading, sm_compiled_debug_id(file.at, file.length, &id) == wanted, "a refused debug id");
    expect(reading, sm_compiled_scope(file.at, file.length, 0, 0, &text) == wanted, "a refused scope");
    expect(reading, sm_compiled_source(file.at, file.length, 0, &text) == wanted, "a refused source");
    expect(reading, sm_compiled_name(file.at, file.length, 0, &text) == wanted, "a refused name");
    expect(reading, sm_compiled_contents(file.at, file.length, 0, &text) == wanted, "refused contents");
    expect(reading, sm_compiled_file(file.at, file.length, &text) == wanted, "a refused file");
    expect(reading, is_same_found(&found, &same) && counts.tokens == 9 && id.bytes[0] == 7
           && text.at == UNTOUCHED, "something is written");
}

static unsigned long refused_count, sorted_count, unsorted_count;

/* Returns what differs, or a null pointer. */
static const char *check_case(struct bytes file)
{
    struct reading reading = { { NULL, 0 }, { 0, 0, 0, 0, 0, 0, 0 }, NULL, false, NULL };
    sm_code wanted = refusal(file);
    reading.file = file;
    expect(&reading, sm_compiled_check(file.at, file.length) == wanted, "check");
    if (wanted != SM_OK) {
        refused_count++;
        check_refused(&reading, wanted);
        return reading.fault;
    }
    reading.header = header_of(file);
    read_tokens(&reading);
    if (reading.in_order)
        sorted_count++;
    else
        unsorted_count++;
    expect(&reading, sm_compiled_verify(file.at, file.length) == verdict(&reading), "verify");
    check_header(&reading);
    check_lookups(&reading);
    check_texts(&reading);
    free(reading.tokens);
    return reading.fault;
}

/*
** Maps that are damaged
*/

static struct bytes files[MOST_FILES];
static size_t file_count;

static void fail(const char *what)
{
    fprintf(stderr, "compiled: %s\n", what);
    exit(2);
}

/* Compiles a map, and keeps the file. */
static void add_file(sm_map *map)
{
    sm_bytes bytes = SM_EMPTY;
    sm_error error = { 0 };
    sm_text text = SM_TEXT_EMPTY;
    uint8_t *copy;
    if (file_count == MOST_FILES || sm_compile(map, true, &bytes, &error) != SM_OK
        || sm_bytes_text(&bytes, &text) != SM_OK)
        fail("a map is not compiled");
    copy = malloc(text.length);
    if (copy == NULL)
        fail("out of memory");
    memcpy(copy, text.at, text.length);
    files[file_count].at = copy;
    files[file_count++].length = text.length;
    sm_close(&bytes);
}

static void add_json(const uint8_t *json, size_t length)
{
    sm_map map = SM_EMPTY;
    sm_error error = { 0 };
    if (sm_open(&map, json, length, &error) != SM_OK)
        fail((const char *)error.text);
    add_file(&map);
    sm_close(&map);
}

static void add_path(const char *path)
{
    static uint8_t json[1 << 20];
    FILE *stream = fopen(path, "rb");
    size_t length = stream ? fread(json, 1, sizeof json, stream) : 0;
    if (stream == NULL || length == sizeof json)
        fail("a map cannot be read, or is larger than 1 MB");
    fclose(stream);
    add_json(json, length);
}

static uint32_t draw_number(void)
{
    switch (below(6)) {
    case 0: return SM_NONE - (uint32_t)below(2);
    case 1: return (uint32_t)drawn();
    default: return (uint32_t)below(300);
    }
}

/* A map of tokens at rising columns, some of them at one position, with odd numbers. */
static void add_built(uint32_t tokens, uint32_t texts)
{
    sm_builder builder = SM_EMPTY;
    sm_map map = SM_EMPTY;
    sm_error error = { 0 };
    sm_token token = { 0 };
    uint32_t i, id = 0;
    bool ok = sm_builder_new(&builder, texts > 1, (const uint8_t *)"out.js", 6, &error) == SM_OK;
    for (i = 0; i < texts; i++) {
        char text[32];
        int length = sprintf(text, "dir/\xc3\xa9 %u.js", (unsigned)i);
        ok = ok && sm_builder_add_source(&builder, (const uint8_t *)text, length, &id, &error) == SM_OK;
        ok = ok && sm_builder_add_name(&builder, (const uint8_t *)text + 4, length - 4, &id, &error) == SM_OK;
        ok = ok && sm_builder_set_contents(&builder, i, i % 2 == 0, (const uint8_t *)text, length, &error) == SM_OK;
    }
    for (i = 0; i < tokens; i++) {
        token.line += below(20) == 0;
        token.column += (uint32_t)below(6);
        token.original_line = draw_number();
        token.original_column = draw_number();
        token.source = below(8) ? (uint32_t)below(texts + 1) : SM_NONE;
        token.name = below(3) ? SM_NONE : (uint32_t)below(texts + 1);
        token.is_range = below(10) == 0;
        ok = ok && sm_builder_add_tokens(&builder, &token, 1, &error) == 1;
    }
    if (!ok || sm_builder_finish(&builder, &map, &error) != SM_OK)
        fail("a map is not built");
    add_file(&map);
    sm_close(&map);
}

static void add_made(void)
{
    static const char HERMES[] = "{\"debugId\":\"01234567-89ab-cdef-0123-456789abcdef\",\"sources\":[\"a.js\"],"
        "\"mappings\":\"AAAA,KACK,IAAI,IACJ\",\"x_facebook_sources\":[[{\"names\":[\"<global>\",\"foo\",\"bar\"],"
        "\"mappings\":\"AAA,KCC,MCC\"}]]}";
    static const uint32_t COUNTS[] = { 0, 1, 2, 63, 64, 65, 129, 400, 4096 };
    size_t i;
    for (i = 0; i < sizeof COUNTS / sizeof COUNTS[0]; i++)
        add_built(COUNTS[i], (uint32_t)(i % 4) * 2);
    add_json((const uint8_t *)HERMES, sizeof HERMES - 1);
}

/*
** Damage
*/

struct damaged {
    uint8_t *at;
    size_t length, capacity;
};

static uint32_t draw_edge(const struct damaged *file)
{
    static const uint32_t EDGES[] = { 0, 1, 2, 63, 64, 65, 127, 128, 0x7fffffff, 0x80000000, 0xffffffc0, 0xfffffffe,
        0xffffffff };
    switch (below(3)) {
    case 0: return (uint32_t)(file->length + below(5) - 2);
    case 1: return (uint32_t)below(file->length + 2);
    default: return EDGES[below(sizeof EDGES / sizeof EDGES[0])];
    }
}

static void put(struct damaged *file, uint64_t offset, uint64_t number, int size)
{
    int i;
    for (i = 0; i < size; i++, number >>= 8)
        if (offset + i < file->length)
            file->at[offset + i] = (uint8_t)number;
}

static struct bytes as_bytes(const struct damaged *file)
{
    struct bytes bytes;
    bytes.at = file->at;
    bytes.length = file->length;
    return bytes;
}

static void flip_bits(struct damaged *file, uint64_t from, uint64_t size)
{
    uint64_t count = 1 + below(8);
    for (; count > 0; count--) {
        uint64_t at = from + below(size);
        if (at < file->length)
            file->at[at] ^= 1u << below(8);
    }
}

static void damage_block(struct damaged *file, const struct header *header)
{
    uint64_t block = below(header->blocks), other = below(header->blocks);
    uint64_t start = header->tables + 8 * block, head = header->tables + 8 * header->blocks + 32 * block;
    switch (below(5)) {
    case 0: { /* two blocks change places */
        uint64_t second = header->tables + 8 * other, number = number_at(as_bytes(file), start, 8);
        put(file, start, number_at(as_bytes(file), second, 8), 8);
        put(file, second, number, 8);
        break;
    }
    case 1:
        put(file, start, below(2) ? drawn() : (uint64_t)draw_edge(file) << 32 | draw_edge(file), 8);
        break;
    case 2:
        put(file, head, draw_edge(file), 4);
        break;
    case 3:
        put(file, head + 4 * (1 + below(5)), draw_edge(file), 4);
        break;
    default:
        put(file, head + 24 + below(8), below(2) ? below(64) : drawn(), 1);
    }
}

static void change(struct damaged *file)
{
    static const uint64_t NUMBERS[] = { 12, 16, 20, 24, 28, 48, 52 };
    struct header header = header_of(as_bytes(file));
    switch (below(9)) {
    case 0:
        flip_bits(file, 0, file->length);
        break;
    case 1:
        flip_bits(file, 0, 64);
        break;
    case 2:
        file->length = below(2) ? below(file->length + 1) : file->length - below(file->length < 9 ? 1 : 9);
        break;
    case 3: {
        size_t more = 1 + below(file->capacity - file->length < 80 ? 1 : 80);
        for (; more > 0 && file->length < file->capacity; more--)
            file->at[file->length++] = (uint8_t)drawn();
        break;
    }
    case 4:
        put(file, NUMBERS[below(7)], draw_edge(file), 4);
        break;
    case 5:
        put(file, NUMBERS[below(7)], below(200), 4);
        break;
    case 6:
        put(file, text_entry(&header, below(text_count(&header) + 1)), draw_edge(file), 4);
        break;
    default:
        damage_block(file, &header);
    }
}

static void damage(struct damaged *file)
{
    uint64_t changes = 1 + below(3);
    for (; changes > 0; changes--)
        change(file);
    /* mostly the header keeps the length, so that what is behind it is read */
    if (below(5) > 0)
        put(file, 8, file->length, 4);
    else if (below(4) == 0)
        put(file, 8, draw_edge(file), 4);
}

/*
** Cases
*/

/* A run of pages between two that may not be read. */
static uint8_t *pages;
static size_t pages_size, page;

static void make_pages(void)
{
    size_t most = 0, i;
    uint8_t *all;
    page = (size_t)sysconf(_SC_PAGESIZE);
    for (i = 0; i < file_count; i++)
        most = files[i].length > most ? files[i].length : most;
    pages_size = (most + 512 + page - 1) / page * page;
    all = mmap(NULL, pages_size + 2 * page, PROT_NONE, MAP_PRIVATE | MAP_ANONYMOUS, -1, 0);
    if (all == MAP_FAILED || mprotect(all + page, pages_size, PROT_READ | PROT_WRITE) != 0)
        fail("no memory for the files");
    pages = all + page;
}

/* Puts the file where its first byte is the first, or its last byte the last, that may be read. */
static struct bytes placed(const struct damaged *file)
{
    struct bytes bytes;
    uint8_t *at = below(4) ? pages + pages_size - file->length : pages;
    memmove(at, file->at, file->length);
    bytes.at = at;
    bytes.length = file->length;
    return bytes;
}

static const char *run_case(uint64_t seed, unsigned long number, uint8_t *scratch)
{
    struct damaged file;
    size_t which;
    begin_random(seed, number);
    /* the largest file once in a while: all its tokens are read twice */
    which = below(file_count);
    if (files[which].length > 8192 && below(16) > 0)
        which = below(8);
    file.at = scratch;
    file.length = files[which].length;
    file.capacity = pages_size;
    memcpy(scratch, files[which].at, file.length);
    if (below(20) > 0)
        damage(&file);
    return check_case(placed(&file));
}

static void crashed(int number)
{
    char text[128];
    int length = snprintf(text, sizeof text, "case %lu: signal %d\n0 passed, 1 failed\n", current_case, number);
    if (write(1, text, (size_t)length) < 0)
        _exit(3);
    _exit(1);
}

int main(int count, char **words)
{
    unsigned long cases, first = 0, failed = 0, i;
    uint64_t seed;
    uint8_t *scratch;
    int word_at = 3;
    if (count < 3)
        fail("usage: compiled CASES SEED [--only CASE] [MAP..]");
    cases = strtoul(words[1], NULL, 10);
    seed = strtoull(words[2], NULL, 10);
    if (count > 4 && strcmp(words[3], "--only") == 0) {
        first = strtoul(words[4], NULL, 10);
        cases = 1;
        word_at = 5;
    }
    begin_random(seed, 0);
    add_made();
    for (; word_at < count; word_at++)
        add_path(words[word_at]);
    make_pages();
    scratch = malloc(pages_size);
    if (scratch == NULL)
        fail("out of memory");
    signal(SIGSEGV, crashed);
    signal(SIGBUS, crashed);
    signal(SIGILL, crashed);
    signal(SIGFPE, crashed);
    signal(SIGABRT, crashed);
    signal(SIGALRM, crashed);
    for (i = first; i < first + cases; i++) {
        const char *fault;
        current_case = i;
        if (i % 1000 == 0)
            alarm(SECONDS);
        fault = run_case(seed, i, scratch);
        if (fault == NULL)
            continue;
        if (failed++ < MOST_FAILURES)
            printf("case %lu, seed %llu: %s\n", i, (unsigned long long)seed, fault);
    }
    printf("%lu refused, %lu sorted, %lu out of order\n", refused_count, sorted_count, unsorted_count);
    printf("%lu passed, %lu failed\n", cases - failed, failed);
    return failed > 0;
}
