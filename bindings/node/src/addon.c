/*
** addon.c - the calls of sourcemap.h that the files of lib need, over Node-API.
**
** A handle is an external value that owns an sm_map. Its finalizer closes it,
** at the latest when the environment ends. Between calls the addon keeps only
** the handles, how many there are, and an `instance` for each environment, so
** any number of workers may load it.
**
** Only the files of lib call this addon, and pass what each call expects. A
** value of another type is still an exception, never undefined behaviour.
*/
#define NAPI_VERSION 8
#include <node_api.h>

#include <stdatomic.h>
#include <stdint.h>
#include <stdio.h>
#include <stdlib.h>
#include <string.h>

#include "sourcemap.h"

/* JavaScript writes tokens as seven numbers of 32 bits, in this layout. */
#define TOKEN_WORDS 7
_Static_assert(sizeof(sm_token) == TOKEN_WORDS * sizeof(uint32_t), "a token is seven words");
_Static_assert(offsetof(sm_token, is_range) == 6 * sizeof(uint32_t), "the flag is in the last word");

/* How many tokens, positions or ids one call of the library reads or writes at most. */
#define CHUNK 512

struct instance;

typedef struct held_map {
    sm_map map;
    int64_t reported; /* the bytes reported to the garbage collector */
    struct instance *own;
    uint32_t id; /* its place in `own->maps` */
} held_map;

/* What the addon keeps of each environment: the class of its errors, the numbers that
** look() reads and writes, and the open maps by their ids. Both references hold until
** the environment ends; the rest, until its last map is closed too. */
typedef struct instance {
    napi_ref error_class, words_array;
    uint32_t *words;
    held_map **maps;
    uint32_t room, count, first_free;
    bool has_ended;
} instance;

/* How many maps are open in this process, in all environments. */
static atomic_uint open_maps;

/* Makes a call of Node-API. If it fails, the caller returns NULL with an exception. */
#define TRY(call)                        \
    do {                                 \
        if ((call) != napi_ok) {         \
            return throw_last(env);      \
        }                                \
    } while (0)

static napi_value throw_last(napi_env env) {
    bool pending = false;
    napi_is_exception_pending(env, &pending);
    if (!pending) {
        const napi_extended_error_info *info = NULL;
        napi_get_last_error_info(env, &info);
        const char *text = info && info->error_message ? info->error_message : "a call of Node-API failed";
        napi_throw_error(env, NULL, text);
    }
    return NULL;
}

/* Throws `new SourceMapError(text, code, number)`. */
static napi_value throw_code(napi_env env, sm_code code, uint32_t number, const char *text, size_t length) {
    instance *own = NULL;
    napi_value class, arguments[3], error;
    TRY(napi_get_instance_data(env, (void **)&own));
    TRY(napi_get_reference_value(env, own->error_class, &class));
    TRY(napi_create_string_utf8(env, text, length, &arguments[0]));
    TRY(napi_create_uint32(env, code, &arguments[1]));
    TRY(napi_create_uint32(env, number, &arguments[2]));
    TRY(napi_new_instance(env, class, 3, arguments, &error));
    TRY(napi_throw(env, error));
    return NULL;
}

static napi_value throw_error(napi_env env, const sm_error *error) {
    size_t length = error->text_length < SM_ERROR_TEXT ? error->text_length : SM_ERROR_TEXT - 1;
    return throw_code(env, error->code, error->number, (const char *)error->text, length);
}

static napi_value throw_short_array(napi_env env) {
    napi_throw_range_error(env, NULL, "the array for the answers is too short");
    return NULL;
}

static napi_value throw_out_of_memory(napi_env env) {
    return throw_code(env, SM_OUT_OF_MEMORY, 0, "out of memory", NAPI_AUTO_LENGTH);
}

/*
** HANDLES
*/

/* Frees what is kept of an environment that has ended, once no map of it is open. */
static void release(instance *own) {
    if (own->has_ended && own->count == 0) {
        free(own->maps);
        free(own);
    }
}

/* Gives a map the first free id. Returns false if memory runs out. */
static bool enlist(instance *own, held_map *held) {
    uint32_t id = own->first_free;
    while (id < own->room && own->maps[id]) {
        id++;
    }
    if (id == own->room) {
        uint32_t room = 2 * own->room + 8;
        held_map **maps = realloc(own->maps, room * sizeof *maps);
        if (!maps) {
            return false;
        }
        memset(maps + own->room, 0, (room - own->room) * sizeof *maps);
        own->maps = maps;
        own->room = room;
    }
    held->own = own;
    held->id = id;
    own->maps[id] = held;
    own->first_free = id + 1;
    own->count++;
    return true;
}

static void finalize_map(napi_env env, void *data, void *hint) {
    (void)hint;
    held_map *held = data;
    instance *own = held->own;
    int64_t total;
    sm_close(&held->map);
    napi_adjust_external_memory(env, -held->reported, &total);
    own->maps[held->id] = NULL;
    own->first_free = held->id < own->first_free ? held->id : own->first_free;
    own->count--;
    free(held);
    release(own);
    atomic_fetch_sub(&open_maps, 1);
}

/* Returns a new external value that holds an empty handle, or NULL with an
** exception. */
static napi_value new_handle(napi_env env, held_map **held) {
    instance *own = NULL;
    napi_value external;
    TRY(napi_get_instance_data(env, (void **)&own));
    held_map *made = calloc(1, sizeof *made);
    if (!made || !enlist(own, made)) {
        free(made);
        return throw_out_of_memory(env);
    }
    atomic_fetch_add(&open_maps, 1);
    if (napi_create_external(env, made, finalize_map, NULL, &external) != napi_ok) {
        finalize_map(env, made, NULL);
        return throw_last(env);
    }
    *held = made;
    return external;
}

/* Reports to the garbage collector about how many bytes the map takes, so that
** unused handles are collected in time: those of its tokens, and `text_bytes`. */
static napi_status report_memory(napi_env env, held_map *held, size_t text_bytes) {
    int64_t total;
    sm_counts counts = {0};
    if (sm_count(&held->map, &counts) == SM_OK) {
        held->reported = (int64_t)counts.tokens * (int64_t)sizeof(sm_token) + (int64_t)text_bytes;
    }
    return napi_adjust_external_memory(env, held->reported, &total);
}

/* Reads the arguments of a call, the first of which is a handle. */
static napi_status take_handle(napi_env env, napi_callback_info info, size_t count, napi_value *arguments,
                               held_map **held) {
    napi_status status = napi_get_cb_info(env, info, &count, arguments, NULL, NULL);
    return status == napi_ok ? napi_get_value_external(env, arguments[0], (void **)held) : status;
}

/* Reads a Uint32Array. */
static napi_status take_words(napi_env env, napi_value value, uint32_t **words, size_t *length) {
    napi_typedarray_type type;
    napi_status status = napi_get_typedarray_info(env, value, &type, length, (void **)words, NULL, NULL);
    return status == napi_ok && type != napi_uint32_array ? napi_invalid_arg : status;
}

/*
** MAKE A MAP
*/

/* Returns a copy of a string as UTF-8, or NULL with an exception. */
static char *copy_text(napi_env env, napi_value value, size_t *length) {
    if (napi_get_value_string_utf8(env, value, NULL, 0, length) != napi_ok) {
        throw_last(env);
        return NULL;
    }
    char *text = malloc(*length + 1);
    if (!text) {
        throw_out_of_memory(env);
    } else if (napi_get_value_string_utf8(env, value, text, *length + 1, length) != napi_ok) {
        throw_last(env);
        free(text);
        text = NULL;
    }
    return text;
}

/* open(json): a handle with the map of a JSON text. An index map is flattened. */
static napi_value open_json(napi_env env, napi_callback_info info) {
    size_t count = 1, length = 0;
    napi_value argument;
    held_map *held = NULL;
    sm_error error = {0};
    TRY(napi_get_cb_info(env, info, &count, &argument, NULL, NULL));
    char *text = copy_text(env, argument, &length);
    if (!text) {
        return NULL;
    }
    napi_value handle = new_handle(env, &held);
    if (!handle) {
        free(text);
        return NULL;
    }
    sm_code code = sm_open(&held->map, (const uint8_t *)text, length, &error);
    free(text);
    if (code == SM_OK && sm_kind(&held->map) == SM_KIND_INDEX) {
        code = sm_flatten(&held->map, &error);
    }
    if (code != SM_OK) {
        return throw_error(env, &error);
    }
    TRY(report_memory(env, held, length));
    return handle;
}

/* Adds the texts "0", "1" and so on, so that each id below `count` is known. */
static sm_code add_numbered(sm_builder *builder, uint32_t count,
                            sm_code (*add)(sm_builder *, const uint8_t *, size_t, uint32_t *, sm_error *),
                            sm_error *error) {
    sm_code code = SM_OK;
    for (uint32_t i = 0; i < count && code == SM_OK; i++) {
        char text[16];
        uint32_t id = 0;
        int length = snprintf(text, sizeof text, "%u", (unsigned)i);
        code = add(builder, (const uint8_t *)text, (size_t)length, &id, error);
    }
    return code;
}

static sm_code build_map(sm_builder *builder, uint32_t sources, uint32_t names, const sm_token *tokens, size_t count,
                         sm_map *map, sm_error *error) {
    sm_code code = sm_builder_new(builder, false, (const uint8_t *)"", 0, error);
    if (code == SM_OK) {
        code = add_numbered(builder, sources, sm_builder_add_source, error);
    }
    if (code == SM_OK) {
        code = add_numbered(builder, names, sm_builder_add_name, error);
    }
    if (code == SM_OK && sm_builder_add_tokens(builder, tokens, count, error) < count) {
        code = error->code;
    }
    return code == SM_OK ? sm_builder_finish(builder, map, error) : code;
}

/* build(tokens, sources, names): a handle with a map of these tokens, and with so
** many sources and names. Their texts, of which some may be equal, stay in
** JavaScript; in the map they are the numbers of their ids. */
static napi_value build(napi_env env, napi_callback_info info) {
    size_t count = 3, words = 0;
    napi_value arguments[3];
    uint32_t *tokens = NULL, sources = 0, names = 0;
    held_map *held = NULL;
    TRY(napi_get_cb_info(env, info, &count, arguments, NULL, NULL));
    TRY(take_words(env, arguments[0], &tokens, &words));
    TRY(napi_get_value_uint32(env, arguments[1], &sources));
    TRY(napi_get_value_uint32(env, arguments[2], &names));
    napi_value handle = new_handle(env, &held);
    if (!handle) {
        return NULL;
    }
    static const sm_token none;
    sm_builder builder = SM_EMPTY;
    sm_error error = {0};
    sm_code code = build_map(&builder, sources, names, words ? (const sm_token *)tokens : &none, words / TOKEN_WORDS,
                             &held->map, &error);
    sm_close(&builder);
    if (code != SM_OK) {
        return throw_error(env, &error);
    }
    TRY(report_memory(env, held, 0));
    return handle;
}

/*
** READ A MAP
*/

/* The original position of a token has four words: source, line, column and
** name. They are side by side, since an answer needs all of them. */
#define ORIGINAL_WORDS 4

typedef struct token_arrays {
    uint32_t *lines, *columns, *originals;
    uint8_t *ranges;
    uint32_t bits; /* of all numbers ORed, without missing ids and positions */
} token_arrays;

static uint32_t bits_of(const sm_token *token) {
    uint32_t original = token->source == SM_NONE ? 0 : token->source | token->original_line | token->original_column;
    return token->line | token->column | original | (token->name == SM_NONE ? 0 : token->name);
}

static void scatter(const sm_token *tokens, size_t count, token_arrays *arrays, size_t at) {
    for (size_t i = 0; i < count; i++) {
        uint32_t *original = arrays->originals + ORIGINAL_WORDS * (at + i);
        arrays->bits |= bits_of(&tokens[i]);
        arrays->lines[at + i] = tokens[i].line;
        arrays->columns[at + i] = tokens[i].column;
        original[0] = tokens[i].source;
        original[1] = tokens[i].original_line;
        original[2] = tokens[i].original_column;
        original[3] = tokens[i].name;
        arrays->ranges[at + i] = tokens[i].is_range;
    }
}

/* Reads all tokens, of which there are `count`. */
static void read_tokens(held_map *held, size_t count, token_arrays *arrays) {
    for (size_t at = 0; at < count;) {
        sm_token chunk[CHUNK] = {0};
        size_t size = count - at < CHUNK ? count - at : CHUNK;
        size_t read = sm_tokens(&held->map, (uint32_t)at, chunk, size);
        if (read == 0) {
            return;
        }
        scatter(chunk, read, arrays, at);
        at += read;
    }
}

/* Adds to `object` the property `name`, a new array. */
static napi_status add_array(napi_env env, napi_value object, const char *name, napi_typedarray_type type,
                             size_t length, void **memory) {
    napi_value buffer, array;
    size_t bytes = type == napi_uint32_array ? length * sizeof(uint32_t) : length;
    napi_status status = napi_create_arraybuffer(env, bytes, memory, &buffer);
    if (status == napi_ok) {
        status = napi_create_typedarray(env, type, length, buffer, 0, &array);
    }
    return status == napi_ok ? napi_set_named_property(env, object, name, array) : status;
}

/* tokens(handle): all tokens in order, as an object of arrays; its `isWide` says
** whether one of their numbers has more than 31 bits. */
static napi_value tokens(napi_env env, napi_callback_info info) {
    napi_value handle, object, is_wide;
    held_map *held = NULL;
    sm_counts counts = {0};
    token_arrays arrays = {0};
    TRY(take_handle(env, info, 1, &handle, &held));
    sm_count(&held->map, &counts);
    size_t count = counts.tokens;
    TRY(napi_create_object(env, &object));
    TRY(add_array(env, object, "lines", napi_uint32_array, count, (void **)&arrays.lines));
    TRY(add_array(env, object, "columns", napi_uint32_array, count, (void **)&arrays.columns));
    TRY(add_array(env, object, "originals", napi_uint32_array, count * ORIGINAL_WORDS, (void **)&arrays.originals));
    TRY(add_array(env, object, "ranges", napi_uint8_array, count, (void **)&arrays.ranges));
    read_tokens(held, count, &arrays);
    TRY(napi_get_boolean(env, arrays.bits > INT32_MAX, &is_wide));
    TRY(napi_set_named_property(env, object, "isWide", is_wide));
    return object;
}

/* Returns an array of the texts of the ids below `count`, null where there is none. */
static napi_value read_texts(napi_env env, held_map *held, uint32_t count,
                             sm_code (*read)(sm_map *, uint32_t, sm_text *)) {
    napi_value array;
    TRY(napi_create_array_with_length(env, count, &array));
    for (uint32_t id = 0; id < count; id++) {
        napi_handle_scope scope;
        napi_value value;
        sm_text text = SM_TEXT_EMPTY;
        TRY(napi_open_handle_scope(env, &scope));
        if (read(&held->map, id, &text) == SM_OK) {
            TRY(napi_create_string_utf8(env, (const char *)text.at, text.length, &value));
        } else {
            TRY(napi_get_null(env, &value));
        }
        TRY(napi_set_element(env, array, id, value));
        TRY(napi_close_handle_scope(env, scope));
    }
    return array;
}

static napi_value sources(napi_env env, napi_callback_info info) {
    napi_value handle;
    held_map *held = NULL;
    sm_counts counts = {0};
    TRY(take_handle(env, info, 1, &handle, &held));
    sm_count(&held->map, &counts);
    return read_texts(env, held, counts.sources, sm_source);
}

static napi_value names(napi_env env, napi_callback_info info) {
    napi_value handle;
    held_map *held = NULL;
    sm_counts counts = {0};
    TRY(take_handle(env, info, 1, &handle, &held));
    sm_count(&held->map, &counts);
    return read_texts(env, held, counts.names, sm_name);
}

static napi_value contents(napi_env env, napi_callback_info info) {
    napi_value handle;
    held_map *held = NULL;
    sm_counts counts = {0};
    TRY(take_handle(env, info, 1, &handle, &held));
    sm_count(&held->map, &counts);
    return read_texts(env, held, counts.sources, sm_contents);
}

static napi_value ignore_list(napi_env env, napi_callback_info info) {
    napi_value handle, array;
    held_map *held = NULL;
    uint32_t ids[CHUNK], from = 0, at = 0;
    size_t read;
    TRY(take_handle(env, info, 1, &handle, &held));
    TRY(napi_create_array(env, &array));
    memset(ids, 0, sizeof ids);
    do {
        read = sm_ignore_list_from(&held->map, from, ids, CHUNK);
        for (size_t i = 0; i < read; i++) {
            napi_value id;
            TRY(napi_create_uint32(env, ids[i], &id));
            TRY(napi_set_element(env, array, at++, id));
        }
        from = ids[CHUNK - 1] + 1;
    } while (read == CHUNK && from > 0);
    return array;
}

/* write(handle): the map as JSON. */
static napi_value write_json(napi_env env, napi_callback_info info) {
    napi_value handle, json;
    held_map *held = NULL;
    sm_bytes bytes = SM_EMPTY;
    sm_text text = SM_TEXT_EMPTY;
    sm_error error = {0};
    TRY(take_handle(env, info, 1, &handle, &held));
    if (sm_write(&held->map, &bytes, &error) != SM_OK) {
        return throw_error(env, &error);
    }
    sm_bytes_text(&bytes, &text);
    napi_status status = napi_create_string_utf8(env, (const char *)text.at, text.length, &json);
    sm_close(&bytes);
    TRY(status);
    return json;
}

/*
** LOOK UP
*/

/* An answer has four words: source, original line from 1, original column, name. */
#define ANSWER_WORDS 4

/* Writes the closest token's fields, if it is on the line looked up and has a
** source. Otherwise there is no source, and no name. */
static void write_answer(const sm_found *found, uint32_t line, uint32_t *answer) {
    const sm_token *token = &found->token;
    bool answers = found->found && token->line == line && token->source != SM_NONE;
    answer[0] = answers ? token->source : SM_NONE;
    answer[1] = answers ? token->original_line + 1 : 0;
    answer[2] = answers ? token->original_column : 0;
    answer[3] = answers ? token->name : SM_NONE;
}

/* The words of look(): the id of a map; a position, line and column from 0; the answer;
** the column of its token; and a column before which the answer holds on this line, from
** the position on, which is 0 if it may hold nowhere else. JavaScript has them as signed
** numbers, with which V8 is fastest. */
enum {
    MAP_WORD,
    LINE_WORD,
    COLUMN_WORD,
    FIRST_ANSWER_WORD,
    START_WORD = FIRST_ANSWER_WORD + ANSWER_WORDS,
    UNTIL_WORD,
    LOOK_WORDS
};

/* look(): answers one position. It takes no arguments, since reading them would cost more
** than most lookups, and is one function for all maps, since V8 calls that faster. The
** caller keeps the handle. */
static napi_value look(napi_env env, napi_callback_info info) {
    instance *own = NULL;
    sm_found found = {0};
    sm_position until = {0};
    TRY(napi_get_cb_info(env, info, NULL, NULL, NULL, (void **)&own));
    uint32_t *words = own->words, id = words[MAP_WORD], line = words[LINE_WORD];
    bool is_open = id < own->room && own->maps[id];
    bool holds_on = is_open &&
                    sm_lookup_span(&own->maps[id]->map, line, words[COLUMN_WORD], &found, &until) == SM_OK &&
                    !found.token.is_range;
    write_answer(&found, line, words + FIRST_ANSWER_WORD);
    words[START_WORD] = found.token.column;
    words[UNTIL_WORD] = !holds_on ? 0 : until.line > line || until.column > INT32_MAX ? INT32_MAX : until.column;
    return NULL;
}

/* mapId(handle): the id by which look() knows the map, while its handle is kept. */
static napi_value map_id(napi_env env, napi_callback_info info) {
    napi_value handle, id;
    held_map *held = NULL;
    TRY(take_handle(env, info, 1, &handle, &held));
    TRY(napi_create_uint32(env, held->id, &id));
    return id;
}

/* Reads positions, each a line from 1 and a column from 0. */
static void to_queries(const uint32_t *positions, size_t count, sm_position *queries) {
    for (size_t i = 0; i < count; i++) {
        queries[i].line = positions[2 * i] - 1;
        queries[i].column = positions[2 * i + 1];
    }
}

static void write_answers(const sm_position *queries, const sm_found *found, size_t count, uint32_t *answers) {
    for (size_t i = 0; i < count; i++) {
        write_answer(&found[i], queries[i].line, answers + ANSWER_WORDS * i);
    }
}

/* Answers up to CHUNK positions. */
static void lookup_chunk(held_map *held, const uint32_t *positions, size_t count, uint32_t *answers) {
    sm_position queries[CHUNK];
    sm_found found[CHUNK] = {0};
    to_queries(positions, count, queries);
    sm_lookup_many(&held->map, queries, count, found, CHUNK);
    write_answers(queries, found, count, answers);
}

/* lookupMany(handle, positions, answers): writes the answers to many positions,
** each a line from 1 and a column from 0. Both are a Uint32Array. */
static napi_value lookup_many(napi_env env, napi_callback_info info) {
    napi_value arguments[3];
    held_map *held = NULL;
    uint32_t *positions = NULL, *answers = NULL;
    size_t position_words = 0, answer_words = 0;
    TRY(take_handle(env, info, 3, arguments, &held));
    TRY(take_words(env, arguments[1], &positions, &position_words));
    TRY(take_words(env, arguments[2], &answers, &answer_words));
    size_t count = position_words / 2;
    if (answer_words / ANSWER_WORDS < count) {
        return throw_short_array(env);
    }
    for (size_t at = 0; at < count; at += CHUNK) {
        size_t size = count - at < CHUNK ? count - at : CHUNK;
        lookup_chunk(held, positions + 2 * at, size, answers + ANSWER_WORDS * at);
    }
    return NULL;
}

/*
** COMPILED MAPS
**
** Their bytes are a Uint8Array, whose address each call asks anew. The calls of the
** library read nothing outside of the bytes, whatever they are.
*/

typedef struct byte_array {
    const uint8_t *at;
    size_t length;
} byte_array;

static napi_status take_bytes(napi_env env, napi_value value, byte_array *bytes) {
    static const uint8_t none;
    napi_typedarray_type type;
    void *at = NULL;
    napi_status status = napi_get_typedarray_info(env, value, &type, &bytes->length, &at, NULL, NULL);
    bytes->at = bytes->length ? at : &none;
    return status == napi_ok && type != napi_uint8_array ? napi_invalid_arg : status;
}

/* Reads the arguments of a call, the first of which has the bytes of a compiled map. */
static napi_status take_compiled(napi_env env, napi_callback_info info, size_t count, napi_value *arguments,
                                 byte_array *bytes) {
    napi_status status = napi_get_cb_info(env, info, &count, arguments, NULL, NULL);
    return status == napi_ok ? take_bytes(env, arguments[0], bytes) : status;
}

static const char *text_of_fault(sm_code code) {
    switch (code) {
    case SM_COMPILED_TRUNCATED: return "the compiled map is truncated";
    case SM_COMPILED_MAGIC: return "not a compiled map";
    case SM_COMPILED_VERSION: return "unknown version of a compiled map";
    case SM_COMPILED_EXTENT: return "a table of the compiled map has a wrong extent";
    case SM_COMPILED_TEXT: return "a text passes the end of the compiled map";
    case SM_COMPILED_ORDER: return "the compiled map is out of order";
    default: return "a text of the compiled map is not UTF-8";
    }
}

/* Throws the error of a compiled map, unless the code is SM_OK. The number is that of a
** version. */
static napi_value throw_fault(napi_env env, sm_code code, const byte_array *bytes) {
    uint32_t version = 0;
    if (code == SM_OK) {
        return NULL;
    }
    for (int i = 7; code == SM_COMPILED_VERSION && i >= 4; i--) {
        version = version << 8 | bytes->at[i];
    }
    return throw_code(env, code, version, text_of_fault(code), NAPI_AUTO_LENGTH);
}

/* compile(json, contents): the compiled map of a JSON text, in a Buffer. */
static napi_value compile_json(napi_env env, napi_callback_info info) {
    size_t count = 2, length = 0;
    napi_value arguments[2], buffer;
    bool contents = false;
    sm_map map = SM_EMPTY;
    sm_bytes bytes = SM_EMPTY;
    sm_text file = SM_TEXT_EMPTY;
    sm_error error = {0};
    TRY(napi_get_cb_info(env, info, &count, arguments, NULL, NULL));
    TRY(napi_get_value_bool(env, arguments[1], &contents));
    char *text = copy_text(env, arguments[0], &length);
    if (!text) {
        return NULL;
    }
    sm_code code = sm_open(&map, (const uint8_t *)text, length, &error);
    free(text);
    if (code == SM_OK) {
        code = sm_compile(&map, contents, &bytes, &error);
    }
    sm_close(&map);
    if (code != SM_OK) {
        return throw_error(env, &error);
    }
    sm_bytes_text(&bytes, &file);
    napi_status status = napi_create_buffer_copy(env, file.length, file.at, NULL, &buffer);
    sm_close(&bytes);
    TRY(status);
    return buffer;
}

/* compiledCheck(bytes): throws if the header is not that of a compiled map. */
static napi_value compiled_check(napi_env env, napi_callback_info info) {
    napi_value argument;
    byte_array bytes;
    TRY(take_compiled(env, info, 1, &argument, &bytes));
    return throw_fault(env, sm_compiled_check(bytes.at, bytes.length), &bytes);
}

/* compiledVerify(bytes): throws if anything in the bytes is damaged. */
static napi_value compiled_verify(napi_env env, napi_callback_info info) {
    napi_value argument;
    byte_array bytes;
    TRY(take_compiled(env, info, 1, &argument, &bytes));
    return throw_fault(env, sm_compiled_verify(bytes.at, bytes.length), &bytes);
}

/* compiledCounts(bytes, counts): writes the numbers of tokens, sources and names into a
** Uint32Array. */
static napi_value compiled_counts(napi_env env, napi_callback_info info) {
    napi_value arguments[2];
    byte_array bytes;
    uint32_t *words = NULL;
    size_t length = 0;
    sm_counts counts = {0};
    TRY(take_compiled(env, info, 2, arguments, &bytes));
    TRY(take_words(env, arguments[1], &words, &length));
    if (length < 3) {
        return throw_short_array(env);
    }
    sm_code code = sm_compiled_count(bytes.at, bytes.length, &counts);
    words[0] = counts.tokens;
    words[1] = counts.sources;
    words[2] = counts.names;
    return throw_fault(env, code, &bytes);
}

/* The text that a call found, null if it found none. */
static napi_value text_or_null(napi_env env, sm_code code, const sm_text *text, const byte_array *bytes) {
    napi_value value;
    if (code == SM_OK) {
        TRY(napi_create_string_utf8(env, (const char *)text->at, text->length, &value));
        return value;
    }
    if (code == SM_ABSENT) {
        TRY(napi_get_null(env, &value));
        return value;
    }
    return throw_fault(env, code, bytes);
}

/* compiledText(bytes, call, id): the text of an id: of a source, a name, or contents, by the
** number of the call; with call 3 the file, whatever the id. */
static napi_value compiled_text(napi_env env, napi_callback_info info) {
    static sm_code (*const CALLS[])(const uint8_t *, size_t, uint32_t, sm_text *) = {
        sm_compiled_source, sm_compiled_name, sm_compiled_contents};
    napi_value arguments[3];
    byte_array bytes;
    uint32_t call = 0, id = 0;
    sm_text text = SM_TEXT_EMPTY;
    TRY(take_compiled(env, info, 3, arguments, &bytes));
    TRY(napi_get_value_uint32(env, arguments[1], &call));
    TRY(napi_get_value_uint32(env, arguments[2], &id));
    sm_code code = call < 3 ? CALLS[call](bytes.at, bytes.length, id, &text)
                            : sm_compiled_file(bytes.at, bytes.length, &text);
    return text_or_null(env, code, &text, &bytes);
}

/* compiledDebugId(bytes): a Buffer with the bytes of the debug id, or null. */
static napi_value compiled_debug_id(napi_env env, napi_callback_info info) {
    napi_value argument, value;
    byte_array bytes;
    sm_debug_id id = {{0}};
    TRY(take_compiled(env, info, 1, &argument, &bytes));
    sm_code code = sm_compiled_debug_id(bytes.at, bytes.length, &id);
    if (code == SM_OK) {
        TRY(napi_create_buffer_copy(env, sizeof id.bytes, id.bytes, NULL, &value));
        return value;
    }
    return text_or_null(env, code, NULL, &bytes);
}

/* compiledLookup(bytes, line, column, answer): writes the answer to one position, line
** and column from 0, into a Uint32Array. */
static napi_value compiled_lookup(napi_env env, napi_callback_info info) {
    napi_value arguments[4];
    byte_array bytes;
    uint32_t line = 0, column = 0, *answer = NULL;
    size_t length = 0;
    sm_found found = {0};
    TRY(take_compiled(env, info, 4, arguments, &bytes));
    TRY(napi_get_value_uint32(env, arguments[1], &line));
    TRY(napi_get_value_uint32(env, arguments[2], &column));
    TRY(take_words(env, arguments[3], &answer, &length));
    if (length < ANSWER_WORDS) {
        return throw_short_array(env);
    }
    sm_code code = sm_compiled_lookup(bytes.at, bytes.length, line, column, &found);
    write_answer(&found, line, answer);
    return throw_fault(env, code == SM_ABSENT ? SM_OK : code, &bytes);
}

/* compiledLookupMany(bytes, positions, answers): as lookupMany(). */
static napi_value compiled_lookup_many(napi_env env, napi_callback_info info) {
    napi_value arguments[3];
    byte_array bytes;
    uint32_t *positions = NULL, *answers = NULL;
    size_t position_words = 0, answer_words = 0;
    TRY(take_compiled(env, info, 3, arguments, &bytes));
    TRY(take_words(env, arguments[1], &positions, &position_words));
    TRY(take_words(env, arguments[2], &answers, &answer_words));
    size_t count = position_words / 2;
    if (answer_words / ANSWER_WORDS < count) {
        return throw_short_array(env);
    }
    for (size_t at = 0; at < count; at += CHUNK) {
        sm_position queries[CHUNK];
        sm_found found[CHUNK] = {0};
        size_t size = count - at < CHUNK ? count - at : CHUNK;
        to_queries(positions + 2 * at, size, queries);
        sm_compiled_lookup_many(bytes.at, bytes.length, queries, size, found, CHUNK);
        write_answers(queries, found, size, answers + ANSWER_WORDS * at);
    }
    return throw_fault(env, sm_compiled_check(bytes.at, bytes.length), &bytes);
}

/* compiledScope(bytes, line, column): the scope of the closest token, if it is on the line
** looked up; else null. */
static napi_value compiled_scope(napi_env env, napi_callback_info info) {
    napi_value arguments[3];
    byte_array bytes;
    uint32_t line = 0, column = 0;
    sm_found found = {0};
    sm_text text = SM_TEXT_EMPTY;
    TRY(take_compiled(env, info, 3, arguments, &bytes));
    TRY(napi_get_value_uint32(env, arguments[1], &line));
    TRY(napi_get_value_uint32(env, arguments[2], &column));
    sm_code code = sm_compiled_lookup(bytes.at, bytes.length, line, column, &found);
    if (code == SM_OK) {
        code = found.token.line == line ? sm_compiled_scope(bytes.at, bytes.length, line, column, &text) : SM_ABSENT;
    }
    return text_or_null(env, code, &text, &bytes);
}

/*
** CHECKS
*/

static napi_status set_number(napi_env env, napi_value array, uint32_t at, double number) {
    napi_value value;
    napi_status status = napi_create_double(env, number, &value);
    return status == napi_ok ? napi_set_element(env, array, at, value) : status;
}

static napi_status set_text(napi_env env, napi_value array, uint32_t at, const sm_text *text) {
    napi_value value;
    napi_status status = napi_create_string_utf8(env, (const char *)text->at, text->length, &value);
    return status == napi_ok ? napi_set_element(env, array, at, value) : status;
}

/* Returns an array of the sections that lead to the map of a finding. */
static napi_value sections_of(napi_env env, sm_report *report, uint32_t index) {
    size_t none[1] = {0}, count = 0;
    napi_value array;
    sm_report_sections(report, index, none, 0, &count);
    size_t *sections = calloc(count + 1, sizeof *sections);
    if (!sections) {
        return throw_out_of_memory(env);
    }
    sm_report_sections(report, index, sections, count, &count);
    napi_status status = napi_create_array_with_length(env, count, &array);
    for (size_t i = 0; i < count && status == napi_ok; i++) {
        status = set_number(env, array, (uint32_t)i, (double)sections[i]);
    }
    free(sections);
    TRY(status);
    return array;
}

/* Returns the finding of this index, an array: code, severity, place, line, index, lines,
** columns, sections, key, sentence. */
static napi_value finding_of(napi_env env, sm_report *report, uint32_t index) {
    napi_value array;
    sm_finding found = {0};
    sm_text key = SM_TEXT_EMPTY, sentence = SM_TEXT_EMPTY;
    sm_report_finding(report, index, &found);
    sm_report_key(report, index, &key);
    sm_report_sentence(report, index, &sentence);
    const double numbers[] = {found.code,         found.severity, found.place,  (double)found.line,
                              (double)found.index, found.lines,    found.columns};
    const uint32_t count = sizeof numbers / sizeof numbers[0];
    TRY(napi_create_array(env, &array));
    for (uint32_t i = 0; i < count; i++) {
        TRY(set_number(env, array, i, numbers[i]));
    }
    napi_value sections = sections_of(env, report, index);
    if (!sections) {
        return NULL;
    }
    TRY(napi_set_element(env, array, count, sections));
    TRY(set_text(env, array, count + 1, &key));
    TRY(set_text(env, array, count + 2, &sentence));
    return array;
}

/* Returns what a report says, an array: how many findings are invalid, how many are
** suspicious, and the array of findings. */
static napi_value read_report(napi_env env, sm_report *report) {
    napi_value array, findings;
    sm_report_counts counts = {0};
    sm_report_count(report, &counts);
    TRY(napi_create_array(env, &array));
    TRY(set_number(env, array, 0, (double)counts.invalid));
    TRY(set_number(env, array, 1, (double)counts.suspicious));
    TRY(napi_create_array(env, &findings));
    for (uint32_t index = 0; index < counts.findings; index++) {
        napi_handle_scope scope;
        TRY(napi_open_handle_scope(env, &scope));
        napi_value finding = finding_of(env, report, index);
        if (!finding) {
            return NULL;
        }
        TRY(napi_set_element(env, findings, index, finding));
        TRY(napi_close_handle_scope(env, scope));
    }
    TRY(napi_set_element(env, array, 2, findings));
    return array;
}

/* sourceNames(bytes): the sources of the map in the bytes, resolved, of an index map those of
** its flat map. There are none if the bytes are no map, or the index map has no flat one. */
static napi_value source_names(napi_env env, napi_callback_info info) {
    size_t count = 1;
    napi_value argument;
    byte_array bytes;
    held_map held = {.map = SM_EMPTY};
    sm_counts counts = {0};
    sm_error error = {0};
    TRY(napi_get_cb_info(env, info, &count, &argument, NULL, NULL));
    TRY(take_bytes(env, argument, &bytes));
    sm_code code = sm_open(&held.map, bytes.at, bytes.length, &error);
    if (code == SM_OK && sm_kind(&held.map) == SM_KIND_INDEX) {
        code = sm_flatten(&held.map, &error);
    }
    if (code == SM_OUT_OF_MEMORY) {
        sm_close(&held.map);
        return throw_error(env, &error);
    }
    if (code == SM_OK) {
        sm_count(&held.map, &counts);
    }
    napi_value names = read_texts(env, &held, counts.sources, sm_source);
    sm_close(&held.map);
    return names;
}

/* Reads an item of an array of files. It may be null. */
static napi_status take_file(napi_env env, napi_value array, uint32_t index, sm_text *file) {
    byte_array bytes;
    napi_value value;
    napi_valuetype type;
    napi_status status = napi_get_element(env, array, index, &value);
    if (status == napi_ok) {
        status = napi_typeof(env, value, &type);
    }
    if (status != napi_ok || type == napi_null) {
        return status;
    }
    status = take_bytes(env, value, &bytes);
    *file = (sm_text){bytes.at, bytes.length};
    return status;
}

/* Returns the files in an array, or throws. The caller frees them. */
static sm_text *take_files(napi_env env, napi_value array, uint32_t *count) {
    static const sm_text none = SM_NO_FILE;
    napi_status status = napi_get_array_length(env, array, count);
    sm_text *files = calloc((size_t)*count + 1, sizeof *files);
    if (!files) {
        throw_out_of_memory(env);
        return NULL;
    }
    for (uint32_t i = 0; i < *count && status == napi_ok; i++) {
        files[i] = none;
        status = take_file(env, array, i, &files[i]);
    }
    if (status != napi_ok) {
        free(files);
        throw_last(env);
        return NULL;
    }
    return files;
}

/* check(bytes, generated, name, hasFiles, files, most): what is found in the bytes of a map, as
** read_report() returns it. `generated` is the bytes of the generated text, or null; `name` those
** of the name of the map's file. `files` is an array of those of the files of sources, with null
** for none. It counts if `hasFiles` is true. */
static napi_value check_bytes(napi_env env, napi_callback_info info) {
    size_t count = 6;
    napi_value arguments[6];
    napi_valuetype type;
    byte_array bytes, name, generated = {(const uint8_t *)"", 0};
    bool has_files = false;
    uint32_t most = 0, file_count = 0;
    sm_report report = SM_EMPTY;
    sm_error error = {0};
    TRY(napi_get_cb_info(env, info, &count, arguments, NULL, NULL));
    TRY(take_bytes(env, arguments[0], &bytes));
    TRY(napi_typeof(env, arguments[1], &type));
    if (type != napi_null) {
        TRY(take_bytes(env, arguments[1], &generated));
    }
    TRY(take_bytes(env, arguments[2], &name));
    TRY(napi_get_value_bool(env, arguments[3], &has_files));
    TRY(napi_get_value_uint32(env, arguments[5], &most));
    sm_text *files = take_files(env, arguments[4], &file_count);
    if (!files) {
        return NULL;
    }
    sm_code code = sm_check_files(&report, bytes.at, bytes.length, type != napi_null, generated.at, generated.length,
                                  name.at, name.length, has_files, files, file_count, most, &error);
    free(files);
    if (code != SM_OK) {
        return throw_error(env, &error);
    }
    napi_value found = read_report(env, &report);
    sm_close(&report);
    return found;
}

/*
** THE MODULE
*/

static napi_value open_count(napi_env env, napi_callback_info info) {
    (void)info;
    napi_value count;
    TRY(napi_create_uint32(env, atomic_load(&open_maps), &count));
    return count;
}

static void finalize_instance(napi_env env, void *data, void *hint) {
    (void)env;
    (void)hint;
    instance *own = data;
    own->has_ended = true;
    release(own);
}

/* Makes the words of look(), as an Int32Array, and the function. */
static napi_status make_look(napi_env env, instance *own, napi_value *words, napi_value *function) {
    napi_value buffer;
    napi_status status = napi_create_arraybuffer(env, LOOK_WORDS * sizeof(uint32_t), (void **)&own->words, &buffer);
    if (status == napi_ok) {
        status = napi_create_typedarray(env, napi_int32_array, LOOK_WORDS, buffer, 0, words);
    }
    if (status == napi_ok) {
        status = napi_create_reference(env, *words, 1, &own->words_array);
    }
    return status == napi_ok ? napi_create_function(env, "look", NAPI_AUTO_LENGTH, look, own, function) : status;
}

/* init(SourceMapError): sets the class of the errors of this environment. Returns the
** words of look(), and this function, in an array. */
static napi_value init(napi_env env, napi_callback_info info) {
    size_t count = 1;
    napi_value class, words, function, both;
    TRY(napi_get_cb_info(env, info, &count, &class, NULL, NULL));
    instance *own = calloc(1, sizeof *own);
    if (!own) {
        napi_throw_error(env, NULL, "out of memory");
        return NULL;
    }
    if (napi_create_reference(env, class, 1, &own->error_class) != napi_ok ||
        make_look(env, own, &words, &function) != napi_ok ||
        napi_set_instance_data(env, own, finalize_instance, NULL) != napi_ok) {
        free(own);
        return throw_last(env);
    }
    TRY(napi_create_array_with_length(env, 2, &both));
    TRY(napi_set_element(env, both, 0, words));
    TRY(napi_set_element(env, both, 1, function));
    return both;
}

NAPI_MODULE_INIT() {
    static const struct {
        const char *name;
        napi_callback call;
    } calls[] = {
        {"init", init},         {"open", open_json},    {"build", build},
        {"tokens", tokens},     {"sources", sources},   {"names", names},
        {"contents", contents}, {"ignoreList", ignore_list}, {"write", write_json},
        {"mapId", map_id},       {"lookupMany", lookup_many}, {"openCount", open_count},
        {"compile", compile_json},
        {"compiledCheck", compiled_check},
        {"compiledVerify", compiled_verify},
        {"compiledCounts", compiled_counts},
        {"compiledText", compiled_text},
        {"compiledDebugId", compiled_debug_id},
        {"compiledLookup", compiled_lookup},
        {"compiledLookupMany", compiled_lookup_many},
        {"compiledScope", compiled_scope},
        {"sourceNames", source_names},
        {"check", check_bytes},
    };
    if (sm_interface() != SM_INTERFACE) {
        napi_throw_error(env, NULL, "the linked library has another version of the interface");
        return NULL;
    }
    for (size_t i = 0; i < sizeof calls / sizeof calls[0]; i++) {
        napi_value function;
        TRY(napi_create_function(env, calls[i].name, NAPI_AUTO_LENGTH, calls[i].call, NULL, &function));
        TRY(napi_set_named_property(env, exports, calls[i].name, function));
    }
    return exports;
}
