/*
** sourcemap.h - JavaScript source maps (revision 3, index maps, Hermes maps,
** RAM bundles), from a library whose every function is proved.
**
** CONVENTIONS
**
** Lines and columns count from 0. Columns count UTF-16 units. But in a map of Hermes
** bytecode a generated column is an offset of the bytecode. Texts are UTF-8 bytes with
** a length. The library adds no zero byte after a text unless this page says so.
**
** A handle is a small struct in the caller's memory. The caller sets a new handle
** to zeros (SM_EMPTY). A handle of zeros holds nothing. A call that fills a handle
** drops what the handle held before. A handle owns the memory of what it holds until
** another call fills or empties it, or sm_close() closes it. Never copy a handle: pass
** its address.
**
** Most calls return a code: SM_OK, or why they failed. A call that takes an
** sm_error also writes the code, the numbers and the printed text of the error
** there. On success the sm_error is as it was. A call that takes an sm_error may
** fail with SM_OUT_OF_MEMORY; no other call does. If several errors apply, a call
** returns one of them. Which one is unspecified, unless the comment of the call says
** which.
**
** A call that fails writes nothing but its sm_error, and leaves each handle as it
** was. So the same call may be made again after SM_OUT_OF_MEMORY. There are three
** exceptions, all on SM_OUT_OF_MEMORY: sm_builder_finish() empties its builder,
** sm_sections_finish() may empty its sections, and sm_builder_add_tokens() may have
** added some of the tokens.
**
** A text that a call writes to an sm_text is borrowed, not copied. It points into
** the handle that it was read from, and is valid until a call changes, fills or
** closes that handle. A call whose comment says "changes" changes its first handle.
** A call whose comment says "fills" fills the handle that the comment names. All
** other handles stay as they are.
**
** WHAT THE CALLER OWES
**
** The proofs hold only if the caller keeps these rules:
**
**   - A pointer is not null, even if the length beside it is 0. It points to as
**     many initialised values as the length says, or to one if there is no length.
**     Both rules also hold for memory that a call only writes. Such an sm_text
**     begins as SM_TEXT_EMPTY, and any other such struct as zeros.
**   - What two arguments of one call point to does not overlap.
**   - A handle is used by one call at a time. It may be handed to another
**     thread, with the synchronisation that the platform asks for. Two handles are
**     independent, even if they hold one map, view or bundle by sm_share(): each
**     thread may use its own.
**   - malloc, realloc and free of the process are those of one allocator. The
**     memory that they return is aligned as C asks.
**   - No call is made in a signal handler.
**   - The stack is large enough. Some calls recurse once for each level of nested index
**     maps. docs/LIMITS.md says how much stack a level takes.
*/
#ifndef SOURCEMAP_H
#define SOURCEMAP_H

#include <stdbool.h>
#include <stddef.h>
#include <stdint.h>

#ifdef __cplusplus
extern "C" {
#endif

/* SM_VERSION is a release of the Rust crate `sourcemap`. Most names of this library
** follow that release. Its answers follow it too, except for the differences in
** docs/DIFFERENCES.md and in bindings/c/README.md. SM_INTERFACE is the version of this
** interface: sm_interface() returns that of the linked library. */
#define SM_VERSION "9.3.2"
#define SM_INTERFACE 2u

/* SM_NONE is the id of no source and of no name. In a map that was opened, SM_NONE is
** also the original line and column of a token without a source. In a list of the
** lines of modules, SM_NONE stands for a number without a module. One exception: a map
** that was opened may have a module that begins at line 4294967295. For such a module
** sm_module_offsets() writes SM_NONE too. */
#define SM_NONE UINT32_MAX

/*
** CODES
**
** A code is one of these. The codes from 32 on exist only in this C interface.
*/
typedef uint32_t sm_code;

#define SM_OK 0u
#define SM_IO 1u                    /* a junk header is invalid, or a line of a generated text is not UTF-8 */
#define SM_UTF8 2u                  /* bytes that should be text are not UTF-8 */
#define SM_RANGE 3u                 /* a range of `size` bytes from `start` passes the `length` of a bundle */
#define SM_BAD_JSON 4u              /* number 0: the text does not parse; 1: the JSON is no source map */
#define SM_VLQ_LEFTOVER 5u          /* a segment ends within a number */
#define SM_VLQ_NO_VALUES 6u         /* a segment has no number */
#define SM_VLQ_OVERFLOW 7u          /* a number of a segment is too large, or has too many digits */
#define SM_BAD_SEGMENT_SIZE 8u      /* a segment has `number` numbers, not 1, 4 or 5; 4294967295 also means more */
#define SM_BAD_SOURCE_REFERENCE 9u  /* a segment names a source that does not exist; `number` is its id modulo 2^32 */
#define SM_BAD_NAME_REFERENCE 10u   /* a segment names a name that does not exist; `number` is its id modulo 2^32 */
#define SM_INCOMPATIBLE 11u         /* a count, a line or a column is past its limit */
#define SM_INVALID_DATA_URL 12u     /* the text is no data URL of the form that sm_open_url() reads */
#define SM_CANNOT_FLATTEN 13u       /* an index map can't become one regular map; the text says why */
#define SM_INVALID_BUNDLE_MAGIC 14u /* a bundle does not begin with its magic number */
#define SM_INVALID_BUNDLE_INDEX 15u /* the number of a module is past the last one of its bundle */
#define SM_INVALID_BUNDLE_ENTRY 16u /* a bundle's entry of a module, or the module itself, is invalid */
#define SM_NOT_A_BUNDLE 17u         /* an index map has no list of the lines at which modules begin */
#define SM_INVALID_RANGE_INDEX 18u  /* reserved; no call returns it */
#define SM_INVALID_BASE64 19u       /* a byte is no digit; `number` is the value of the byte */
#define SM_OUT_OF_MEMORY 20u        /* memory ran out */

#define SM_ABSENT 32u               /* there is none, for example no token, text, id or module */
#define SM_WRONG_KIND 33u           /* the handle is empty, or holds something that the call does not take */
#define SM_PAST_LIMIT 34u           /* a line would pass 4294967295 */

/* Why bytes are no compiled map, or a damaged one. */
#define SM_COMPILED_TRUNCATED 35u   /* fewer than 64 bytes, or fewer than the header says */
#define SM_COMPILED_MAGIC 36u       /* the bytes do not begin as a compiled map does */
#define SM_COMPILED_VERSION 37u     /* a version that this library does not read */
#define SM_COMPILED_EXTENT 38u      /* more bytes than the header says, or tables that pass the end */
#define SM_COMPILED_TEXT 39u        /* a text ends before it begins, or past the end of the bytes */
#define SM_COMPILED_ORDER 40u       /* a token is before the token ahead of it */

/* What a handle holds, as sm_kind() returns it. */
#define SM_KIND_EMPTY 0u
#define SM_KIND_REGULAR 1u
#define SM_KIND_INDEX 2u
#define SM_KIND_HERMES 3u
#define SM_KIND_BUILDER 4u
#define SM_KIND_VIEW 5u
#define SM_KIND_BUNDLE 6u
#define SM_KIND_SPLIT 7u
#define SM_KIND_BYTES 8u
#define SM_KIND_SECTIONS 9u
#define SM_KIND_REPORT 10u

/* How grave a finding of sm_check() is. */
#define SM_INVALID 0u               /* the bytes break a rule of ECMA-426 */
#define SM_SUSPICIOUS 1u            /* the map is valid, but something looks wrong */

/* What the position of a finding is. */
#define SM_PLACE_KEY 0u             /* there is none but the key */
#define SM_PLACE_SEGMENT 1u         /* `line` and `index` of a segment in the text of the key */
#define SM_PLACE_TOKEN 2u           /* a token, by its generated line in `line` and column in `index` */
#define SM_PLACE_SHIFT 3u           /* positions are off by `lines` and `columns` throughout */

/*
** TYPES
*/

/* A handle. Its fields are private to the library. The names below all mean this
** struct, and say what a call expects in it. One handle may hold different things, one
** after another. */
typedef struct sm_handle {
    void *at;
    bool full;
} sm_handle;

typedef sm_handle sm_map;     /* a map of any kind */
typedef sm_handle sm_builder; /* a map that is being built */
typedef sm_handle sm_sections; /* sections of an index map that is being made */
typedef sm_handle sm_view;    /* a text with the table of its lines */
typedef sm_handle sm_bundle;  /* a RAM bundle */
typedef sm_handle sm_split;   /* what makes the maps of the modules of a RAM bundle */
typedef sm_handle sm_bytes;   /* a text or a compiled map that a call made */
typedef sm_handle sm_report;  /* what a check found */

#ifdef __cplusplus
#define SM_EMPTY {}
#else
#define SM_EMPTY { 0, false }
#endif

/* A borrowed text. */
typedef struct sm_text {
    const uint8_t *at;
    size_t length;
} sm_text;

#define SM_TEXT_EMPTY { (const uint8_t *)"", 0 }

/* For sm_check_files(): no file. The byte is no UTF-8. */
#define SM_NO_FILE { (const uint8_t *)"\377", 1 }

/* Why a call failed. `text` holds the printed text and a zero byte after it. If the
** printed text has more than SM_ERROR_TEXT - 1 bytes, `text` holds only that many
** of its first bytes, and may end within a character. `text_length` is the length of
** the whole printed text. The comment of a code says what `number`, `start`, `size`
** and `length` are. Those that it does not name are 0. */
#define SM_ERROR_TEXT 256

typedef struct sm_error {
    sm_code code;
    uint32_t number;
    uint64_t start;
    uint64_t size;
    uint64_t length;
    size_t text_length;
    uint8_t text[SM_ERROR_TEXT];
} sm_error;

/* A generated position. */
typedef struct sm_position {
    uint32_t line;
    uint32_t column;
} sm_position;

/* A token: a generated position, the original position that it maps to, its source
** and its name. `source` and `name` are ids, or SM_NONE. In a map that was opened, a
** token without a source has SM_NONE as its original line and column. Not each id
** names something. After sm_remove_names() no name id does. In a map that was built,
** any id may name nothing. So ask sm_source() or sm_name() before you use an id as an
** index. */
typedef struct sm_token {
    uint32_t line;
    uint32_t column;
    uint32_t original_line;
    uint32_t original_column;
    uint32_t source;
    uint32_t name;
    bool is_range;
} sm_token;

/* The answer to a position. `found` says whether there is a closest token. `token` is
** that token as its map has it, with one exception: a range token on the line of the
** position. To its `original_column` the answer adds the columns from the token to
** the position. A sum above 4294967295 is written as 4294967295.
** In an index map `token` is a token of the map of a section; if index maps are
** nested, of the innermost section. Its `line` counts from the line where the section
** begins. On the first line of the section, its `column` counts from the column where
** the section begins. `source` and `name` are ids in the section's map.
** If sm_lookup_many() finds no token, it writes zeros to `token`. */
typedef struct sm_found {
    sm_token token;
    bool found;
} sm_found;

/* How many items a map has. In an index map all counts but `sections` are 0. In the
** other maps `sections` is 0. A count above 4294967295 is written as 4294967295. */
typedef struct sm_counts {
    uint32_t tokens;
    uint32_t sources;
    uint32_t names;
    uint32_t ignored;
    uint32_t sections;
} sm_counts;

/* A debug id: the 16 bytes of a UUID, in the order in which it is printed. */
typedef struct sm_debug_id {
    uint8_t bytes[16];
} sm_debug_id;

/* Where a section of an index map begins, and whether it holds a map and a URL. */
typedef struct sm_section_start {
    uint32_t line;
    uint32_t column;
    bool has_map;
    bool has_url;
} sm_section_start;

/* A finding: a place where a rule is broken, or where something looks wrong. `code` is
** the number in docs/CHECK.md, for example 132 for SM132. `severity` is one of SM_INVALID
** and SM_SUSPICIOUS, and `place` one of SM_PLACE_.... Fields that do not count for that
** place are 0. All count from 0. */
typedef struct sm_finding {
    uint32_t code;
    uint32_t severity;
    uint32_t place;
    int32_t lines;
    int32_t columns;
    size_t line;
    size_t index;
} sm_finding;

/* How many findings there are: of each severity in all, and in the report. */
typedef struct sm_report_counts {
    uint64_t invalid;
    uint64_t suspicious;
    size_t findings;
} sm_report_counts;

/*
** OPEN, SHARE AND CLOSE
*/

/* Returns SM_INTERFACE of the linked library. Never fails. */
uint32_t sm_interface(void);

/* Returns what the handle holds: one of SM_KIND_..., SM_KIND_EMPTY if it holds
** nothing. Never fails. */
uint32_t sm_kind(sm_handle *handle);

/* Drops what the handle holds, if anything. The handle is empty afterwards, and may
** be filled anew. What another handle shares stays in that handle. Never fails. */
void sm_close(sm_handle *handle);

/* Fills `map` with the map that these bytes hold: JSON, after a junk header if
** there is one. The bytes are not kept. Returns SM_OK, or an error of the bytes:
** SM_IO, SM_BAD_JSON, SM_VLQ_..., SM_BAD_..., SM_INVALID_BASE64, SM_INCOMPATIBLE.
** SM_BAD_JSON has number 0 if the text is not UTF-8 or not JSON, has more than 127
** levels, has a number too large for a double, or escapes one half of a surrogate pair
** without the other. The number is 1 if the JSON is no object, if a field other than
** `file` has the wrong type, or if a required field is missing. The items of `names`
** may have any type. sm_kind() says which kind of map it is. */
sm_code sm_open(sm_map *map, const uint8_t *bytes, size_t length, sm_error *error);

/* Fills `map` with the map in a `data:` URL. The URL is `data:application/json`, then
** `;charset=utf-8`, `;charset=utf8` or nothing, then `;base64,` and standard base64
** with its padding. Letter case matters. The bytes are not kept. Returns SM_OK; SM_UTF8
** if the URL is not UTF-8; SM_INVALID_DATA_URL if it has another form; or an error of
** the bytes in it, as sm_open() does. */
sm_code sm_open_url(sm_map *map, const uint8_t *url, size_t length, sm_error *error);

/* Fills `other` with the map, the view or the bundle that `handle` holds, without a
** copy. Each of the two handles may then be used by a thread of its own; a change of
** one is not seen by the other. Returns SM_OK, or SM_WRONG_KIND if `handle` holds
** none of these. */
sm_code sm_share(sm_handle *handle, sm_handle *other, sm_error *error);

/* Writes to `answer` whether the bytes hold a source map. The call checks that the
** bytes hold a JSON object, and which of its keys are present and not null. The only
** value that the call checks is `version`: null, or a number from 0 to 4294967295 that
** is written with digits alone. So sm_open() may still refuse the bytes. Returns SM_OK,
** also if the bytes hold no source map: then `answer` is false. No error but
** SM_OUT_OF_MEMORY. */
sm_code sm_is_source_map(const uint8_t *bytes, size_t length, bool *answer, sm_error *error);

/* Writes to `answer` whether both maps are of one kind and equal in all that they
** hold. Sources are compared as the maps have them, before they are resolved. The
** order of each list but the ignore list counts. The length of the list of contents
** counts too. Maps that differ only in nulls at the end of this list are not equal, but
** sm_write() writes the same text for both.
** SM_WRONG_KIND if one of the handles holds no map; then `answer` is as it was.
** Allocates nothing. `map` and `other` must be different handles. A map always equals
** itself. */
sm_code sm_equal(sm_map *map, sm_map *other, bool *answer);

/* Fills `regular` with a copy of the regular map in a Hermes map, without the
** functions of its sources. Returns SM_OK, or SM_WRONG_KIND if `map` holds no Hermes
** map. */
sm_code sm_hermes_map(sm_map *map, sm_map *regular, sm_error *error);

/*
** WHAT A MAP SAYS
**
** A call of this section that returns a code returns SM_OK and writes its answer, or
** returns another code and writes nothing: SM_ABSENT if the map has no such item,
** SM_WRONG_KIND if the handle holds no map. Some calls also return SM_WRONG_KIND for
** a map of another kind than theirs; their comments say so. No call of this section
** allocates but sm_token_text(). sm_token_text() may also return SM_OUT_OF_MEMORY. If
** it fails, it writes its sm_error.
**
** An index map has a file, a debug id of its own, and sections. It has no root,
** sources, names, contents or tokens: those are in the maps of its sections
** (sm_section()). All but the root are also in the map that sm_flatten() makes.
*/

/* Writes how many items the map has. SM_WRONG_KIND if the handle holds no map;
** never SM_ABSENT. */
sm_code sm_count(sm_map *map, sm_counts *counts);

/* The name of the generated file, of a map of any kind. The text is borrowed from
** `map`. If the `file` of an opened map was neither a text nor null, the text is
** `<invalid>`. SM_ABSENT if the map has no file, SM_WRONG_KIND if the handle holds no
** map. */
sm_code sm_file(sm_map *map, sm_text *text);

/* The `sourceRoot`, as the map has it. The text is borrowed from `map`.
** SM_ABSENT if the map has none, as every index map; SM_WRONG_KIND if the handle
** holds no map. */
sm_code sm_source_root(sm_map *map, sm_text *text);

/* Writes the debug id, of a map of any kind. SM_ABSENT if the map has none,
** SM_WRONG_KIND if the handle holds no map; then `id` is as it was. */
sm_code sm_get_debug_id(sm_map *map, sm_debug_id *id);

/* The source of this id, resolved against `sourceRoot`. The text is borrowed from
** `map`. SM_ABSENT if there is no source of that id, as in every index map;
** SM_WRONG_KIND if the handle holds no map. */
sm_code sm_source(sm_map *map, uint32_t id, sm_text *text);

/* The name of this id. The text is borrowed from `map`. SM_ABSENT if there is no
** name of that id, as in every index map; SM_WRONG_KIND if the handle holds no map. */
sm_code sm_name(sm_map *map, uint32_t id, sm_text *text);

/* The contents of the source of this id. The text is borrowed from `map`. SM_ABSENT
** if the map has no contents of that id, as every index map; SM_WRONG_KIND if the
** handle holds no map. A map may have contents past its last source. */
sm_code sm_contents(sm_map *map, uint32_t id, sm_text *text);

/* Writes the ids of the ignore list that are not below `from` to `ids`, in rising
** order. The call stops at the end of the list or of `ids`. Returns how many it wrote:
** 0 of an index map, and of a handle without a map. An id may name no source. The rest
** of `ids` is as it was. To read on, pass the last id plus 1: a call takes the time of
** what it writes. No id follows SM_NONE. */
size_t sm_ignore_list_from(sm_map *map, uint32_t from, uint32_t *ids, size_t length);

/* Writes the tokens of a map to `tokens`, in the order of their generated positions,
** from index `first` on. The call stops after the last token of the map or at the end
** of `tokens`. Returns how many it wrote: 0 of an index map, and of a handle without a
** map. The rest of `tokens` is as it was. */
size_t sm_tokens(sm_map *map, uint32_t first, sm_token *tokens, size_t length);

/* Fills `text` with the text of the token at index `index` of the map. The text is the
** original position as SOURCE:LINE:COLUMN, and ` name=NAME` if the token has a name.
** SOURCE is resolved against `sourceRoot`, and `<unknown>` if the token has none. An
** id that names nothing counts as none. Allocates the text, and may return
** SM_OUT_OF_MEMORY. Returns SM_OK; SM_ABSENT if there is no such token; SM_WRONG_KIND
** of an index map, and if the handle holds no map. sm_bytes_text() reads the text. */
sm_code sm_token_text(sm_map *map, uint32_t index, sm_bytes *text, sm_error *error);

/* For the index map of a RAM bundle: writes to `offsets` a line for each module number
** from `first` on. The line is the generated line at which the module begins, or
** SM_NONE if no module has the number. SM_NONE is also written for a module that begins
** at line 4294967295. The call stops at the end of the map's list of these lines, or at
** the end of `offsets`. Writes to `written` how many lines it wrote. SM_ABSENT if the
** map has no list of these lines, SM_WRONG_KIND if the handle holds no index map; then
** nothing is written. */
sm_code sm_module_offsets(sm_map *map, uint32_t first, uint32_t *offsets, size_t length, size_t *written);

/* Of the index map of a RAM bundle: the path of a module. The text is borrowed from
** `map`. SM_ABSENT if the map has no list of paths, or this list has no item `id`.
** SM_WRONG_KIND if the handle holds no index map. */
sm_code sm_module_path(sm_map *map, uint32_t id, sm_text *text);

/* Of the index map of a RAM bundle: writes how many paths of modules it has, which may be
** none. SM_ABSENT if the map has no list of paths, SM_WRONG_KIND if the handle holds no
** index map; then `paths` is as it was. */
sm_code sm_module_path_count(sm_map *map, size_t *paths);

/*
** LOOK UP
**
** The closest token to a position is the first one at the position, or else the
** last one before it, whichever line it is on. A caller who wants only a token on
** the line of the position compares `token.line` with this line. In an index map
** that does not work: there `token.line` counts from the first line of the section.
**
** An index map searches its closest section alone. That is the first section that
** begins at the position, or else the last one that begins before it. If this section
** has no map, or its map has no closest token, the index map has none either. If the
** sections are not in the order of their positions at every level, an answer may be
** wrong or missing: see sm_sections_add().
*/

/* Writes the closest token. Returns SM_OK; SM_ABSENT if there is none; SM_WRONG_KIND
** if the handle holds no map. On SM_ABSENT and SM_WRONG_KIND nothing is written, and
** `found->found` may be that of an earlier call: look at the code that the call
** returns. Allocates nothing. */
sm_code sm_lookup(sm_map *map, uint32_t line, uint32_t column, sm_found *found);

/* Answers each position in turn, up to the end of the shorter array. Returns how
** many it answered: 0 if the handle holds no map. `found[i].found` says whether
** `positions[i]` has a token. The rest of `found` is as it was. Allocates nothing. */
size_t sm_lookup_many(sm_map *map, const sm_position *positions, size_t count, sm_found *found, size_t length);

/* Writes the closest token, as sm_lookup() does, and to `until` the generated
** position of the token after it, or line and column 4294967295 if no token follows.
** The span begins at the position looked up, and ends before `until`. One token is the
** closest to every position of the span. So a caller who looks up positions in order
** may keep this token until the span ends. Only the `original_column` of a range token
** differs from position to position. If several tokens stand at the position looked
** up, `until` is that position, and the span is empty.
** SM_ABSENT if there is no token; SM_WRONG_KIND of an index map, and if the handle
** holds no map. Then `found` and `until` are as they were. Allocates nothing. */
sm_code sm_lookup_span(sm_map *map, uint32_t line, uint32_t column, sm_found *found, sm_position *until);

/* Writes the index of the closest token among the tokens of a map, as sm_tokens()
** counts them. An index above 4294967295 is written as 4294967295. SM_ABSENT if there
** is no token; SM_WRONG_KIND of an index map, and if the handle holds no map. Then
** `index` is as it was. Allocates nothing. */
sm_code sm_lookup_index(sm_map *map, uint32_t line, uint32_t column, uint32_t *index);

/* The source of the closest token. The source is resolved against the `sourceRoot` of
** the token's map. `map` may be of any kind. The text is borrowed from `map`.
** SM_ABSENT if there is no token, or it has no source; SM_WRONG_KIND if the handle
** holds no map. Then `text` is as it was. */
sm_code sm_lookup_source(sm_map *map, uint32_t line, uint32_t column, sm_text *text);

/* The name of the closest token, of a map of any kind. The text is borrowed from
** `map`. SM_ABSENT if there is no token, or it has no name; SM_WRONG_KIND if the
** handle holds no map. Then `text` is as it was. */
sm_code sm_lookup_name(sm_map *map, uint32_t line, uint32_t column, sm_text *text);

/* Fills `text` with the text of the closest token, in the form that sm_token_text()
** writes. `map` may be of any kind. COLUMN is the `original_column` that sm_lookup()
** writes, also for a range token. Returns SM_OK; SM_ABSENT if there is no token;
** SM_WRONG_KIND if the handle holds no map. sm_bytes_text() reads the text. */
sm_code sm_lookup_text(sm_map *map, uint32_t line, uint32_t column, sm_bytes *text, sm_error *error);

/* Fills `text` with the answers to a list of generated positions. Each line of
** `positions` is one, as LINE:COLUMN. Both count from 0 and are at most 4294967295. For
** each line `text` has one answer, and a newline after it. A newline in a source or a
** name stays in the answer. It is the original position, as SOURCE:LINE:COLUMN,
** with ` name=NAME` if there is a name; `none` if the position has no closest token;
** `bad position` if the line is not a position. If the token has no source, SOURCE is
** `<unknown>`. In a map that was opened, LINE and COLUMN of such a token are
** 4294967295. Returns SM_OK, or SM_WRONG_KIND if `map` holds no map. sm_bytes_text()
** reads the answers. */
sm_code sm_trace(sm_map *map, const uint8_t *positions, size_t length, sm_bytes *text, sm_error *error);

/* The name of the function that contains a generated position. The text is borrowed
** from `map`, not from `view`. SM_ABSENT if there is no name.
** A Hermes map has names for positions on line 0 alone. For it the call looks at
** neither `minified` nor `view`. If the functions of the source that the position
** leads to are not in order, the name may be wrong or missing.
** For other maps the name is guessed from the tokens, the generated text in `view`, and
** the minified name of the function. In an index map the name is guessed from the
** tokens of one map: the map that contains the closest token. The text in `view` is
** read at the positions of the tokens in that map: the start of the section is not
** added. The name is guessed even if that map is a Hermes map.
** SM_WRONG_KIND if `map` holds no map, or if `view` holds no view and the map is not a
** Hermes map. SM_UTF8 if the name is to be guessed and `minified` is not UTF-8. */
sm_code sm_function_name(sm_map *map, uint32_t line, uint32_t column, const uint8_t *minified, size_t length,
                         sm_view *view, sm_text *text);

/* Writes to `text` the function name that a Hermes map has for an offset of the
** bytecode. The offset is a generated column of line 0. The text is borrowed from
** `map`. SM_ABSENT if there is no name; SM_WRONG_KIND if the handle holds no Hermes
** map. If the functions of the source that the offset leads to are not in order, the
** name may be wrong or missing. */
sm_code sm_hermes_function_name(sm_map *map, uint32_t offset, sm_text *text);

/* Writes to `text` the name that a Hermes map has for the function that contains an
** original position. `source` is an id. So the position may be that of any token, on
** whichever generated line. The text is borrowed from `map`. SM_ABSENT if there is no
** name; SM_WRONG_KIND if the handle holds no Hermes map. If the functions of the source
** are not in order, the name may be wrong or missing. */
sm_code sm_scope_for(sm_map *map, uint32_t source, uint32_t line, uint32_t column, sm_text *text);

/*
** CHANGE
**
** Each of these changes `map`, and returns SM_OK. If the map is shared it is copied
** first, so that no other handle sees the change. Each returns SM_WRONG_KIND if the
** handle holds no map. If a call reads a text that is not UTF-8, it returns SM_UTF8.
** The library copies the texts that it keeps.
*/

/* Keeps only the sources and names that tokens use, in the order of their first use,
** and the contents of these sources. The sources are resolved against `sourceRoot`.
** Then the root is removed, and so is the ignore list. Removes the names if
** `with_names` is false, the contents if `with_contents` is false. Cuts from each
** source the first of the `count` texts in `prefixes` with which the source begins.
** Before that, a `/` is added to each prefix that does not end with `/`. The prefix `~`
** is tried last. It stands for the common path of the sources that are absolute paths:
** the longest path of whole parts with which each of these sources begins. These are
** the sources before they are resolved, also the unused ones. If only one source is an
** absolute path, the common path is this whole source. If the common path is empty or
** `/`, `~` removes nothing. Sources that resolve to one text become one source. Only
** one of them keeps its contents: in the order of the tokens, the first that has any.
** Sources that become equal only when prefixes are removed stay separate. A Hermes map
** keeps the scopes of the sources that tokens use. If several sources resolve to one
** text, only one of them keeps its scopes: the source of the first token that uses one
** of these sources. SM_UTF8 if a prefix is not UTF-8; SM_WRONG_KIND of an index map,
** and if the handle holds no map. */
sm_code sm_rewrite(sm_map *map, bool with_names, bool with_contents, const sm_text *prefixes, size_t count,
                   sm_error *error);

/* Flattens an index map to a regular map. If a position has a closest token in the
** index map, the regular map gives it the same original position, source and name. One
** condition: in the index map, and in each index map inside of it, each section begins
** before the next one, and all of its tokens are before the start of the next one.
** SM_CANNOT_FLATTEN if a section at any level has no map, if there would be more than
** 4294967295 sources or names, or if the line or the column of a token would pass
** 4294967295; SM_WRONG_KIND if the handle holds no index map. */
sm_code sm_flatten(sm_map *map, sm_error *error);

/* Adjusts a regular map by the regular map `adjustment`. `map` is the map of the first
** step of a tool chain. `adjustment` is the map of the second step, whose input is the
** generated text of the first. Afterwards the generated positions of `map` are in the
** generated text of the second step. `adjustment` does not change. SM_INCOMPATIBLE if
** a token would pass column 4294967295; SM_WRONG_KIND if either handle holds no
** regular map. */
sm_code sm_compose(sm_map *map, sm_map *adjustment, sm_error *error);

/* Moves each section of an index map down by `lines` lines.
** SM_PAST_LIMIT if a section would pass line 4294967295; SM_WRONG_KIND if the handle
** holds no index map. */
sm_code sm_shift(sm_map *map, uint32_t lines, sm_error *error);

/* Setters. `present` says whether a part is set or removed. If it is false, the
** bytes of the text are not read, but the pointer is still not null: pass "" and 0. */

/* Sets or removes the name of the generated file, of a map of any kind. SM_UTF8 if
** `present` is true and the text is not UTF-8; SM_WRONG_KIND if the handle holds no
** map. */
sm_code sm_set_file(sm_map *map, bool present, const uint8_t *text, size_t length, sm_error *error);

/* Sets or removes the `sourceRoot`. Afterwards sources are resolved against the new
** root. Without a root each source stays as the map has it. SM_UTF8 if `present` is
** true and the text is not UTF-8; SM_WRONG_KIND of an index map, and if the handle
** holds no map. */
sm_code sm_set_source_root(sm_map *map, bool present, const uint8_t *text, size_t length, sm_error *error);

/* Sets or removes the debug id, of a map of any kind. `id` is not null, also if
** `present` is false. SM_WRONG_KIND if the handle holds no map. */
sm_code sm_set_debug_id(sm_map *map, bool present, const sm_debug_id *id, sm_error *error);

/* Sets the text that the map has for a source. sm_source() resolves this text against
** `sourceRoot`. SM_UTF8 if the text is not UTF-8; SM_ABSENT if there is no source of
** that id; SM_WRONG_KIND of an index map, and if the handle holds no map. */
sm_code sm_set_source(sm_map *map, uint32_t id, const uint8_t *text, size_t length, sm_error *error);

/* Sets or removes the contents of a source. Contents past the last source are dropped.
** SM_UTF8 if `present` is true and the text is not UTF-8; SM_ABSENT if there is no
** source of that id; SM_WRONG_KIND of an index map, and if the handle holds no map. */
sm_code sm_set_contents(sm_map *map, uint32_t id, bool present, const uint8_t *text, size_t length, sm_error *error);

/* Adds a source to the ignore list; SM_OK also if it is in the list. SM_ABSENT if
** there is no source of that id; SM_WRONG_KIND of an index map, and if the handle
** holds no map. */
sm_code sm_ignore_source(sm_map *map, uint32_t id, sm_error *error);

/* Removes all names. Tokens keep their name ids, which then name nothing.
** SM_WRONG_KIND of an index map, and if the handle holds no map. */
sm_code sm_remove_names(sm_map *map, sm_error *error);

/*
** WRITE
**
** A token on line L is written after L bytes of `;` in `mappings`. L may be 4294967295.
** If the map has a range token, `rangeMappings` has as many bytes of `;` as `mappings`.
** Look at the line of the last token before you write a map from an untrusted origin.
*/

/* Fills `text` with the map as JSON, of a map of any kind. Returns SM_OK, or
** SM_WRONG_KIND if `map` holds no map. sm_bytes_text() reads the JSON. */
sm_code sm_write(sm_map *map, sm_bytes *text, sm_error *error);

/* Fills `text` with a `data:` URL of the map: the JSON of sm_write() in base64.
** Returns SM_OK, or SM_WRONG_KIND if `map` holds no map. */
sm_code sm_write_url(sm_map *map, sm_bytes *text, sm_error *error);

/* The text or the compiled map that sm_write(), sm_compile() or another such call put into
** the handle. It is borrowed from `bytes`. SM_WRONG_KIND if the handle holds no such text;
** then `text` is as it was. */
sm_code sm_bytes_text(sm_bytes *bytes, sm_text *text);

/*
** SECTIONS OF AN INDEX MAP
**
** Sections count from 0; sm_count() writes how many there are.
*/

/* Writes the generated position at which a section begins, whether it has a map, and
** whether it has a URL. SM_ABSENT if there is no such section, SM_WRONG_KIND if the
** handle holds no index map; then `start` is as it was. */
sm_code sm_section_start_of(sm_map *map, uint32_t id, sm_section_start *start);

/* The URL of a section. The text is borrowed from `map`. SM_ABSENT if there is no
** such section, or it has no URL; SM_WRONG_KIND if the handle holds no index map. */
sm_code sm_section_url(sm_map *map, uint32_t id, sm_text *text);

/* Fills `section` with a copy of the map of a section, which may be an index map
** too. Returns SM_OK; SM_ABSENT if there is no such section, or it has no map;
** SM_WRONG_KIND if `map` holds no index map. */
sm_code sm_section(sm_map *map, uint32_t id, sm_map *section, sm_error *error);

/* Fills `sections` with an empty list of sections. sm_sections_add() adds to this list,
** and sm_sections_finish() makes an index map of it. No error but SM_OUT_OF_MEMORY. */
sm_code sm_sections_new(sm_sections *sections, sm_error *error);

/* Changes `sections`: adds a section that begins at this generated position. If
** `has_map` is true, the section has a copy of `map`. If `has_url` is true, it has the
** URL of a map. It may have both or neither. Sections keep the order in which they are
** added. If this is not the order of their positions, a lookup in the index map may
** give a wrong answer or none. The same holds if the index map is in a section of
** another one. If `has_url` is false, the URL is not read. If `has_map` is false, the
** handle `map` may hold anything. The pointers are not null even so. SM_UTF8 if
** `has_url` is true and the URL is not UTF-8; SM_WRONG_KIND if `sections` holds no list
** of sections, or if `has_map` is true and `map` holds no map. */
sm_code sm_sections_add(sm_sections *sections, uint32_t line, uint32_t column, bool has_url, const uint8_t *url,
                        size_t length, bool has_map, sm_map *map, sm_error *error);

/* Fills `map` with the index map of these sections, and changes `sections`: this handle
** is empty afterwards. `file` is the name of the generated file. `offsets` and `paths`
** are for a RAM bundle. Item N of `offsets` is the generated line at which module N
** begins, or SM_NONE if there is no such module. Item N of `paths` is the path of
** module N. All three are optional: if `has_file`, `has_offsets` or `has_paths` is
** false, the index map has no such part. SM_UTF8 if `has_file` is true and the file is
** not UTF-8, or if `has_paths` is true and a path is not UTF-8; SM_WRONG_KIND if
** `sections` holds no list of sections. On SM_OUT_OF_MEMORY `sections` is as it was, or
** empty. If `sections` held no list of sections, `sections` is as it was, whatever the
** call returns. */
sm_code sm_sections_finish(sm_sections *sections, sm_map *map, bool has_file, const uint8_t *file, size_t length,
                           bool has_offsets, const uint32_t *offsets, size_t offset_count, bool has_paths,
                           const sm_text *paths, size_t path_count, sm_error *error);

/*
** BUILD
**
** Each call but sm_builder_source() changes `builder`. sm_builder_add_tokens() returns
** a count, and writes a code to `error` if it fails. Each other call returns a code,
** SM_OK if it succeeds. If the handle holds no builder, each call but sm_builder_new()
** fails. The code is SM_WRONG_KIND, or the code of another error that applies. The
** library copies the texts. Ids count from 0.
*/

/* Fills `builder` with a builder that has no items yet. `has_file` says whether
** `file` is the name of the generated file; if it is false, the bytes are not read.
** SM_UTF8 if the name is not UTF-8. */
sm_code sm_builder_new(sm_builder *builder, bool has_file, const uint8_t *file, size_t length, sm_error *error);

/* Sets or removes the `sourceRoot`. SM_UTF8 if `present` is true and the text is not
** UTF-8; SM_WRONG_KIND if the handle holds no builder. */
sm_code sm_builder_set_source_root(sm_builder *builder, bool present, const uint8_t *text, size_t length,
                                   sm_error *error);

/* Sets or removes the debug id. `id` is not null, also if `present` is false.
** SM_WRONG_KIND if the handle holds no builder. */
sm_code sm_builder_set_debug_id(sm_builder *builder, bool present, const sm_debug_id *id, sm_error *error);

/* Adds a source and writes its id. A source that was added before has the id that
** it had. SM_UTF8 if the text is not UTF-8; SM_INCOMPATIBLE if the source is new and
** there are 4294967295 sources already; SM_WRONG_KIND if the handle holds no builder.
** On each error `id` is as it was. */
sm_code sm_builder_add_source(sm_builder *builder, const uint8_t *text, size_t length, uint32_t *id, sm_error *error);

/* Adds a name and writes its id. A name that was added before has the id that it
** had. SM_UTF8 if the text is not UTF-8; SM_INCOMPATIBLE if the name is new and there
** are 4294967295 names already; SM_WRONG_KIND if the handle holds no builder. On each
** error `id` is as it was. */
sm_code sm_builder_add_name(sm_builder *builder, const uint8_t *text, size_t length, uint32_t *id, sm_error *error);

/* The source of this id, before it is resolved against `sourceRoot`. The text is
** borrowed from `builder`. SM_ABSENT if there is no source of that id; SM_WRONG_KIND
** if the handle holds no builder. */
sm_code sm_builder_source(sm_builder *builder, uint32_t id, sm_text *text);

/* Sets the text that the builder has for a source. sm_source() of the built map
** resolves this text against `sourceRoot`. The builder remembers the text with which
** the source was added. If that text is added again, sm_builder_add_source() writes the
** same id. SM_UTF8 if the text is not UTF-8; SM_ABSENT if there is no source of that
** id; SM_WRONG_KIND if the handle holds no builder. */
sm_code sm_builder_set_source(sm_builder *builder, uint32_t id, const uint8_t *source, size_t length, sm_error *error);

/* Cuts from each source the first of the `count` texts in `prefixes` with which the
** source begins. Before that, a `/` is added to each prefix that does not end with `/`.
** The prefix `~` has no special meaning. The builder remembers the text with which each
** source was added. If such a text is added again, sm_builder_add_source() writes the
** same id. SM_UTF8 if a prefix is not UTF-8; SM_WRONG_KIND if the handle holds no
** builder. */
sm_code sm_builder_strip_prefixes(sm_builder *builder, const sm_text *prefixes, size_t count, sm_error *error);

/* Sets or removes the contents of a source. SM_UTF8 if `present` is true and the
** text is not UTF-8; SM_ABSENT if there is no source of that id; SM_WRONG_KIND if
** the handle holds no builder. */
sm_code sm_builder_set_contents(sm_builder *builder, uint32_t id, bool present, const uint8_t *text, size_t length,
                                sm_error *error);

/* Adds a source to the ignore list; SM_OK also if it is in the list. SM_ABSENT if
** there is no source of that id; SM_WRONG_KIND if the handle holds no builder. */
sm_code sm_builder_ignore_source(sm_builder *builder, uint32_t id, sm_error *error);

/* Adds tokens, in any order. An id that the builder does not have is kept. It names
** nothing until the builder has a source or a name of that id. If a source id other
** than SM_NONE names nothing in the built map, the map can be written, but sm_open()
** refuses the written text: SM_BAD_SOURCE_REFERENCE. Neither the original position nor
** the name of a token without a source is written. Returns how many of the tokens were
** added, counted from the first: all, or fewer if memory ran out, or 0 if the handle
** holds no builder. If it holds a builder and all were added, `error` is as it was.
** Else the code in `error` is SM_OUT_OF_MEMORY or SM_WRONG_KIND. After SM_OUT_OF_MEMORY
** make the call again with the tokens that are not added yet. */
size_t sm_builder_add_tokens(sm_builder *builder, const sm_token *tokens, size_t count, sm_error *error);

/* Fills `map` with the regular map that was built, and empties `builder`. On
** SM_OUT_OF_MEMORY `builder` is empty too, and `map` is as it was. SM_WRONG_KIND if
** `builder` holds no builder. If `builder` held no builder, both handles are as they
** were, whatever the call returns. */
sm_code sm_builder_finish(sm_builder *builder, sm_map *map, sm_error *error);

/*
** GENERATED TEXTS
**
** In a view a line ends with a line feed, with a carriage return, or with a carriage
** return and a line feed. A text has at least one line. The last line ends where the
** text ends, and may be empty. For sm_locate_reference() only a line feed ends a line.
*/

/* Fills `view` with a copy of a text and the table of its lines. Returns SM_OK, or
** SM_UTF8 if the text is not UTF-8. */
sm_code sm_view_open(sm_view *view, const uint8_t *text, size_t length, sm_error *error);

/* The whole text. It is borrowed from `view`. SM_WRONG_KIND if the handle holds no
** view; then `text` is as it was. */
sm_code sm_view_text(sm_view *view, sm_text *text);

/* Writes how many lines the text has. SM_WRONG_KIND if the handle holds no view;
** then `lines` is as it was. */
sm_code sm_view_count(sm_view *view, size_t *lines);

/* A line without its end. The text is borrowed from `view`. SM_ABSENT if there is no
** such line, SM_WRONG_KIND if the handle holds no view. */
sm_code sm_view_line(sm_view *view, uint32_t line, sm_text *text);

/* A slice of a line: `span` UTF-16 units from column `column` on. If it would begin or
** end inside a surrogate pair, it begins or ends after the pair. The text is borrowed
** from `view`. SM_ABSENT if there is no such line, or the slice passes the end of the
** line; SM_WRONG_KIND if the handle holds no view. */
sm_code sm_view_slice(sm_view *view, uint32_t line, uint32_t column, uint32_t span, sm_text *text);

/* Fills `url` with the first reference to a map in a generated text, without
** white space around it; writes to `is_legacy` whether its comment begins with
** `//@`. A line has a reference only if it begins with `//# sourceMappingURL=` or with
** `//@ sourceMappingURL=`. Returns SM_OK; SM_ABSENT if there is none; SM_IO if a line
** is not UTF-8, and no line before it has a reference. On these two `url` and
** `is_legacy` are as they were. */
sm_code sm_locate_reference(const uint8_t *text, size_t length, sm_bytes *url, bool *is_legacy, sm_error *error);

/* Fills `result` with the URL that the reference `url` is resolved to. `base` is the
** URL of the generated text. Returns SM_OK; SM_ABSENT if `url` begins with `data:` in
** lower case, if `base` is no URL, or if `url` cannot be resolved against it; SM_UTF8
** if either is not UTF-8. The call may also return SM_ABSENT if `base` has 2^28 bytes
** or more, or if `url` and the parsed `base` together have 2^28 bytes or more. */
sm_code sm_resolve(const uint8_t *url, size_t length, const uint8_t *base, size_t base_length, sm_bytes *result,
                   sm_error *error);

/* Fills `result` with the path that the reference `url` is resolved to. `base` is the
** path of the generated text. Returns SM_OK; SM_ABSENT if `url` is a `data:` URL, if
** `base` does not begin with `/`, or if `url` leads to no path of a file; SM_UTF8 if
** either is not UTF-8. The call may also return SM_ABSENT if the `file:` URL of `base`
** has 2^28 bytes or more, or if `url` and the parsed `file:` URL together have 2^28
** bytes or more. */
sm_code sm_resolve_path(const uint8_t *url, size_t length, const uint8_t *base, size_t base_length, sm_bytes *result,
                        sm_error *error);

/* Fills `path` with the path that leads from the folder of the file `base` to
** the file `target`. Both `/` and `\` separate parts. Parts are compared as they are
** written. Both paths must start from the same folder, for example from `/`. No part of
** the folder of `base` may be `.` or `..`. Otherwise the result may lead to another
** file. Returns SM_OK, or SM_UTF8 if either is not UTF-8. */
sm_code sm_relative_path(const uint8_t *base, size_t base_length, const uint8_t *target, size_t target_length,
                         sm_bytes *path, sm_error *error);

/*
** SEGMENTS
**
** A segment of `mappings` is a list of numbers, each of one or more digits. sm_open()
** reads all segments of a map, and sm_write() writes them. Each call below works on one
** segment.
*/

/* Writes the numbers of a segment to `numbers`, but at most the first `capacity`.
** Writes to `count` how many numbers the segment has. So with a `capacity` of 0 the
** call only counts. A segment has no more numbers than bytes. The rest of `numbers` is
** as it was. Returns SM_UTF8 if the segment is not UTF-8. Otherwise returns SM_OK, or
** the first error from the left: SM_INVALID_BASE64 if a byte is no digit,
** SM_VLQ_OVERFLOW if a number has a magnitude of 2^62 or more, or more than 13 digits,
** SM_VLQ_LEFTOVER if the segment ends within a number, SM_VLQ_NO_VALUES if the segment
** is empty. On each error `numbers` and `count` are as they were. */
sm_code sm_parse_segment(const uint8_t *segment, size_t length, int64_t *numbers, size_t capacity, size_t *count,
                         sm_error *error);

/* Fills `text` with the segment of these numbers. Each number has as few digits as
** possible. If `count` is 0, the segment is the empty text. Returns SM_OK, or
** SM_VLQ_OVERFLOW if the magnitude of a number is 2^62 or more. sm_bytes_text() reads
** the segment. */
sm_code sm_write_segment(const int64_t *numbers, size_t count, sm_bytes *text, sm_error *error);

/*
** DEBUG IDS
*/

/* Fills `text` with the text of a debug id: 32 hexadecimal digits in lower case, with
** four hyphens. No error but SM_OUT_OF_MEMORY. sm_bytes_text() reads the text. */
sm_code sm_debug_id_text(const sm_debug_id *id, sm_bytes *text, sm_error *error);

/* Writes the debug id that a text stands for: 32 hexadecimal digits of either case, or
** these with a hyphen after digits 8, 12, 16 and 20. Returns SM_OK, or SM_ABSENT of any
** other text; then `id` is as it was. Allocates nothing. */
sm_code sm_parse_debug_id(const uint8_t *text, size_t length, sm_debug_id *id);

/*
** RAM BUNDLES
*/

/* Fills `bundle` with an indexed RAM bundle, whose bytes are copied. Returns SM_OK;
** SM_RANGE below 12 bytes; SM_INVALID_BUNDLE_MAGIC of bytes that do not begin with
** the magic number. */
sm_code sm_bundle_open(sm_bundle *bundle, const uint8_t *bytes, size_t length, sm_error *error);

/* Writes how many module numbers the bundle has. A number without a module counts too.
** SM_WRONG_KIND if the handle holds no bundle; then `modules` is as it was. */
sm_code sm_bundle_count(sm_bundle *bundle, size_t *modules);

/* The startup code. The bytes are borrowed from `bundle`, and need not be UTF-8.
** SM_RANGE if the code passes the end of the bundle; SM_WRONG_KIND if the handle
** holds no bundle. Then `bytes` is as it was. */
sm_code sm_bundle_startup(sm_bundle *bundle, sm_text *bytes, sm_error *error);

/* The bytes of a module, without the last byte. The last byte should be 0, but is not
** checked. The bytes are borrowed from `bundle`, and need not be UTF-8. SM_ABSENT if
** the module of that number is missing: the entry has offset 0 and length 0.
** SM_INVALID_BUNDLE_INDEX if the number is past the last, SM_RANGE if the entry, or the
** module without its last byte, passes the end of the bundle, SM_INVALID_BUNDLE_ENTRY
** if the entry has length 0 and an offset other than 0, SM_WRONG_KIND if the handle
** holds no bundle. On each of these `bytes` is as it was. */
sm_code sm_bundle_module(sm_bundle *bundle, size_t id, sm_text *bytes, sm_error *error);

/* Fills `split` with a flat copy of `index`, the index map of a bundle, and with the lines
** at which the modules of the bundle begin. sm_split_map() then makes the map of one
** module after another. Returns SM_OK; SM_NOT_A_BUNDLE if the index map has no list of
** lines; SM_CANNOT_FLATTEN if sm_flatten() would return it for `index`; SM_WRONG_KIND
** if `index` holds no index map. */
sm_code sm_split_open(sm_split *split, sm_map *index, sm_error *error);

/* Fills `map` with the map of module `id` of a bundle. The tokens are those of the flat map
** on the lines of the module, counted from its first line. sm_file() of `map` is the name
** of the module: its number and `.js`. sm_bundle_module() has its text. SM_ABSENT if the
** module is missing, or if the index map has null instead of the module's line.
** sm_sections_finish() and sm_module_offsets() use SM_NONE for null.
** SM_INVALID_BUNDLE_ENTRY if the module is invalid, whatever the reason:
** sm_bundle_module() returns an error for it, its text is not UTF-8, its number is past
** the end of the list of lines, or the flat map has no token at or before the start of its
** first line. SM_WRONG_KIND if `split` was not filled by sm_split_open(), or `bundle` holds
** no bundle. `split` is as it was, whatever the call returns. */
sm_code sm_split_map(sm_split *split, sm_bundle *bundle, size_t id, sm_map *map, sm_error *error);

/*
** COMPILED MAPS
**
** A compiled map is bytes that sm_compile() makes of a map. The other calls look into
** such bytes where they lie, for example in mapped memory. They take no handle, allocate
** nothing, keep nothing, and write nothing but their results. So any number of threads
** may make them at once with the same bytes, without synchronisation, as long as nobody
** changes the bytes. A text that they write points into the bytes.
**
** Each call checks the header first, in the same time for any bytes. If they are no
** compiled map, it writes nothing and returns why: SM_COMPILED_TRUNCATED,
** SM_COMPILED_MAGIC, SM_COMPILED_VERSION or SM_COMPILED_EXTENT. The rest is read as it is:
** no call reads outside of the bytes, whatever they are. If their tokens are not sorted, a
** lookup finds a token next to the position, which need not be the closest one. What
** sm_compile() made is sorted, and all its texts are UTF-8. sm_compiled_verify() tells it of
** other bytes.
*/

/* Fills `bytes` with the compiled map, which sm_bytes_text() reads. It has the tokens, the
** names, the file, the debug id, the sources, resolved against `sourceRoot`, the contents
** if `with_contents` is true, and of a Hermes map the function of each token. An index map
** is compiled as sm_flatten() flattens it. Equal maps give equal bytes. Returns SM_OK;
** SM_CANNOT_FLATTEN if sm_flatten() would return it; SM_INCOMPATIBLE if there would be
** 2^32 bytes or tokens, or more; SM_WRONG_KIND if `map` holds no map. */
sm_code sm_compile(sm_map *map, bool with_contents, sm_bytes *bytes, sm_error *error);

/* Checks the header alone. Returns SM_OK, or why the bytes are no compiled map. */
sm_code sm_compiled_check(const uint8_t *bytes, size_t length);

/* Checks all bytes, in a time that grows with them. Returns SM_OK; why they are no compiled
** map; SM_COMPILED_ORDER if their tokens are not sorted; otherwise SM_COMPILED_TEXT or
** SM_UTF8 for the first text that cannot be read. After SM_OK no call returns one of these
** three, and lookups find the closest token. */
sm_code sm_compiled_verify(const uint8_t *bytes, size_t length);

/* Writes how many tokens, sources and names there are. The other counts are 0. */
sm_code sm_compiled_count(const uint8_t *bytes, size_t length, sm_counts *counts);

/* Writes the debug id. SM_ABSENT if there is none; then `id` is as it was. */
sm_code sm_compiled_debug_id(const uint8_t *bytes, size_t length, sm_debug_id *id);

/* Writes the closest token, as sm_lookup() does. SM_ABSENT if there is none; then `found`
** is as it was. */
sm_code sm_compiled_lookup(const uint8_t *bytes, size_t length, uint32_t line, uint32_t column, sm_found *found);

/* Answers each position in turn, as sm_lookup_many() does. Returns how many it answered:
** 0 if the bytes are no compiled map. */
size_t sm_compiled_lookup_many(const uint8_t *bytes, size_t length, const sm_position *positions, size_t count,
                               sm_found *found, size_t found_length);

/* Writes the token of this index, from 0, in the order of the bytes, with true as its
** `found`. SM_ABSENT if there are no more tokens; then `found` is as it was. */
sm_code sm_compiled_token(const uint8_t *bytes, size_t length, uint32_t index, sm_found *found);

/* The name of the function that contains the original position of the closest token, of a
** Hermes map that was compiled. SM_ABSENT if there is no token, or the token has no
** function. Else, and on an error, as sm_compiled_source(). */
sm_code sm_compiled_scope(const uint8_t *bytes, size_t length, uint32_t line, uint32_t column, sm_text *text);

/* The source of this id. SM_ABSENT if there is no source of that id; SM_COMPILED_TEXT if
** its text ends before it begins, or past the end of the bytes; SM_UTF8 if it is not UTF-8.
** Then `text` is as it was. */
sm_code sm_compiled_source(const uint8_t *bytes, size_t length, uint32_t id, sm_text *text);

/* The name of this id. Returns the codes of sm_compiled_source(). */
sm_code sm_compiled_name(const uint8_t *bytes, size_t length, uint32_t id, sm_text *text);

/* The contents of the source of this id. Returns the codes of sm_compiled_source(). */
sm_code sm_compiled_contents(const uint8_t *bytes, size_t length, uint32_t id, sm_text *text);

/* The name of the generated file. Returns the codes of sm_compiled_source(). */
sm_code sm_compiled_file(const uint8_t *bytes, size_t length, sm_text *text);

/*
** CHECKS
**
** A check reads any bytes, and reports each place where they break a rule of ECMA-426, the
** standard of source maps: docs/CHECK.md has the rules, and the order of findings. A report
** is read finding by finding. No call on a report allocates.
*/

/* Fills `report` with what is found in the bytes, which are not kept. The report has at
** most `most` findings of each code, the first ones, and counts all; 0 counts as 1. Only in
** a valid map is looked for what looks wrong, in an index map as sm_flatten() makes it. If
** `has_generated` is true, `generated` is the generated text, and a valid map is compared
** with it too; else it is not read. Returns SM_OK, also if the bytes are no map; SM_UTF8 if
** `has_generated` is true and the generated text is not UTF-8. */
sm_code sm_check(sm_report *report, const uint8_t *bytes, size_t length, bool has_generated,
                 const uint8_t *generated, size_t generated_length, uint32_t most, sm_error *error);

/* As sm_check(), but compares a valid map also with its name and the files of its sources.
** `name` is the name of the map's file, without folders; there is none if `name_length` is 0.
** The reference of the generated text is to end in it (SM225). If `has_files` is true,
** `files[i]` has the bytes of the file of the source that sm_source() returns for the id i, of
** an index map after sm_flatten(); else `files` is not read. A source has no file if the bytes are not UTF-8, as those of
** SM_NO_FILE, or if `count` is not above its id. Original positions are looked at in the
** contents that the map has for their source, else in its file. With files, finds SM226 and
** SM227 in place of SM214. Neither name nor files are kept. Returns the codes of sm_check();
** SM_UTF8 also if the name is not UTF-8. */
sm_code sm_check_files(sm_report *report, const uint8_t *bytes, size_t length, bool has_generated,
                       const uint8_t *generated, size_t generated_length, const uint8_t *name, size_t name_length,
                       bool has_files, const sm_text *files, size_t count, uint32_t most, sm_error *error);

/* Writes how many findings there are. `invalid` is 0 exactly if the bytes are a valid map.
** Counts stop at 2^64 - 1. SM_WRONG_KIND if the handle holds no report; then `counts` is
** as it was. */
sm_code sm_report_count(sm_report *report, sm_report_counts *counts);

/* Writes the finding of this index, from 0. SM_ABSENT if there are no more findings,
** SM_WRONG_KIND if the handle holds no report; then `finding` is as it was. */
sm_code sm_report_finding(sm_report *report, uint32_t index, sm_finding *finding);

/* Writes the indexes of the sections that lead to the map that a finding is in, the
** outermost first, to `sections`, but at most the first `capacity`. Writes to `count` how
** many they are: 0 for the whole map. The rest of `sections` is as it was. SM_ABSENT and
** SM_WRONG_KIND as sm_report_finding(); then `sections` and `count` are as they were. */
sm_code sm_report_sections(sm_report *report, uint32_t index, size_t *sections, size_t capacity, size_t *count);

/* The key of the map that a finding is on, for example `mappings` or
** `sections[1].offset.line`; empty if it is on no key, as if the bytes are no JSON object.
** The text is borrowed from `report`. Returns the codes of sm_report_finding(). */
sm_code sm_report_key(sm_report *report, uint32_t index, sm_text *text);

/* A sentence in English that says how the rule is broken, or what looks wrong, without the
** place. The text is borrowed from `report`. Returns the codes of sm_report_finding(). */
sm_code sm_report_sentence(sm_report *report, uint32_t index, sm_text *text);

#ifdef __cplusplus
}
#endif

#endif
