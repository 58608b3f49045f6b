/* The maps, texts and bundles that the tests are about. */
#ifndef INPUTS_H
#define INPUTS_H

#include "check.h"

/* Nine tokens of one source:
**   0:0  from 0:0          0:8  from 1:0          0:17 from 1:12
**   0:3  from 0:4  x       0:12 from 1:4  x       0:18 from 2:2  alert
**   0:6  from 0:8          0:15 from 1:9          0:24 from 2:8 */
#define README_MAPPINGS "AAAA,GAAIA,GAAI,EACR,IAAIA,GAAK,EAAG,CACVC,MAAM"
#define README_MAP \
    "{\"mappings\":\"" README_MAPPINGS "\",\"names\":[\"x\",\"alert\"],\"sources\":[\"coolstuff.js\"],\"version\":3}"

/* A text that has all its generated positions. */
#define README_TEXT "varx=1,f =  x;  ;;alert(x)"

#define README_MAP_FINDINGS "SM214 1 sources[0] 0:0 the map has no contents for the source\n"

/* Every part that a regular map can have. Its tokens: 0:0 from 0:0 of source 0, a range token 0:4 from 1:2 of
** source 1 with name 0, and 1:2 without a source. */
#define FULL_MAP \
    "{\"debugId\":\"00000000-0000-0000-0000-00000000002a\",\"file\":\"out.js\",\"ignoreList\":[1]," \
    "\"mappings\":\"AAAA,ICCEA;E\",\"names\":[\"n\"],\"rangeMappings\":\"C;\",\"sourceRoot\":\"root\"," \
    "\"sources\":[\"a.js\",\"/b.js\"],\"sourcesContent\":[\"let a;\",null],\"version\":3}"

/* Sections at 0:0 and at 10:4, each with one token at its start. */
#define INDEX_MAP \
    "{\"file\":\"all.js\",\"sections\":[{\"map\":{\"mappings\":\"AAAA\",\"names\":[],\"sources\":[\"a.js\"]," \
    "\"version\":3},\"offset\":{\"column\":0,\"line\":0},\"url\":null},{\"map\":{\"mappings\":\"AAAA\",\"names\":[]," \
    "\"sources\":[\"b.js\"],\"version\":3},\"offset\":{\"column\":4,\"line\":10},\"url\":null}],\"sources\":null," \
    "\"version\":3}"
#define INDEX_MAP_FLAT \
    "{\"file\":\"all.js\",\"mappings\":\"AAAA;;;;;;;;;;ICAA\",\"names\":[],\"sources\":[\"a.js\",\"b.js\"]," \
    "\"version\":3}"
#define INDEX_MAP_SHIFTED_BY_2 \
    "{\"file\":\"all.js\",\"sections\":[{\"map\":{\"mappings\":\"AAAA\",\"names\":[],\"sources\":[\"a.js\"]," \
    "\"version\":3},\"offset\":{\"column\":0,\"line\":2},\"url\":null},{\"map\":{\"mappings\":\"AAAA\",\"names\":[]," \
    "\"sources\":[\"b.js\"],\"version\":3},\"offset\":{\"column\":4,\"line\":12},\"url\":null}],\"sources\":null," \
    "\"version\":3}"

/* A section with a URL and no map. */
#define LINKED_MAP "{\"sections\":[{\"offset\":{\"line\":0,\"column\":3},\"url\":\"u\"}]}"

/* The function <global> from 1:0 of its source on, foo from 2:5 on (lines from 1). */
#define HERMES_MAP \
    "{\"mappings\":\"AAAA,KACK\",\"names\":[],\"sources\":[\"a.js\"],\"version\":3," \
    "\"x_facebook_sources\":[[{\"mappings\":\"AAA,KCC\",\"names\":[\"<global>\",\"foo\"]}]]}"

/* The regular map in it. */
#define HERMES_MAP_REGULAR "{\"mappings\":\"AAAA,KACK\",\"names\":[],\"sources\":[\"a.js\"],\"version\":3}"

/* Tokens at 0:1 from 0:0, at 0:2 from 1:0 and from 2:0, at 0:4 from 3:0, and at 1:2 from 4:0. */
#define DOUBLED_MAP "{\"version\":3,\"sources\":[\"a.js\"],\"mappings\":\"CAAA,CACA,AACA,EACA;EACA\"}"

/* The index map of BUNDLE: module 0 begins on line 5. */
#define BUNDLE_MAP \
    "{\"sections\":[{\"map\":{\"mappings\":\";;;;;AAAA,EAAE;AAAA\",\"names\":[],\"sources\":[\"a.js\"],\"version\":3}," \
    "\"offset\":{\"column\":0,\"line\":0},\"url\":null}],\"version\":3,\"x_facebook_offsets\":[5]}"

/* Its section has a map with a segment that ends within a number. */
#define INVALID_MAP \
    "{\"version\":3,\"sections\":[{\"offset\":{\"line\":0,\"column\":0}," \
    "\"map\":{\"version\":3,\"sources\":[],\"mappings\":\";g\"}}]}"
/* as describe() prints what is found */
#define INVALID_MAP_FINDINGS "SM132 0 0.mappings 1:0 the segment ends within a number\n"

/* One module, `xyz`, and the startup code `ab`. */
#define BUNDLE \
    "\xe5\xd1\x0b\xfb\x01\x00\x00\x00\x02\x00\x00\x00\x02\x00\x00\x00\x04\x00\x00\x00" \
    "abxyz\x00"

/* Three modules: `a`, a missing one, and one whose entry has no length. */
#define ODD_BUNDLE \
    "\xe5\xd1\x0b\xfb\x03\x00\x00\x00\x00\x00\x00\x00" \
    "\x00\x00\x00\x00\x02\x00\x00\x00\x00\x00\x00\x00\x00\x00\x00\x00\x01\x00\x00\x00\x00\x00\x00\x00" \
    "a\x00"

/* The index map of ODD_BUNDLE. A split has an item for module 0, and an invalid one for module 2. */
#define ODD_BUNDLE_MAP \
    "{\"sections\":[{\"offset\":{\"line\":0,\"column\":0},\"map\":{\"sources\":[\"a.js\"],\"mappings\":\"AAAA\"}}]," \
    "\"x_facebook_offsets\":[0,1,2]}"

/* The bytes 01 23 .. ef, twice. */
#define DEBUG_ID "01234567-89ab-cdef-0123-456789abcdef"
#define DEBUG_ID_BYTES \
    { 0x01, 0x23, 0x45, 0x67, 0x89, 0xab, 0xcd, 0xef, 0x01, 0x23, 0x45, 0x67, 0x89, 0xab, 0xcd, 0xef }

#define OPEN(handle, map) open_map((handle), BYTES(map))

/* Fills `map`, and checks that it is filled. */
void open_map(sm_map *map, const uint8_t *bytes, size_t length);

/* The same of a text that ends with a zero byte. */
void open_text(sm_map *map, const char *json);

/* A literal as a text. */
sm_text text_of(const char *literal);

#endif
