#include "inputs.h"

#include <string.h>

void open_map(sm_map *map, const uint8_t *bytes, size_t length)
{
    sm_error error = { 0 };
    CHECK_NUMBER(sm_open(map, bytes, length, &error), SM_OK);
}

void open_text(sm_map *map, const char *json)
{
    open_map(map, (const uint8_t *)json, strlen(json));
}

sm_text text_of(const char *literal)
{
    sm_text text;
    text.at = (const uint8_t *)literal;
    text.length = strlen(literal);
    return text;
}
