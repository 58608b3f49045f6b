/* findings MAP FOLDER NAME [GENERATED]: prints what a check finds in MAP, beside the generated text, the name of the map's
** file and the files of sources in FOLDER, as `./sourcemap check` does. FOLDER and NAME may be empty. What it reads is not
** freed before it ends. */
#include <sourcemap.h>
#include <stdio.h>
#include <stdlib.h>
#include <string.h>

#define MOST_SOURCES 64

/* The bytes of a file, SM_NO_FILE if there is none. */
static sm_text read_file(const char *path)
{
    sm_text text = SM_NO_FILE;
    FILE *file = fopen(path, "rb");
    size_t size = 1 << 24, length;
    uint8_t *bytes = malloc(size);
    if (!file || !bytes)
        return text;
    length = fread(bytes, 1, size, file);
    if (!ferror(file)) {
        text.at = bytes;
        text.length = length;
    }
    fclose(file);
    return text;
}

/* The files of the sources of a map, and how many there are. No name of these maps leads out of the folder. */
static size_t read_files(sm_text bytes, const char *folder, sm_text *files)
{
    sm_map map = SM_EMPTY;
    sm_error error = { 0 };
    sm_text name = SM_TEXT_EMPTY;
    char path[4096];
    uint32_t id = 0;
    if (sm_open(&map, bytes.at, bytes.length, &error) == SM_OK && sm_kind(&map) == SM_KIND_INDEX)
        sm_flatten(&map, &error);
    for (; id < MOST_SOURCES && sm_source(&map, id, &name) == SM_OK; id++) {
        snprintf(path, sizeof path, "%s/%.*s", folder, (int)name.length, (const char *)name.at);
        files[id] = read_file(path);
    }
    sm_close(&map);
    return id;
}

static sm_code check(sm_report *report, sm_text map, const char *folder, const char *name, const char *generated,
                     sm_error *error)
{
    sm_text files[MOST_SOURCES] = { SM_TEXT_EMPTY }, text = read_file(generated ? generated : "");
    size_t count;
    if (!*folder && !*name)
        return sm_check(report, map.at, map.length, generated != NULL, text.at, text.length, 20, error);
    count = *folder ? read_files(map, folder, files) : 0;
    return sm_check_files(report, map.at, map.length, generated != NULL, text.at, text.length, (const uint8_t *)name,
                          strlen(name), *folder != 0, files, count, 20, error);
}

static void print_sections(sm_report *report, uint32_t index)
{
    size_t sections[64] = { 0 }, count = 0, at;
    sm_report_sections(report, index, sections, 64, &count);
    for (at = 0; at < count && at < 64; at++)
        printf("sections[%lu].map.", (unsigned long)sections[at]);
}

static void print_position(const sm_finding *found)
{
    if (found->place == SM_PLACE_SEGMENT)
        printf(" %lu:%lu", (unsigned long)found->line, (unsigned long)found->index);
    if (found->place == SM_PLACE_TOKEN)
        printf(" at %lu:%lu", (unsigned long)found->line, (unsigned long)found->index);
    if (found->place == SM_PLACE_SHIFT)
        printf(" by %ld:%ld", (long)found->lines, (long)found->columns);
}

static void print_finding(sm_report *report, uint32_t index, const sm_finding *found)
{
    sm_text key = SM_TEXT_EMPTY, sentence = SM_TEXT_EMPTY;
    sm_report_key(report, index, &key);
    sm_report_sentence(report, index, &sentence);
    printf("MAP:");
    print_sections(report, index);
    printf("%.*s", (int)key.length, (const char *)key.at);
    print_position(found);
    printf(": SM%lu %.*s\n", (unsigned long)found->code, (int)sentence.length, (const char *)sentence.at);
}

int main(int count, char **words)
{
    sm_report report = SM_EMPTY;
    sm_error error = { 0 };
    sm_finding found = { 0 };
    sm_report_counts counts = { 0 };
    uint32_t index;
    if (count < 4)
        return 2;
    if (check(&report, read_file(words[1]), words[2], words[3], count > 4 ? words[4] : NULL, &error) != SM_OK) {
        fprintf(stderr, "%s: %s\n", words[1], (const char *)error.text);
        return 2;
    }
    for (index = 0; sm_report_finding(&report, index, &found) == SM_OK; index++)
        print_finding(&report, index, &found);
    sm_report_count(&report, &counts);
    printf("%lu invalid, %lu suspicious, %lu shown\n", (unsigned long)counts.invalid, (unsigned long)counts.suspicious,
           (unsigned long)counts.findings);
    sm_close(&report);
    return counts.invalid > 0;
}
