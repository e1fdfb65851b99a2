/* Judges the document in each file that is named, as ./shader-check does; with --json, --leaves, --spirv, --wgsl or --document in front as
 * that does with them. --version prints the library's version. */
#include "shader_check.h"

#include <stdio.h>
#include <stdlib.h>
#include <string.h>

/* The bytes of a file, or a null pointer. */
static uint8_t *bytes_of(const char *name, size_t *length)
{
    FILE *file = fopen(name, "rb");
    if (!file)
        return NULL;
    size_t room = 1 << 16;
    uint8_t *bytes = malloc(room);
    *length = 0;
    while (bytes) {
        *length += fread(bytes + *length, 1, room - *length, file);
        if (*length < room)
            break;
        uint8_t *more = realloc(bytes, room *= 2);
        if (!more)
            free(bytes);
        bytes = more;
    }
    if (bytes && ferror(file)) {
        free(bytes);
        bytes = NULL;
    }
    fclose(file);
    return bytes;
}

typedef uint32_t call(const uint8_t *, size_t, uint8_t *, size_t, size_t *);

/* What the words in front say. */
struct wanted {
    int is_spirv, is_wgsl, is_json, is_leaves, is_document;
};

/* Takes a word, and says whether it is one. */
static int take_word(struct wanted *wanted, const char *word)
{
    if (strcmp(word, "--spirv") == 0)
        wanted->is_spirv = 1;
    else if (strcmp(word, "--wgsl") == 0)
        wanted->is_wgsl = 1;
    else if (strcmp(word, "--json") == 0)
        wanted->is_json = 1;
    else if (strcmp(word, "--leaves") == 0)
        wanted->is_leaves = 1;
    else if (strcmp(word, "--document") == 0)
        wanted->is_document = 1;
    else
        return 0;
    return 1;
}

/* The calls by what is judged, a document, SPIR-V or WGSL, and by what is written. A document is not written. */
static call *const calls[3][4] = {
    {shader_check, shader_check_json, shader_check_leaves, shader_check},
    {shader_check_spirv, shader_check_spirv_json, shader_check_spirv_leaves, shader_check_spirv_document},
    {shader_check_wgsl, shader_check_wgsl_json, shader_check_wgsl_leaves, shader_check_wgsl_document},
};

/* The call for them. --document says that SPIR-V is judged, where it has no --wgsl beside it. */
static call *call_for(const struct wanted *wanted)
{
    int kind = wanted->is_wgsl ? 2 : wanted->is_spirv || wanted->is_document;
    return calls[kind][wanted->is_document ? 3 : wanted->is_json ? 1 : wanted->is_leaves ? 2 : 0];
}

/* Judges a document, a module of SPIR-V or a text of WGSL. First without room for the text, which says how much it takes. */
static uint32_t judge(call *check, const uint8_t *bytes, size_t length, uint8_t **text, size_t *needed)
{
    uint32_t status = check(bytes, length, NULL, 0, needed);
    *text = NULL;
    if (status == SHADER_CHECK_NO_MEMORY)
        return status;
    *text = malloc(*needed);
    return *text ? check(bytes, length, *text, *needed, NULL) : SHADER_CHECK_NO_MEMORY;
}

int main(int count, char **names)
{
    if (count > 1 && strcmp(names[1], "--version") == 0) {
        uint32_t version = shader_check_version();
        printf("%u.%u.%u\n", version >> 16, version >> 8 & 255, version & 255);
        return version != SHADER_CHECK_VERSION_NUMBER;
    }
    uint32_t worst = SHADER_CHECK_ACCEPTED;
    struct wanted wanted = {0, 0, 0, 0, 0};
    int at = 1;
    while (at < count && take_word(&wanted, names[at]))
        at++;
    for (; at < count; at++) {
        size_t length, needed;
        uint8_t *text, *bytes = bytes_of(names[at], &length);
        if (!bytes) {
            fprintf(stderr, "%s cannot be read\n", names[at]);
            return 125;
        }
        uint32_t status = judge(call_for(&wanted), bytes, length, &text, &needed);
        if (text) {
            fwrite(text, 1, needed, stdout);
            if (needed && text[needed - 1] != '\n')
                putchar('\n');
        } else
            fputs("fault: memory\n", stderr);
        if (status > worst)
            worst = status;
        free(text);
        free(bytes);
    }
    return (int)worst;
}
