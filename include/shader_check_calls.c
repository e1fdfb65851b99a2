/* The functions of shader_check.h over those that Rattle exports, to which no pointer may be null. */
#include "shader_check.h"

typedef uint32_t inner(const uint8_t *, size_t, uint8_t *, size_t, size_t *);

inner shader_check_c_text, shader_check_c_json, shader_check_c_leaves;
inner shader_check_c_spirv_text, shader_check_c_spirv_json, shader_check_c_spirv_leaves, shader_check_c_spirv_document;
inner shader_check_c_wgsl_text, shader_check_c_wgsl_json, shader_check_c_wgsl_leaves, shader_check_c_wgsl_document;
uint32_t shader_check_c_version(void);

/* A call with a place of its own for each pointer that is null. */
static uint32_t call(inner *check, const uint8_t *given, size_t length, uint8_t *text, size_t capacity, size_t *needed)
{
    static const uint8_t nothing;
    uint8_t no_room;
    size_t unwanted;
    return check(given ? given : &nothing, given ? length : 0, text ? text : &no_room, text ? capacity : 0, needed ? needed : &unwanted);
}

uint32_t shader_check(const uint8_t *document, size_t length, uint8_t *text, size_t capacity, size_t *needed)
{
    return call(shader_check_c_text, document, length, text, capacity, needed);
}

uint32_t shader_check_json(const uint8_t *document, size_t length, uint8_t *text, size_t capacity, size_t *needed)
{
    return call(shader_check_c_json, document, length, text, capacity, needed);
}

uint32_t shader_check_leaves(const uint8_t *document, size_t length, uint8_t *text, size_t capacity, size_t *needed)
{
    return call(shader_check_c_leaves, document, length, text, capacity, needed);
}

uint32_t shader_check_spirv(const uint8_t *spirv, size_t length, uint8_t *text, size_t capacity, size_t *needed)
{
    return call(shader_check_c_spirv_text, spirv, length, text, capacity, needed);
}

uint32_t shader_check_spirv_json(const uint8_t *spirv, size_t length, uint8_t *text, size_t capacity, size_t *needed)
{
    return call(shader_check_c_spirv_json, spirv, length, text, capacity, needed);
}

uint32_t shader_check_spirv_leaves(const uint8_t *spirv, size_t length, uint8_t *text, size_t capacity, size_t *needed)
{
    return call(shader_check_c_spirv_leaves, spirv, length, text, capacity, needed);
}

uint32_t shader_check_spirv_document(const uint8_t *spirv, size_t length, uint8_t *text, size_t capacity, size_t *needed)
{
    return call(shader_check_c_spirv_document, spirv, length, text, capacity, needed);
}

uint32_t shader_check_wgsl(const uint8_t *wgsl, size_t length, uint8_t *text, size_t capacity, size_t *needed)
{
    return call(shader_check_c_wgsl_text, wgsl, length, text, capacity, needed);
}

uint32_t shader_check_wgsl_json(const uint8_t *wgsl, size_t length, uint8_t *text, size_t capacity, size_t *needed)
{
    return call(shader_check_c_wgsl_json, wgsl, length, text, capacity, needed);
}

uint32_t shader_check_wgsl_leaves(const uint8_t *wgsl, size_t length, uint8_t *text, size_t capacity, size_t *needed)
{
    return call(shader_check_c_wgsl_leaves, wgsl, length, text, capacity, needed);
}

uint32_t shader_check_wgsl_document(const uint8_t *wgsl, size_t length, uint8_t *text, size_t capacity, size_t *needed)
{
    return call(shader_check_c_wgsl_document, wgsl, length, text, capacity, needed);
}

uint32_t shader_check_version(void)
{
    return shader_check_c_version();
}
