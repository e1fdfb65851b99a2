/* The check of a shader module, in process. docs/FORMAT.md tells what a document is and what the text says. */
#ifndef SHADER_CHECK_H
#define SHADER_CHECK_H

#include <stddef.h>
#include <stdint.h>

#ifdef __cplusplus
extern "C" {
#endif

/* The version of this header, and what shader_check_version() of a library of the same version answers. */
#define SHADER_CHECK_VERSION "0.1.0"
#define SHADER_CHECK_VERSION_MAJOR 0
#define SHADER_CHECK_VERSION_MINOR 1
#define SHADER_CHECK_VERSION_PATCH 0
#define SHADER_CHECK_VERSION_NUMBER (SHADER_CHECK_VERSION_MAJOR << 16 | SHADER_CHECK_VERSION_MINOR << 8 | SHADER_CHECK_VERSION_PATCH)

enum {
    SHADER_CHECK_ACCEPTED = 0,
    SHADER_CHECK_REFUSED = 1,
    SHADER_CHECK_NO_MEMORY = 2,
    SHADER_CHECK_UNREAD = 3
};

/* The version of the library that is linked, as a number of the form of SHADER_CHECK_VERSION_NUMBER. */
uint32_t shader_check_version(void);

/* Judges the document in the `length` bytes at `document`, and writes the text of the verdict and of the report to `text`: as many
 * of its bytes as the `capacity` bytes there hold, without a 0 at its end. `*needed` is then the length of the whole text in bytes,
 * so that a caller with too little room can call again with as much.
 *
 * Answers SHADER_CHECK_ACCEPTED, SHADER_CHECK_REFUSED, or SHADER_CHECK_NO_MEMORY where memory was refused: then `text` is as it was
 * and `*needed` is 0.
 *
 * `text` may be null where no text is wanted, and `needed` where its length is not; `document` may be null where it has no bytes, and
 * is judged as having none. The bytes of `document`, `text` and `needed` are apart. It keeps nothing between calls, and may be called
 * from several threads at a time, but from no signal handler. Its memory comes from the three functions of shader_check_heap.h. */
uint32_t shader_check(const uint8_t *document, size_t length, uint8_t *text, size_t capacity, size_t *needed);

/* The same, but that the text is one JSON object without an end of a line, as docs/answer.schema.json says: the verdict, of a refused
 * document the step, the item, the path to the part that is at fault, the error and the reason in words, of an accepted one the report
 * as data. */
uint32_t shader_check_json(const uint8_t *document, size_t length, uint8_t *text, size_t capacity, size_t *needed);

/* The same, but that after the verdict of an accepted document stands a line for each buffer, each with those of the numbers, vectors and
 * matrices in it: ./shader-check --leaves. What lies at one place in each element of an array has one line. Types that nest deeper than 255
 * and more than 16 MiB of lines are not listed: SHADER_CHECK_NO_MEMORY. */
uint32_t shader_check_leaves(const uint8_t *document, size_t length, uint8_t *text, size_t capacity, size_t *needed);

/* Judges the module of SPIR-V in the `length` bytes at `spirv`, in either order of bytes: the text is that of ./shader-check --spirv.
 * Answers SHADER_CHECK_UNREAD besides, where the words are no SPIR-V or say what is not translated; the text then is one line that says
 * what, and at which word. All else is as with shader_check. */
uint32_t shader_check_spirv(const uint8_t *spirv, size_t length, uint8_t *text, size_t capacity, size_t *needed);

/* The same, but that the text is one JSON object without an end of a line: ./shader-check --spirv --json. */
uint32_t shader_check_spirv_json(const uint8_t *spirv, size_t length, uint8_t *text, size_t capacity, size_t *needed);

/* The same, but that the text has the leaves of the buffers: ./shader-check --spirv --leaves. */
uint32_t shader_check_spirv_leaves(const uint8_t *spirv, size_t length, uint8_t *text, size_t capacity, size_t *needed);

/* Writes the document that a module of SPIR-V says, without an end of a line: ./shader-check --document. It is not judged: shader_check
 * does that. Answers 0, SHADER_CHECK_NO_MEMORY or SHADER_CHECK_UNREAD. */
uint32_t shader_check_spirv_document(const uint8_t *spirv, size_t length, uint8_t *text, size_t capacity, size_t *needed);

/* Judges the text of WGSL in the `length` bytes at `wgsl`, in UTF-8 and without a 0 at its end: the text is that of ./shader-check --wgsl.
 * Answers SHADER_CHECK_UNREAD besides, where the text is no WGSL or says what is not translated; the text then is one line that says
 * what, and at which line and column. All else is as with shader_check. */
uint32_t shader_check_wgsl(const uint8_t *wgsl, size_t length, uint8_t *text, size_t capacity, size_t *needed);

/* The same, but that the text is one JSON object without an end of a line: ./shader-check --wgsl --json. Of what is refused or not read
 * its field `wgsl` has the part of the text that is at fault, in bytes and in lines and columns. */
uint32_t shader_check_wgsl_json(const uint8_t *wgsl, size_t length, uint8_t *text, size_t capacity, size_t *needed);

/* The same, but that the text has the leaves of the buffers: ./shader-check --wgsl --leaves. */
uint32_t shader_check_wgsl_leaves(const uint8_t *wgsl, size_t length, uint8_t *text, size_t capacity, size_t *needed);

/* Writes the document that a text of WGSL says, without an end of a line: ./shader-check --wgsl --document. It is not judged: shader_check
 * does that. Answers 0, SHADER_CHECK_NO_MEMORY or SHADER_CHECK_UNREAD. */
uint32_t shader_check_wgsl_document(const uint8_t *wgsl, size_t length, uint8_t *text, size_t capacity, size_t *needed);

#ifdef __cplusplus
}
#endif

#endif
