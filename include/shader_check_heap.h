/* The heap of the library: three functions that the program around it may define in place of those of shader_check_heap.c, which call
 * malloc, realloc and free.
 *
 * The library takes all its memory by these calls and keeps none of it after a call of shader_check.h returns: each block was freed by
 * then, also where the call answers SHADER_CHECK_NO_MEMORY. That is the answer where a block is refused (`found` is 0). So a host bounds
 * what a document may take by a heap that refuses more, and takes a document's memory from where it likes: an arena that is emptied after
 * each call will do, with a rattle_dealloc that does nothing. What a call may take grows with the length of what it is given, and that of
 * shader_check_leaves with its text besides.
 *
 * Blocks are aligned to 16 bytes, whatever `alignment` says: it is at most 16, and a power of two. The functions are called from the
 * thread that called the library, and from several threads at a time where several call it; they need no lock where each thread has a
 * heap of its own, as no block goes from one thread to another. They may not call the library.
 *
 * A host defines all three or none. In C a definition in the program goes before the weak one of the static library; the shared library
 * (libshader_check.so) takes those of the program too, where the linker exports them (-rdynamic). For instance, a heap of four mebibytes
 * for one thread at a time:
 *
 *     static _Alignas(16) unsigned char room[4 << 20];
 *     static size_t used;
 *
 *     struct shader_check_block rattle_alloc(size_t size, size_t alignment)
 *     {
 *         (void)alignment;
 *         struct shader_check_block block = {0, room};
 *         if (size <= sizeof room - used) {
 *             block.found = 1;
 *             block.block = room + used;
 *             used += (size + 15) / 16 * 16;
 *             if (used > sizeof room)
 *                 used = sizeof room;
 *         }
 *         return block;
 *     }
 *
 *     struct shader_check_block rattle_realloc(void *block, size_t kept, size_t size, size_t alignment)
 *     {
 *         struct shader_check_block moved = rattle_alloc(size, alignment);
 *         if (moved.found)
 *             memcpy(moved.block, block, kept < size ? kept : size);
 *         return moved;
 *     }
 *
 *     void rattle_dealloc(void *block)
 *     {
 *         (void)block;
 *     }
 *
 * and `used = 0;` after each call. */
#ifndef SHADER_CHECK_HEAP_H
#define SHADER_CHECK_HEAP_H

#include <stddef.h>
#include <stdint.h>

#ifdef __cplusplus
extern "C" {
#endif

/* Whether there is memory, 1 or 0, and the block. Where there is none, `block` is not null and is not read, written or freed. */
struct shader_check_block {
    uint64_t found;
    void *block;
};

/* A new block of `size` bytes, whose address is a multiple of `alignment`. `size` is less than 2^63 and may be 0; the block is then not
 * read or written, but freed. */
struct shader_check_block rattle_alloc(size_t size, size_t alignment);

/* Makes a block one of `size` bytes, of which the first `kept` are as they were; it may move. Where there is no memory, the block is
 * as it was. */
struct shader_check_block rattle_realloc(void *block, size_t kept, size_t size, size_t alignment);

/* Frees a block that one of both gave. */
void rattle_dealloc(void *block);

#ifdef __cplusplus
}
#endif

#endif
