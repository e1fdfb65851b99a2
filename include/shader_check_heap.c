/* The heap of the library by malloc, where the program around it defines no other. */
#include "shader_check_heap.h"

#include <stdlib.h>

static char nothing;

static struct shader_check_block answer(void *block)
{
    struct shader_check_block found = {block != NULL, block ? block : &nothing};
    return found;
}

__attribute__((weak)) struct shader_check_block rattle_alloc(size_t size, size_t alignment)
{
    return answer(malloc(size ? size : alignment));
}

__attribute__((weak)) struct shader_check_block rattle_realloc(void *block, size_t kept, size_t size, size_t alignment)
{
    (void)kept;
    return answer(realloc(block, size ? size : alignment));
}

__attribute__((weak)) void rattle_dealloc(void *block)
{
    free(block);
}
