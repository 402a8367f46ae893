/* How the library takes memory: by malloc, realloc and free. For x86-64 the toolchain has this part, built, and it isn't compiled. For another
 * target bin/latsefur-archive compiles it into the archive.
 *
 * A size of 0 becomes `align`, since malloc and realloc may answer NULL for 0. All alignments that the library asks for divide 16, as
 * those of malloc do. Without memory the pointer is that of a byte that nobody reads or writes. */
#include <stdbool.h>
#include <stddef.h>
#include <stdlib.h>

typedef struct {
    bool ok;
    void *block;
} tried;

tried rattle_alloc(size_t size, size_t align);
tried rattle_realloc(void *block, size_t kept, size_t size, size_t align);
void rattle_dealloc(void *block);

static char none;

static tried tried_of(void *block) {
    tried answer = {block != NULL, block != NULL ? block : &none};
    return answer;
}

tried rattle_alloc(size_t size, size_t align) {
    return tried_of(malloc(size != 0 ? size : align));
}

tried rattle_realloc(void *block, size_t kept, size_t size, size_t align) {
    (void)kept;
    return tried_of(realloc(block, size != 0 ? size : align));
}

void rattle_dealloc(void *block) {
    free(block);
}
