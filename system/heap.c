/* The three calls of the heap that what Rattle compiles asks for, over C's own. It is compiled with no header of C, so that it
 * needs the kit's clang alone. */
typedef __SIZE_TYPE__ size_t;
void *malloc(size_t), *realloc(void *, size_t);
void free(void *);
struct tried { _Bool is_there; void *place; };
static char nothing[16];
static struct tried tell(void *place) { struct tried it = { place != 0, place ? place : nothing }; return it; }

struct tried rattle_alloc(size_t bytes, size_t align) { return tell(malloc(bytes ? bytes : align)); }
struct tried rattle_realloc(void *place, size_t kept, size_t bytes, size_t align) { (void)kept; return tell(realloc(place, bytes ? bytes : align)); }
void rattle_dealloc(void *place) { free(place); }
