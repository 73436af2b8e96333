/* Refuses one allocation: the one whose number, from 1, is in REFUSE. Preloaded by tests/refusals.py and tests/calls.py.
 *
 * With MARKED only those between two marks have a number, where a mark is a call of getpid. At the end it writes to the file descriptor
 * in COUNT_TO, if it is there: how many have a number, how many were refused, how many marks there were, the blocks and the bytes that
 * were taken and not given back, and the descriptors that are open. */
typedef __SIZE_TYPE__ size_t;

void *__libc_malloc(size_t size);
void *__libc_realloc(void *block, size_t size);
void __libc_free(void *block);
size_t malloc_usable_size(void *block);
int __getpid(void);
char *getenv(const char *name);
int atoi(const char *text);
int dprintf(int file, const char *format, ...);
int fcntl(int file, int command, ...);

enum { GET_FLAGS = 1, MOST_DESCRIPTORS = 1024 };

static long count, refused, marks, blocks, bytes;

static int is_refused(void)
{
    const char *refuse = getenv("REFUSE");
    if (getenv("MARKED") && marks % 2 == 0)
        return 0;
    count++;
    if (!refuse || count != atoi(refuse))
        return 0;
    refused++;
    return 1;
}

static void *taken(void *block)
{
    if (block) {
        blocks++;
        bytes += malloc_usable_size(block);
    }
    return block;
}

static void given_back(size_t size)
{
    blocks--;
    bytes -= size;
}

void *malloc(size_t size)
{
    return is_refused() ? 0 : taken(__libc_malloc(size));
}

void *realloc(void *block, size_t size)
{
    size_t before = block ? malloc_usable_size(block) : 0;
    void *grown = is_refused() ? 0 : __libc_realloc(block, size);
    if (grown && block)
        given_back(before);
    return taken(grown);
}

void free(void *block)
{
    if (block)
        given_back(malloc_usable_size(block));
    __libc_free(block);
}

int getpid(void)
{
    marks++;
    return __getpid();
}

static int open_descriptors(void)
{
    int open = 0;
    for (int file = 0; file < MOST_DESCRIPTORS; file++)
        open += fcntl(file, GET_FLAGS) >= 0;
    return open;
}

__attribute__((destructor)) static void tell(void)
{
    const char *file = getenv("COUNT_TO");
    long counted[] = {count, refused, marks, blocks, bytes};
    if (file)
        dprintf(atoi(file), "%ld %ld %ld %ld %ld %d", counted[0], counted[1], counted[2], counted[3], counted[4], open_descriptors());
}
