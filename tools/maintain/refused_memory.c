// Refuses one request of the program into which it is loaded.
//
// PRELOADED_KIND says which requests are numbered, from 0:
//   program  requests for memory by the program's own code, of any thread
//   library  requests for memory by all other code, as the C library
//   threads  starts of threads
// The request of number PRELOADED_NUMBER gets no memory, or no thread. Then one byte is written to the descriptor
// PRELOADED_TELL. All other requests are passed on. What happens before the program's own start is not numbered.

#define _GNU_SOURCE
#include <dlfcn.h>
#include <errno.h>
#include <link.h>
#include <pthread.h>
#include <stdatomic.h>
#include <stdint.h>
#include <stdlib.h>
#include <string.h>
#include <sys/mman.h>
#include <sys/syscall.h>
#include <unistd.h>

extern void *__libc_malloc(size_t size);
extern void *__libc_calloc(size_t count, size_t size);
extern void *__libc_realloc(void *old, size_t size);
extern void *__libc_memalign(size_t alignment, size_t size);

enum kind { NONE, PROGRAM, LIBRARY, THREADS };

typedef int thread_start(pthread_t *, const pthread_attr_t *, void *(*)(void *), void *);

static enum kind numbered = NONE;
static long refused_number;
static int tell;
static uintptr_t program_begin = UINTPTR_MAX, program_end;
static thread_start *start_thread;
static atomic_long next_number;

// The first object of the list is the program itself. Its addresses are noted.
static int note_program(struct dl_phdr_info *object, size_t size, void *data) {
    (void)size;
    (void)data;
    for (int i = 0; i < object->dlpi_phnum; i++) {
        uintptr_t begin = object->dlpi_addr + object->dlpi_phdr[i].p_vaddr;
        if (object->dlpi_phdr[i].p_type != PT_LOAD)
            continue;
        if (begin < program_begin)
            program_begin = begin;
        if (begin + object->dlpi_phdr[i].p_memsz > program_end)
            program_end = begin + object->dlpi_phdr[i].p_memsz;
    }
    return 1;
}

static enum kind kind_of(const char *word) {
    return strcmp(word, "program") == 0 ? PROGRAM : strcmp(word, "library") == 0 ? LIBRARY : THREADS;
}

__attribute__((constructor)) static void begin(void) {
    const char *word = getenv("PRELOADED_KIND");
    if (word == NULL)
        return;
    dl_iterate_phdr(note_program, NULL);
    start_thread = (thread_start *)dlsym(RTLD_NEXT, "pthread_create");
    refused_number = atol(getenv("PRELOADED_NUMBER"));
    tell = atoi(getenv("PRELOADED_TELL"));
    numbered = kind_of(word);
}

static int is_refused(enum kind kind) {
    if (kind != numbered || atomic_fetch_add(&next_number, 1) != refused_number)
        return 0;
    syscall(SYS_write, tell, "!", 1);
    errno = ENOMEM;
    return 1;
}

// Who asks is told by the address to which the call returns.
static int is_memory_refused(void *caller) {
    uintptr_t place = (uintptr_t)caller;
    return is_refused(program_begin <= place && place < program_end ? PROGRAM : LIBRARY);
}

#define IS_REFUSED is_memory_refused(__builtin_return_address(0))

void *malloc(size_t size) {
    return IS_REFUSED ? NULL : __libc_malloc(size);
}

void *calloc(size_t count, size_t size) {
    return IS_REFUSED ? NULL : __libc_calloc(count, size);
}

void *realloc(void *old, size_t size) {
    return IS_REFUSED ? NULL : __libc_realloc(old, size);
}

void *aligned_alloc(size_t alignment, size_t size) {
    return IS_REFUSED ? NULL : __libc_memalign(alignment, size);
}

void *memalign(size_t alignment, size_t size) {
    return IS_REFUSED ? NULL : __libc_memalign(alignment, size);
}

int posix_memalign(void **place, size_t alignment, size_t size) {
    void *memory = IS_REFUSED ? NULL : __libc_memalign(alignment, size);
    if (memory == NULL)
        return ENOMEM;
    *place = memory;
    return 0;
}

void *mmap(void *address, size_t length, int protection, int flags, int file, off_t offset) {
    if (IS_REFUSED)
        return MAP_FAILED;
    return (void *)syscall(SYS_mmap, address, length, protection, flags, file, offset);
}

int pthread_create(pthread_t *thread, const pthread_attr_t *attributes, void *(*work)(void *), void *given) {
    if (is_refused(THREADS))
        return EAGAIN;
    return start_thread(thread, attributes, work, given);
}
