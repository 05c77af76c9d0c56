// Refuses allocations and shortens reads and writes of a program: cc -shared -fPIC -O2 -o faults.so faults.c -ldl, and LD_PRELOAD.
// FAULTS names a file of 40 bytes that is shared with whoever steers it, five numbers of 64 bits in this order: each
// allocation is refused that makes the second number a multiple of the first, where that isn't 0; the second counts
// allocations; where the third is one, sockets give and take 1 to 7 bytes at a time, and every seventh call is interrupted;
// the allocation of the fourth number is refused alone; one of fewer bytes than the fifth is neither counted nor refused.
#define _GNU_SOURCE
#include <dlfcn.h>
#include <errno.h>
#include <fcntl.h>
#include <stdint.h>
#include <stdlib.h>
#include <sys/mman.h>
#include <sys/socket.h>
#include <unistd.h>

static volatile uint64_t *shared;
static volatile uint64_t off[5];
static __thread uint64_t turn;

__attribute__((constructor)) static void begin(void) {
    const char *name = getenv("FAULTS");
    int fd = name ? open(name, O_RDWR) : -1;
    void *at = fd < 0 ? MAP_FAILED : mmap(0, 40, PROT_READ | PROT_WRITE, MAP_SHARED, fd, 0);
    shared = at == MAP_FAILED ? off : at;
}

static int refuses(size_t size) {
    if (!shared || size < shared[4]) return 0;
    uint64_t period = shared[0], n = __sync_add_and_fetch(&shared[1], 1);
    return (period && n % period == 0) || n == shared[3];
}

#define REAL(name) static __typeof__(&name) real; if (!real) real = (__typeof__(&name))dlsym(RTLD_NEXT, #name)

void *malloc(size_t n) { REAL(malloc); if (refuses(n)) { errno = ENOMEM; return 0; } return real(n); }
void *realloc(void *p, size_t n) { REAL(realloc); if (refuses(n)) { errno = ENOMEM; return 0; } return real(p, n); }
void *aligned_alloc(size_t a, size_t n) { REAL(aligned_alloc); if (refuses(n)) { errno = ENOMEM; return 0; } return real(a, n); }
int posix_memalign(void **p, size_t a, size_t n) { REAL(posix_memalign); if (refuses(n)) return ENOMEM; return real(p, a, n); }

// How many bytes a call may move; 0 where it is interrupted.
static size_t some(size_t n) {
    if (!shared || shared[2] != 1 || n == 0) return n;
    turn++;
    if (turn % 7 == 0) return 0;
    size_t most = 1 + turn % 7;
    return n < most ? n : most;
}

#define CUT(n) size_t k = some(n); if (n && !k) { errno = EINTR; return -1; }

ssize_t recv(int s, void *b, size_t n, int f) { REAL(recv); CUT(n) return real(s, b, k, f); }
ssize_t send(int s, const void *b, size_t n, int f) { REAL(send); CUT(n) return real(s, b, k, f); }
