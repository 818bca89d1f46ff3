/* What tools/check_refused loads before a program (LD_PRELOAD), so that one call outside fails.
 *
 * REFUSE is FUNCTION:NUMBER:ERROR:PIECE: the call of this number, from 1, of this function fails with this error; with the
 * number 0 none does. A read or a write takes so many bytes at most. How many calls there were is written to the file
 * REFUSE_COUNT at the end. */
#define _GNU_SOURCE
#include <dlfcn.h>
#include <errno.h>
#include <netdb.h>
#include <pthread.h>
#include <stdatomic.h>
#include <stdio.h>
#include <stdlib.h>
#include <string.h>
#include <sys/socket.h>
#include <sys/syscall.h>
#include <sys/types.h>
#include <unistd.h>

static char refused[32];
static long chosen;
static int error;
static size_t piece;
static atomic_long calls;

__attribute__((constructor)) static void begin(void)
{
    const char *said = getenv("REFUSE");
    if (said == NULL || sscanf(said, "%31[^:]:%ld:%d:%zu", refused, &chosen, &error, &piece) != 4)
        abort();
}

/* The program ends by this call. */
void _exit(int status)
{
    const char *name = getenv("REFUSE_COUNT");
    refused[0] = 0;
    if (name != NULL) {
        FILE *file = fopen(name, "w");
        fprintf(file, "%ld\n", atomic_load(&calls));
        fclose(file);
    }
    syscall(SYS_exit_group, status);
    __builtin_unreachable();
}

/* Whether this call is the one that fails. */
static int is_refused(const char *function)
{
    if (strcmp(function, refused) != 0 || atomic_fetch_add(&calls, 1) + 1 != chosen)
        return 0;
    errno = error;
    return 1;
}

#define REAL(name) ((__typeof__(&name))dlsym(RTLD_NEXT, #name))

extern void *__libc_malloc(size_t);
extern void *__libc_realloc(void *, size_t);

void *malloc(size_t size) { return is_refused("malloc") ? NULL : __libc_malloc(size); }

void *realloc(void *block, size_t size) { return is_refused("malloc") ? NULL : __libc_realloc(block, size); }

static size_t least(size_t size) { return size < piece ? size : piece; }

ssize_t read(int file, void *into, size_t size) { return is_refused("read") ? -1 : REAL(read)(file, into, least(size)); }

ssize_t write(int file, const void *from, size_t size)
{
    return is_refused("write") ? -1 : REAL(write)(file, from, least(size));
}

ssize_t recv(int socket, void *into, size_t size, int flags)
{
    return is_refused("recv") ? -1 : REAL(recv)(socket, into, size, flags);
}

ssize_t send(int socket, const void *from, size_t size, int flags)
{
    return is_refused("send") ? -1 : REAL(send)(socket, from, size, flags);
}

int accept4(int socket, struct sockaddr *address, socklen_t *size, int flags)
{
    return is_refused("accept4") ? -1 : REAL(accept4)(socket, address, size, flags);
}

int open(const char *path, int flags, ...)
{
    return is_refused("open") ? -1 : ((int (*)(const char *, int, int))dlsym(RTLD_NEXT, "open"))(path, flags, 0666);
}

int socket(int domain, int type, int protocol) { return is_refused("socket") ? -1 : REAL(socket)(domain, type, protocol); }

int bind(int socket, const struct sockaddr *address, socklen_t size)
{
    return is_refused("bind") ? -1 : REAL(bind)(socket, address, size);
}

int listen(int socket, int backlog) { return is_refused("listen") ? -1 : REAL(listen)(socket, backlog); }

int connect(int socket, const struct sockaddr *address, socklen_t size)
{
    return is_refused("connect") ? -1 : REAL(connect)(socket, address, size);
}

int setsockopt(int socket, int level, int name, const void *value, socklen_t size)
{
    return is_refused("setsockopt") ? -1 : REAL(setsockopt)(socket, level, name, value, size);
}

int getaddrinfo(const char *host, const char *service, const struct addrinfo *hints, struct addrinfo **found)
{
    return is_refused("getaddrinfo") ? EAI_AGAIN : REAL(getaddrinfo)(host, service, hints, found);
}

int pthread_create(pthread_t *thread, const pthread_attr_t *attributes, void *(*start)(void *), void *given)
{
    return is_refused("pthread_create") ? error : REAL(pthread_create)(thread, attributes, start, given);
}
