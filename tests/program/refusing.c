// Makes allocations fail; the tests preload this library into the program. With REFUSED=N, the N-th call of malloc or
// realloc fails, counted from 1; with REFUSED=signals, every call fails after SIGUSR1 until SIGUSR2. Each failure writes a
// byte to descriptor 9.
#define _GNU_SOURCE
#include <dlfcn.h>
#include <errno.h>
#include <signal.h>
#include <stdlib.h>
#include <string.h>
#include <unistd.h>

static long calls;
static volatile sig_atomic_t refuses_all;

static void on_signal(int number) {
    refuses_all = number == SIGUSR1;
}

__attribute__((constructor)) static void listen_for_signals(void) {
    struct sigaction action = {.sa_handler = on_signal, .sa_flags = SA_RESTART};
    const char *refused = getenv("REFUSED");
    if (refused && strcmp(refused, "signals") == 0) {
        sigaction(SIGUSR1, &action, NULL);
        sigaction(SIGUSR2, &action, NULL);
    }
}

static int is_refused(void) {
    const char *number = getenv("REFUSED");
    if (!refuses_all && (!number || ++calls != atol(number)))
        return 0;
    if (write(9, "x", 1) != 1)
        abort();
    errno = ENOMEM;
    return 1;
}

void *malloc(size_t size) {
    void *(*next)(size_t) = dlsym(RTLD_NEXT, "malloc");
    return is_refused() ? NULL : next(size);
}

void *realloc(void *block, size_t size) {
    void *(*next)(void *, size_t) = dlsym(RTLD_NEXT, "realloc");
    return is_refused() ? NULL : next(block, size);
}
