/* What the program calls of the C library and of the system, in a browser: it reads, writes, opens files and takes its
   arguments by five functions of the page's script (source/worker.mjs). There are no threads, no environment and no
   places in a file; whatever asks for them is refused, with the error number that Linux gives. */

typedef unsigned long size;
typedef long count; /* of bytes, or -1 */

#define HOST(name) __attribute__((import_module("host"), import_name(name)))

HOST("read") count host_read(int file, void *to, size bytes);
HOST("write") count host_write(int file, const void *from, size bytes);
HOST("argument") count host_argument(size number, void *to, size bytes); /* its length, or -1 behind the last one */
HOST("open") int host_open(const char *path);                            /* -1 where there is no such file */
HOST("exit") _Noreturn void host_exit(int status);

enum { NO_SUCH_FILE = 2, TRY_AGAIN = 11, ILLEGAL_SEEK = 29, NO_SUCH_CALL = 38, OUT_OF_RANGE = 34 };

static int error_number;

static int refused(int number) {
    error_number = number;
    return -1;
}

int rattle_errno(void) { return error_number; }

void rattle_set_errno(int number) { error_number = number; }

static const char *text_of(int number) {
    switch (number) {
    case NO_SUCH_FILE: return "No such file or directory";
    case TRY_AGAIN: return "Resource temporarily unavailable";
    case ILLEGAL_SEEK: return "Illegal seek";
    case NO_SUCH_CALL: return "Function not implemented";
    default: return "Unknown error";
    }
}

int __xpg_strerror_r(int number, char *to, size bytes) {
    const char *text = text_of(number);
    for (size at = 0; at < bytes; at++) {
        to[at] = text[at];
        if (text[at] == 0) return 0;
    }
    return OUT_OF_RANGE;
}

/* Files. */

count read(int file, void *to, size bytes) { return host_read(file, to, bytes); }

count write(int file, const void *from, size bytes) { return host_write(file, from, bytes); }

count __write(int file, const void *from, size bytes) { return host_write(file, from, bytes); }

int open(const char *path, int how, ...) {
    int file = host_open(path);
    return file < 0 ? refused(NO_SUCH_FILE) : file;
}

int close(int file) { return 0; }

count lseek(int file, long offset, int from) { return refused(ILLEGAL_SEEK); }

/* Arguments, and an environment without variables. */

count rattle_arg(size number, void *to, size bytes) { return host_argument(number, to, bytes); }

count rattle_env_at(size number, void *to, size bytes) { return -1; }

count rattle_env(const void *name, void *to, size bytes) { return -1; }

/* The end. */

void _exit(int status) { host_exit(status); }

void abort(void) { __builtin_trap(); }

long __sysv_signal(int number, long handler) { return 0; }

/* Threads: none is started, so the attributes of one mean nothing. */

int pthread_create(void *thread, void *attributes, void *start, void *argument) { return TRY_AGAIN; }

int pthread_attr_init(void *attributes) { return 0; }

int pthread_attr_setguardsize(void *attributes, size bytes) { return 0; }

int pthread_attr_setstacksize(void *attributes, size bytes) { return 0; }

int pthread_attr_destroy(void *attributes) { return 0; }

unsigned long pthread_self(void) { return 1; }

int pthread_detach(unsigned long thread) { return 0; }

int pthread_join(unsigned long thread, void **result) { return 0; }

int sched_yield(void) { return 0; }

long syscall(long number, void *a, long b, long c, void *d, ...) { return refused(NO_SUCH_CALL); }

/* The program asks which instructions the processor has, to choose among functions that compute the same: with each bit
   set it takes those that retarget.py has a counterpart for. */
void *__x86_get_cpuid_feature_leaf(int leaf) {
    static unsigned all[8] = {~0u, ~0u, ~0u, ~0u, ~0u, ~0u, ~0u, ~0u};
    return all;
}
