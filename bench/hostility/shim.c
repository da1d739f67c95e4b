/* Loaded before the C library (LD_PRELOAD): has a program's calls of the system fail, as HOSTILE says, and counts them.

   HOSTILE is a list of settings with commas between them. KIND=N refuses the N-th call of that kind (from 1), and
   KIND+=N the N-th and all after it. The kinds:

       memory   a request for memory; one that the C library or the loader makes for itself is none
       thread   the start of a thread
       file     a call on a file, a folder or a stream, standard error aside
       write    one of these that writes
       sync     one of these that waits for the disk
       rename   one of these that gives a file another name

   Of calls on files:

       open=NAME   nothing whose path ends so can be opened or asked for; error=NAME says why (EIO else)
       short=NAME  a file whose path ends so ends after room=N bytes, whatever size it says that it has
       step=N      a write takes N bytes at most, and none=N has the N-th write take nothing
       sip=N       a read gives N bytes at most
       stall=1     each other read and write is interrupted before it begins
       full=N      all writes together take N bytes, and then fail: the disk is full
       mute=1      writes on standard error fail
       kill=N      the program is killed at the N-th of these calls

   meet=N has two threads meet once the N-th thread is started. The first thread that then makes its K-th request for
   memory (meet_after=K, 1 else) waits there until another one has made as many, for ten seconds at most. So neither
   waits for the other to end. A meeting that doesn't come about is told on standard error.

   HOSTILE_COUNTS names a file that gets how many calls of each kind there were, then how many of each were refused,
   then how often a thread that was refused memory asked for half as much next, and how often two threads met, as
   numbers of 8 bytes. It is mapped, so it is right at every moment, however the program ends. */

#define _GNU_SOURCE
#include <dlfcn.h>
#include <errno.h>
#include <fcntl.h>
#include <link.h>
#include <pthread.h>
#include <signal.h>
#include <stdarg.h>
#include <stdatomic.h>
#include <stdint.h>
#include <stdlib.h>
#include <string.h>
#include <sys/mman.h>
#include <sys/stat.h>
#include <sys/syscall.h>
#include <sys/uio.h>
#include <time.h>
#include <unistd.h>

enum kind { MEMORY, THREAD, FILE_CALL, WRITE, SYNC, RENAME, KINDS };

static const char *const NAMES[KINDS] = {"memory", "thread", "file", "write", "sync", "rename"};

struct counts {
    _Atomic uint64_t made[KINDS];
    _Atomic uint64_t refused[KINDS];
    _Atomic uint64_t halved;
    _Atomic uint64_t met;
};

static struct counts own_counts;
static struct counts *counts = &own_counts;

/* The call that is refused of each kind, and whether all after it are too; 0 for none. */
static uint64_t refused_at[KINDS];
static int and_after[KINDS];

static uint64_t most_written, most_read, nothing_at, kill_at, stalls, is_mute, meet_at, meet_after = 1;
static _Atomic uint64_t stalled;

/* How many bytes the disk still takes. */
static int is_disk_bounded;
static uint64_t disk_size;
static _Atomic uint64_t disk_used;

/* The names at the ends of paths, and why what has the first one can't be opened. */
enum { LONGEST_NAME = 256 };
static char refused_name[LONGEST_NAME], short_name[LONGEST_NAME], error_name[LONGEST_NAME];
static const struct { const char *name; int number; } ERRORS[] = {
    {"EIO", EIO}, {"EACCES", EACCES}, {"ENOMEM", ENOMEM}, {"EMFILE", EMFILE}, {"ENOSPC", ENOSPC},
};

/* The open file that ends early, or -1, and how many bytes are left of it. */
static _Atomic int short_file = -1;
static uint64_t short_room;
static _Atomic uint64_t short_left;

static const struct { const char *name; uint64_t *number; } NUMBERS[] = {
    {"step", &most_written}, {"sip", &most_read}, {"none", &nothing_at}, {"kill", &kill_at}, {"stall", &stalls},
    {"mute", &is_mute}, {"meet", &meet_at}, {"meet_after", &meet_after}, {"room", &short_room}, {"full", &disk_size},
};
static const struct { const char *name; char *text; } TEXTS[] = {
    {"open", refused_name}, {"short", short_name}, {"error", error_name},
};

/* Where the program's own code lies: what calls from there is the program and not one of its libraries. */
static uintptr_t code_start, code_end;

extern void *__libc_malloc(size_t);
extern void *__libc_calloc(size_t, size_t);
extern void *__libc_realloc(void *, size_t);
extern void *__libc_memalign(size_t, size_t);

static int note_code(struct dl_phdr_info *object, size_t size, void *unused)
{
    (void)size, (void)unused;
    for (int i = 0; i < object->dlpi_phnum; i++) {
        const ElfW(Phdr) *part = &object->dlpi_phdr[i];
        if (part->p_type == PT_LOAD && (part->p_flags & PF_X)) {
            code_start = object->dlpi_addr + part->p_vaddr;
            code_end = code_start + part->p_memsz;
        }
    }
    return 1; /* The first object is the program. */
}

/* What stands behind a setting's name and its "=" or "+=", or NULL where the setting is another one. */
static const char *value_of(const char *setting, const char *name, int *is_from)
{
    size_t length = strlen(name);
    if (strncmp(setting, name, length) != 0)
        return NULL;
    setting += length;
    *is_from = *setting == '+';
    setting += *is_from;
    return *setting == '=' ? setting + 1 : NULL;
}

static void tell(const char *line) { syscall(SYS_write, STDERR_FILENO, line, strlen(line)); }

static void read_setting(const char *setting)
{
    int is_from = 0, is_known = 0;
    const char *value;
    for (int kind = 0; kind < KINDS; kind++) {
        if ((value = value_of(setting, NAMES[kind], &is_from))) {
            refused_at[kind] = strtoull(value, NULL, 10);
            and_after[kind] = is_from;
            is_known = 1;
        }
    }
    for (size_t i = 0; i < sizeof NUMBERS / sizeof *NUMBERS; i++) {
        if ((value = value_of(setting, NUMBERS[i].name, &is_from))) {
            *NUMBERS[i].number = strtoull(value, NULL, 10);
            is_known = 1;
        }
    }
    for (size_t i = 0; i < sizeof TEXTS / sizeof *TEXTS; i++) {
        size_t length;
        if ((value = value_of(setting, TEXTS[i].name, &is_from)) && (length = strcspn(value, ",")) < LONGEST_NAME) {
            memcpy(TEXTS[i].text, value, length);
            is_known = 1;
        }
    }
    if (value_of(setting, "full", &is_from))
        is_disk_bounded = 1;
    if (!is_known) {
        tell("hostile: a setting is not known\n");
        syscall(SYS_exit_group, 3);
    }
}

static void map_counts(const char *path)
{
    int file = syscall(SYS_openat, AT_FDCWD, path, O_RDWR | O_CREAT | O_TRUNC | O_CLOEXEC, 0666);
    if (file < 0)
        return;
    if (syscall(SYS_ftruncate, file, sizeof *counts) == 0) {
        void *place = mmap(NULL, sizeof *counts, PROT_READ | PROT_WRITE, MAP_SHARED, file, 0);
        if (place != MAP_FAILED)
            counts = place;
    }
    syscall(SYS_close, file);
}

__attribute__((constructor)) static void start(void)
{
    const char *settings = getenv("HOSTILE");
    const char *path = getenv("HOSTILE_COUNTS");
    if (path)
        map_counts(path);
    while (settings && *settings) {
        read_setting(settings);
        settings = strchr(settings, ',');
        settings = settings ? settings + 1 : NULL;
    }
    dl_iterate_phdr(note_code, NULL);
}

/* Counts a call of this kind, and says whether it is refused. */
static int is_refused(enum kind kind)
{
    uint64_t number = atomic_fetch_add(&counts->made[kind], 1) + 1;
    uint64_t at = refused_at[kind];
    int refused = at && (and_after[kind] ? number >= at : number == at);
    if (refused)
        atomic_fetch_add(&counts->refused[kind], 1);
    if (kind == FILE_CALL && number == kill_at)
        syscall(SYS_kill, getpid(), SIGKILL);
    return refused;
}

static int is_file_refused(int error)
{
    if (!is_refused(FILE_CALL))
        return 0;
    errno = error;
    return 1;
}

/* Meetings. */

enum { TURNS = 10000, TURN_IN_NANOSECONDS = 1000000 };

static _Atomic int is_meeting;
static _Atomic uint64_t have_come;
static __thread uint64_t own_requests;

/* Counts a request for memory since the meeting was called. The first thread that comes waits for a second one. */
static void pass_meeting(void)
{
    if (!atomic_load(&is_meeting) || ++own_requests != meet_after)
        return;
    if (atomic_fetch_add(&have_come, 1) > 0)
        return;
    struct timespec turn = {0, TURN_IN_NANOSECONDS};
    for (int i = 0; i < TURNS; i++) {
        if (atomic_load(&have_come) > 1) {
            atomic_fetch_add(&counts->met, 1);
            return;
        }
        nanosleep(&turn, NULL);
    }
    tell("hostile: one thread waited ten seconds for a second one\n");
}

/* At the end: a meeting to which no thread came, or one that was not called. */
__attribute__((destructor)) static void end(void)
{
    if (meet_at && !atomic_load(&is_meeting))
        tell("hostile: so many threads were not started\n");
    else if (meet_at && atomic_load(&have_come) == 0)
        tell("hostile: no thread came to the meeting\n");
}

void _exit(int status)
{
    end();
    syscall(SYS_exit_group, status);
    __builtin_unreachable();
}

/* Memory. */

/* How many bytes this thread was refused by its last request, or 0; and how many an arena keeps of each chunk for itself
   at most. */
static __thread size_t last_refused;
enum { CHUNK_HEAD = 64 };

static int is_memory_refused(const void *caller, size_t size)
{
    uintptr_t at = (uintptr_t)caller;
    if (at < code_start || at >= code_end)
        return 0;
    pass_meeting();
    if (size < last_refused && last_refused <= 2 * size + CHUNK_HEAD)
        atomic_fetch_add(&counts->halved, 1);
    last_refused = is_refused(MEMORY) ? size : 0;
    if (!last_refused)
        return 0;
    errno = ENOMEM;
    return 1;
}

#define REFUSES_MEMORY(size) is_memory_refused(__builtin_return_address(0), size)

void *malloc(size_t size) { return REFUSES_MEMORY(size) ? NULL : __libc_malloc(size); }

void *calloc(size_t count, size_t size) { return REFUSES_MEMORY(count * size) ? NULL : __libc_calloc(count, size); }

void *realloc(void *place, size_t size) { return REFUSES_MEMORY(size) ? NULL : __libc_realloc(place, size); }

void *aligned_alloc(size_t align, size_t size) { return REFUSES_MEMORY(size) ? NULL : __libc_memalign(align, size); }

int posix_memalign(void **place, size_t align, size_t size)
{
    void *got = REFUSES_MEMORY(size) ? NULL : __libc_memalign(align, size);
    if (!got)
        return ENOMEM;
    *place = got;
    return 0;
}

/* Threads. */

typedef int create_thread(pthread_t *, const pthread_attr_t *, void *(*)(void *), void *);

int pthread_create(pthread_t *thread, const pthread_attr_t *how, void *(*body)(void *), void *given)
{
    if (is_refused(THREAD))
        return EAGAIN;
    if (meet_at && atomic_load(&counts->made[THREAD]) == meet_at)
        atomic_store(&is_meeting, 1);
    create_thread *real = (create_thread *)dlsym(RTLD_NEXT, "pthread_create");
    return real(thread, how, body, given);
}

/* Writes. */

/* Whether this read or write is one of those that are interrupted. */
static int is_stalled(void)
{
    if (!stalls || atomic_fetch_add(&stalled, 1) % 2)
        return 0;
    errno = EINTR;
    return 1;
}

/* How many bytes of so many the disk takes, or -1 where it is full. */
static ssize_t room_for(size_t size)
{
    if (!is_disk_bounded)
        return size;
    uint64_t used = atomic_fetch_add(&disk_used, size);
    if (used >= disk_size) {
        errno = ENOSPC;
        return -1;
    }
    return size > disk_size - used ? (ssize_t)(disk_size - used) : (ssize_t)size;
}

/* How many bytes a write of this many takes, or -1 where it is refused; errno then says why. */
static ssize_t taken(int file, size_t size)
{
    if (file == STDERR_FILENO) {
        errno = EIO;
        return is_mute ? -1 : (ssize_t)size;
    }
    int refuses_file = is_refused(FILE_CALL);
    uint64_t number = atomic_load(&counts->made[WRITE]) + 1;
    if (is_refused(WRITE) || refuses_file) {
        errno = ENOSPC;
        return -1;
    }
    if (is_stalled())
        return -1;
    if (number == nothing_at)
        return 0;
    return room_for(most_written && size > most_written ? most_written : size);
}

ssize_t write(int file, const void *bytes, size_t size)
{
    ssize_t takes = taken(file, size);
    return takes <= 0 ? takes : syscall(SYS_write, file, bytes, takes);
}

ssize_t __write(int file, const void *bytes, size_t size) { return write(file, bytes, size); }

/* Of several parts the first that has bytes is enough: a write may take less than it was given. */
ssize_t writev(int file, const struct iovec *parts, int count)
{
    for (int i = 0; i < count; i++)
        if (parts[i].iov_len)
            return write(file, parts[i].iov_base, parts[i].iov_len);
    return write(file, NULL, 0);
}

/* What else is done with files and folders. */

/* So many bytes at most are read of a file. Where it ends early, it has no more than what is left of it. */
static size_t given(int file, size_t size)
{
    if (most_read && size > most_read)
        size = most_read;
    if (file != atomic_load(&short_file))
        return size;
    uint64_t left = atomic_load(&short_left);
    return size > left ? left : size;
}

ssize_t read(int file, void *bytes, size_t size)
{
    if (is_file_refused(EIO) || is_stalled())
        return -1;
    ssize_t got = syscall(SYS_read, file, bytes, given(file, size));
    if (got > 0 && file == atomic_load(&short_file))
        atomic_fetch_sub(&short_left, got);
    return got;
}

/* Whether the path is this name, or ends with it behind a slash. A slash at its end is no matter. */
static int ends_so(const char *path, const char *name)
{
    size_t length = strlen(path), behind = strlen(name);
    length -= length && path[length - 1] == '/';
    if (!behind || length < behind || strncmp(path + length - behind, name, behind) != 0)
        return 0;
    return length == behind || path[length - behind - 1] == '/';
}

/* Whether a call on this path is refused; errno then says why. */
static int is_path_refused(const char *path)
{
    if (is_file_refused(EIO))
        return 1;
    if (!ends_so(path, refused_name))
        return 0;
    errno = EIO;
    for (size_t i = 0; i < sizeof ERRORS / sizeof *ERRORS; i++)
        if (strcmp(error_name, ERRORS[i].name) == 0)
            errno = ERRORS[i].number;
    return 1;
}

static int opened(int folder, const char *path, int how, mode_t mode)
{
    if (is_path_refused(path))
        return -1;
    int file = syscall(SYS_openat, folder, path, how, mode);
    if (file >= 0 && ends_so(path, short_name)) {
        atomic_store(&short_left, short_room);
        atomic_store(&short_file, file);
    } else if (file == atomic_load(&short_file)) {
        atomic_store(&short_file, -1);
    }
    return file;
}

/* The mode stands last where the file may be made. */
#define MODE_AFTER(how, mode)                                  \
    mode_t mode = 0;                                           \
    if ((how) & (O_CREAT | O_TMPFILE)) {                       \
        va_list rest;                                          \
        va_start(rest, how);                                   \
        mode = va_arg(rest, mode_t);                           \
        va_end(rest);                                          \
    }

int open(const char *path, int how, ...)
{
    MODE_AFTER(how, mode)
    return opened(AT_FDCWD, path, how, mode);
}

int open64(const char *path, int how, ...)
{
    MODE_AFTER(how, mode)
    return opened(AT_FDCWD, path, how, mode);
}

int openat(int folder, const char *path, int how, ...)
{
    MODE_AFTER(how, mode)
    return opened(folder, path, how, mode);
}

int openat64(int folder, const char *path, int how, ...)
{
    MODE_AFTER(how, mode)
    return opened(folder, path, how, mode);
}

ssize_t getdents64(int folder, void *entries, size_t size)
{
    return is_file_refused(EIO) ? -1 : syscall(SYS_getdents64, folder, entries, size);
}

int statx(int folder, const char *restrict path, int how, unsigned int mask, struct statx *restrict into)
{
    return is_path_refused(path) ? -1 : (int)syscall(SYS_statx, folder, path, how, mask, into);
}

/* Whether a call of this kind, which is one on files too, is refused. */
static int is_refused_as(enum kind kind)
{
    int refuses_file = is_refused(FILE_CALL);
    errno = EIO;
    return is_refused(kind) || refuses_file;
}

int fsync(int file) { return is_refused_as(SYNC) ? -1 : (int)syscall(SYS_fsync, file); }

int fdatasync(int file) { return is_refused_as(SYNC) ? -1 : (int)syscall(SYS_fdatasync, file); }

int rename(const char *from, const char *to)
{
    return is_refused_as(RENAME) ? -1 : (int)syscall(SYS_renameat2, AT_FDCWD, from, AT_FDCWD, to, 0);
}

int unlink(const char *path)
{
    return is_file_refused(EIO) ? -1 : (int)syscall(SYS_unlinkat, AT_FDCWD, path, 0);
}
