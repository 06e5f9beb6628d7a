/* What a test that fails leaves: its files, whose folder programs, tests and processes share. failing.c says when. */
#define _POSIX_C_SOURCE 200809L

#include "internal.h"

#include <dirent.h>
#include <fcntl.h>
#include <poll.h>
#include <stdio.h>
#include <stdlib.h>
#include <string.h>
#include <sys/file.h>
#include <sys/stat.h>
#include <time.h>
#include <unistd.h>

enum { MOST_OF_A_PROGRAM = 30, MOST_OF_A_TEST = 50, TRIES = 1000, MS_OF_A_TRY = 10 };

static const char *const file_kinds[] = {".json", ".out", ".html"};

/* A file of this program that an earlier run has left in the folder. */
struct earlier {
    struct earlier *next;
    ino_t inode;
    char name[];
};

/* The number of a name that a test has, while it runs, and if it has failed. */
struct used {
    struct used *next;
    int nth;
    char stem[];
};

static pthread_mutex_t files_lock = PTHREAD_MUTEX_INITIALIZER;
static struct used *used_names;
static struct earlier *earlier_files;
static char earlier_folder[THP_PATH];
static struct timespec began;

/* ---------------------------------------------------------------- names */

static int is_plain(char c)
{
    return (c >= 'a' && c <= 'z') || (c >= 'A' && c <= 'Z') || (c >= '0' && c <= '9') || c == '_' || c == '-' || c == '.';
}

/* At most so many characters of a name, with plain ones only. Returns how many. */
static size_t add_plain(char *to, const char *name, size_t most)
{
    size_t length;
    for (length = 0; length < most && name[length] != '\0'; length++)
        to[length] = (char)(is_plain(name[length]) ? name[length] : '_');
    to[length] = '\0';
    return length;
}

/* FNV-1a, of the bytes and the NUL after them */
static uint64_t digest_of(uint64_t digest, const char *text)
{
    do {
        digest = (digest ^ (unsigned char)*text) * 1099511628211u;
    } while (*text++ != '\0');
    return digest;
}

/* PROGRAM. and the digest of its path, which are the same for all tests */
static char program_name[MOST_OF_A_PROGRAM + 2];
static uint64_t program_digest;

static void name_program(void)
{
    char path[THP_PATH];
    ssize_t read = readlink("/proc/self/exe", path, sizeof path - 1);
    path[read > 0 ? read : 0] = '\0';
    const char *slash = strrchr(path, '/'), *program = slash == NULL || slash[1] == '\0' ? "program" : slash + 1;
    size_t length = add_plain(program_name, program, MOST_OF_A_PROGRAM);
    if (program_name[0] == '.' || program_name[0] == '-')
        program_name[0] = '_';
    strcpy(program_name + length, ".");
    program_digest = digest_of(14695981039346656037u, path);
}

/* How the names of a test's files begin: PROGRAM.TEST-DIGEST, with a digest of the program's path and the test's name. */
static void make_stem(const char *test, char stem[THP_STEM])
{
    static pthread_once_t once = PTHREAD_ONCE_INIT;
    pthread_once(&once, name_program);
    size_t length = strlen(strcpy(stem, program_name));
    length += add_plain(stem + length, test, MOST_OF_A_TEST);
    uint64_t digest = digest_of(program_digest, test);
    stem[length++] = '-';
    for (int shift = 44; shift >= 0; shift -= 4)
        stem[length++] = "0123456789abcdef"[digest >> shift & 15];
    stem[length] = '\0';
}

static int is_used(const char *stem, int nth)
{
    const struct used *one = used_names;
    while (one != NULL && (one->nth != nth || strcmp(one->stem, stem) != 0))
        one = one->next;
    return one != NULL;
}

/* The lowest number that no test of this name has: it has it from now on; 0 if memory runs out. */
static int use_name(const char *stem)
{
    struct used *made = malloc(sizeof *made + strlen(stem) + 1);
    if (made == NULL)
        return 0;
    strcpy(made->stem, stem);
    pthread_mutex_lock(&files_lock);
    for (made->nth = 1; is_used(stem, made->nth);)
        made->nth++;
    made->next = used_names;
    used_names = made;
    pthread_mutex_unlock(&files_lock);
    return made->nth;
}

static void leave_name(const char *stem, int nth)
{
    pthread_mutex_lock(&files_lock);
    struct used **at = &used_names;
    while (*at != NULL && ((*at)->nth != nth || strcmp((*at)->stem, stem) != 0))
        at = &(*at)->next;
    if (*at != NULL) {
        struct used *one = *at;
        *at = one->next;
        free(one);
    }
    pthread_mutex_unlock(&files_lock);
}

static int add_path(char path[THP_PATH], const char *folder, const char *name, const char *kind, const char *more)
{
    const char *const parts[] = {folder, "/", name, kind, more};
    size_t end = 0;
    for (size_t i = 0; i < COUNT(parts); i++) {
        size_t length = strlen(parts[i]);
        if (end + length >= THP_PATH)
            return -1;
        memcpy(path + end, parts[i], length + 1);
        end += length;
    }
    return 0;
}

/* The names of the files, while the test runs and afterwards; -1 with errno if one is too long. */
static int name_files(struct thp_artifacts *a)
{
    char number[16] = "", name[THP_STEM + 16], process[24];
    if (a->nth > 1)
        snprintf(number, sizeof number, "-%d", a->nth);
    strcat(strcpy(name, a->stem), number);
    snprintf(process, sizeof process, ".%ld", (long)getpid());
    if (add_path(a->scenario, a->folder, name, file_kinds[0], "") == 0 &&
        add_path(a->lines, a->folder, name, file_kinds[1], "") == 0 && add_path(a->page, a->folder, name, file_kinds[2], "") == 0 &&
        add_path(a->scenario_now, a->folder, name, file_kinds[0], process) == 0 &&
        add_path(a->lines_now, a->folder, name, file_kinds[1], process) == 0)
        return 0;
    errno = ENAMETOOLONG;
    return -1;
}

/* ---------------------------------------------------------------- the folder */

/* Makes a folder and those above it; -1 with errno. */
static int make_folders(char *path)
{
    for (char *slash = path + 1; (slash = strchr(slash, '/')) != NULL; slash++) {
        *slash = '\0';
        int made = mkdir(path, 0777);
        *slash = '/';
        if (made != 0 && errno != EEXIST && errno != EISDIR)
            return -1;
    }
    return mkdir(path, 0777) == 0 || errno == EEXIST ? 0 : -1;
}

/* The name from the root of the folder that a variable names, "" if it names none; -1 with errno. */
static int named_folder(char folder[THP_PATH], const char *variable)
{
    const char *named = getenv(variable);
    char here[THP_PATH] = "";
    folder[0] = '\0';
    if (named == NULL || named[0] == '\0')
        return 0;
    if (named[0] != '/' && getcwd(here, sizeof here) == NULL)
        return -1;
    return add_path(folder, here, named[0] == '/' ? named + 1 : named, "", "");
}

/* The folder $TRACEHOST_ARTIFACTS; else a new one below $TMPDIR or /tmp, which is the test's own. */
static int open_folder(struct thp_artifacts *a, const char *name)
{
    const char *temporary = getenv("TMPDIR");
    if (named_folder(a->traces, "TRACEHOST_TRACES") != 0 || named_folder(a->folder, "TRACEHOST_ARTIFACTS") != 0)
        return -1;
    a->is_own_folder = a->folder[0] == '\0';
    if (!a->is_own_folder)
        return make_folders(a->folder);
    int length = snprintf(
        a->folder, sizeof a->folder, "%s/tracehost-%s-XXXXXX", temporary != NULL && temporary[0] == '/' ? temporary : "/tmp", name);
    if (length >= 0 && (size_t)length < sizeof a->folder)
        return mkdtemp(a->folder) != NULL ? 0 : -1;
    errno = ENAMETOOLONG;
    return -1;
}

/*
 * Locks the folder, so that nobody else renames or removes its files: a descriptor, or -1 with errno, EWOULDBLOCK if somebody has
 * it for a long time. A signal's handler may call it.
 */
static int lock_folder(const char *folder, int tries)
{
    int number = open(folder, O_RDONLY | O_DIRECTORY | O_CLOEXEC), error = errno;
    while (number >= 0 && flock(number, LOCK_EX | LOCK_NB) != 0) {
        error = errno;
        if (error == EWOULDBLOCK && --tries > 0) {
            poll(NULL, 0, MS_OF_A_TRY);
        } else {
            close(number);
            number = -1;
        }
    }
    errno = error;
    return number;
}

static void unlock_folder(int number)
{
    if (number < 0)
        return;
    flock(number, LOCK_UN); /* a child that was forked meanwhile has it too */
    close(number);
}

/* ---------------------------------------------------------------- earlier runs */

/* when the program began, by the clock of files */
#if defined(__GNUC__)
__attribute__((constructor))
#endif
static void
note_beginning(void)
{
    clock_gettime(CLOCK_REALTIME_COARSE, &began);
}

static int is_older(const struct stat *status)
{
    return status->st_ctim.tv_sec < began.tv_sec ||
           (status->st_ctim.tv_sec == began.tv_sec && status->st_ctim.tv_nsec < began.tv_nsec);
}

/* Whether a name ends as a file of a test does, of one that runs if `running` is set. */
static int is_of_a_test(const char *name, int running)
{
    const char *dot = strrchr(name, '.');
    if (dot == NULL || dot == name)
        return 0;
    if (!running)
        return strcmp(dot, file_kinds[0]) == 0 || strcmp(dot, file_kinds[1]) == 0 || strcmp(dot, file_kinds[2]) == 0;
    size_t front = (size_t)(dot - name);
    int is_number = dot[1] != '\0' && dot[1 + strspn(dot + 1, "0123456789")] == '\0';
    return is_number &&
           ((front > 5 && strncmp(dot - 5, file_kinds[0], 5) == 0) || (front > 4 && strncmp(dot - 4, file_kinds[1], 4) == 0));
}

static void note_earlier(const char *name, ino_t inode)
{
    struct earlier *made = malloc(sizeof *made + strlen(name) + 1);
    if (made == NULL)
        return; /* it stays */
    made->inode = inode;
    strcpy(made->name, name);
    made->next = earlier_files;
    earlier_files = made;
}

/* Notes which files of this program are in the folder, before its first test. */
static void find_earlier(const char *folder, const char *stem)
{
    size_t length = (size_t)(strchr(stem, '.') - stem) + 1;
    if (strcmp(folder, earlier_folder) == 0)
        return;
    strcpy(earlier_folder, folder);
    while (earlier_files != NULL) {
        struct earlier *next = earlier_files->next;
        free(earlier_files);
        earlier_files = next;
    }
    DIR *files = opendir(folder);
    for (struct dirent *one; files != NULL && (one = readdir(files)) != NULL;)
        if (strncmp(one->d_name, stem, length) == 0 && (is_of_a_test(one->d_name, 0) || is_of_a_test(one->d_name, 1)))
            note_earlier(one->d_name, one->d_ino);
    if (files != NULL)
        closedir(files);
}

/* Whether the process of this record is alive: it has locked its scenario. */
static int is_in_use(const char *path)
{
    int file = open(path, O_RDONLY | O_CLOEXEC | O_NOFOLLOW);
    if (file < 0)
        return errno != ENOENT;
    int is_free = flock(file, LOCK_EX | LOCK_NB) == 0;
    close(file);
    return !is_free;
}

/* Whether a file's name is that of a test with this stem, or with a number after it. */
static int has_stem(const char *name, const char *stem)
{
    size_t length = strlen(stem);
    return strncmp(name, stem, length) == 0 && (name[length] == '.' || name[length] == '-');
}

/* The scenario's path, of which this may be the path of the lines; -1 if it is too long. */
static int scenario_of(char path[THP_PATH], const char *folder, const char *name)
{
    char front[THP_STEM + 32];
    const char *dot = strrchr(name, '.');
    size_t length = (size_t)(dot - name);
    if (!is_of_a_test(name, 1) || strncmp(dot - 4, file_kinds[1], 4) != 0)
        return add_path(path, folder, name, "", "");
    if (length >= sizeof front)
        return -1;
    memcpy(front, name, length - 4);
    front[length - 4] = '\0';
    return add_path(path, folder, front, file_kinds[0], dot);
}

/* Removes what an earlier run of the test has left, or tells of what it left when its process died. */
static void for_earlier(const struct thp_artifacts *a, int removes)
{
    char path[THP_PATH], scenario[THP_PATH];
    struct stat status;
    int lock = -1;
    for (struct earlier *one = earlier_files; one != NULL; one = one->next) {
        if (!has_stem(one->name, a->stem) || add_path(path, a->folder, one->name, "", "") != 0 ||
            scenario_of(scenario, a->folder, one->name) != 0)
            continue;
        if (lock < 0)
            lock = lock_folder(a->folder, TRIES);
        int runs = is_of_a_test(one->name, 1);
        if (lstat(path, &status) != 0 || status.st_ino != one->inode || !is_older(&status) || (runs && is_in_use(scenario)))
            continue;
        if (removes)
            unlink(path);
        else if (runs && strcmp(path, scenario) == 0)
            fprintf(stderr, "tracehost: left by a test that ended its process: %s\n", path);
    }
    unlock_folder(lock);
}

/* ---------------------------------------------------------------- the files */

static int open_mine(const char *path) { return open(path, O_RDWR | O_CREAT | O_TRUNC | O_CLOEXEC | O_NOFOLLOW, 0666); }

static void look_for_earlier(struct thp_artifacts *a)
{
    if (a->is_own_folder)
        return;
    pthread_mutex_lock(&files_lock);
    find_earlier(a->folder, a->stem);
    for_earlier(a, 0);
    pthread_mutex_unlock(&files_lock);
}

int thp_open_artifacts(struct thp_artifacts *a, const char *test, int *scenario, int *lines)
{
    char name[MOST_OF_A_TEST + 1];
    add_plain(name, test, MOST_OF_A_TEST);
    a->scenario[0] = a->scenario_now[0] = '\0';
    a->nth = 0;
    if (open_folder(a, name) != 0)
        return -1;
    make_stem(test, a->stem);
    a->nth = use_name(a->stem);
    if (a->nth == 0 || name_files(a) != 0)
        return -1;
    look_for_earlier(a);
    *scenario = open_mine(a->scenario_now);
    if (*scenario < 0)
        return -1;
    (void)!flock(*scenario, LOCK_EX | LOCK_NB);
    *lines = open_mine(a->lines_now);
    if (*lines >= 0)
        return 0;
    int error = errno;
    close(*scenario);
    errno = error;
    return -1;
}

int thp_keep_artifacts(const struct thp_artifacts *a, int in_handler)
{
    int lock = lock_folder(a->folder, in_handler ? TRIES / 10 : TRIES);
    if (lock < 0 && errno == EWOULDBLOCK)
        return -1;
    int result = rename(a->scenario_now, a->scenario), error = errno;
    if (result == 0) {
        (void)!rename(a->lines_now, a->lines);
        unlink(a->page); /* of an earlier run */
    }
    unlock_folder(lock);
    errno = error;
    return result;
}

/* A new file STEM.PROCESS.json of a folder, with a number if there is one of this name; its descriptor, or -1 with errno. */
static int open_trace(char path[THP_PATH], const struct thp_artifacts *a)
{
    char process[48];
    int file = -1;
    for (int nth = 1; file < 0; nth++) {
        int length = snprintf(process, sizeof process, ".%ld", (long)getpid());
        if (nth > 1)
            snprintf(process + length, sizeof process - (size_t)length, "-%d", nth);
        if (add_path(path, a->traces, a->stem, process, file_kinds[0]) != 0) {
            errno = ENAMETOOLONG;
            return -1;
        }
        file = open(path, O_WRONLY | O_CREAT | O_EXCL | O_CLOEXEC, 0666);
        if (file < 0 && errno != EEXIST)
            return -1;
    }
    return file;
}

static int copy_file(int from, int to)
{
    char part[16384];
    ssize_t got;
    for (off_t at = 0; (got = pread(from, part, sizeof part, at)) > 0; at += got)
        for (ssize_t done = 0; done < got;) {
            ssize_t put = write(to, part + done, (size_t)(got - done));
            if (put < 0 && errno != EINTR)
                return -1;
            done += put > 0 ? put : 0;
        }
    return got == 0 ? 0 : -1;
}

void thp_leave_trace(const struct thp_artifacts *a, int scenario)
{
    char folder[THP_PATH], path[THP_PATH] = "";
    if (a->nth == 0 || a->traces[0] == '\0')
        return;
    int to = make_folders(strcpy(folder, a->traces)) == 0 ? open_trace(path, a) : -1;
    int is_whole = to >= 0 && copy_file(scenario, to) == 0, error = errno;
    if (to >= 0) {
        close(to);
        if (!is_whole)
            unlink(path);
    }
    if (!is_whole)
        fprintf(stderr, "tracehost: no trace is left in %s: %s\n", a->traces, strerror(error));
}

static void remove_earlier(const struct thp_artifacts *a)
{
    if (a->is_own_folder)
        return;
    pthread_mutex_lock(&files_lock);
    for_earlier(a, 1);
    pthread_mutex_unlock(&files_lock);
}

void thp_end_artifacts(const struct thp_artifacts *a, int failed)
{
    if (a->nth == 0)
        return;
    if (!failed) {
        unlink(a->lines_now);
        unlink(a->scenario_now);
        leave_name(a->stem, a->nth);
    }
    remove_earlier(a);
    if (!failed && a->is_own_folder)
        rmdir(a->folder);
}
