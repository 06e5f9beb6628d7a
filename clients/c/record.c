/* The record of a session, as a scenario and its lines: tracehost_client.h describes each call. */
#define _POSIX_C_SOURCE 200809L

#include "internal.h"

#include <fcntl.h>
#include <string.h>
#include <sys/resource.h>
#include <sys/stat.h>
#include <unistd.h>

static const char end[] = "\n]}\n";

struct thp_file thp_file_of(int number)
{
    struct stat status;
    struct thp_file none = {.number = -1}, file = {.number = number};
    if (number < 0 || fstat(number, &status) != 0)
        return none;
    file.device = status.st_dev;
    file.inode = status.st_ino;
    return file;
}

/* whether the number still means the file; else errno */
static int is_open(const struct thp_file *file)
{
    struct thp_file now = thp_file_of(file->number);
    errno = EBADF;
    return now.number >= 0 && now.device == file->device && now.inode == file->inode;
}

void thp_close_file(struct thp_file *file)
{
    if (is_open(file))
        close(file->number);
    file->number = -1;
}

/* a longer file than the limit isn't begun, since SIGXFSZ would end the program */
static int may_have_size(off_t size)
{
    struct rlimit limit;
    return getrlimit(RLIMIT_FSIZE, &limit) != 0 || limit.rlim_cur == RLIM_INFINITY || (rlim_t)size <= limit.rlim_cur;
}

/* Writes the bytes from `at` on, if the file ends in `before`; -1 with errno, and the file ends as before. */
static int replace_end(const struct thp_file *file, const char *bytes, size_t length, off_t at, const char *before)
{
    size_t done = 0, kept = strlen(before);
    if (!is_open(file))
        return -1;
    if (!may_have_size(at + (off_t)length)) {
        errno = EFBIG;
        return -1;
    }
    while (done < length) {
        ssize_t written = pwrite(file->number, bytes + done, length - done, at + (off_t)done);
        if (written >= 0) {
            done += (size_t)written;
        } else if (errno != EINTR) {
            int error = errno;
            if (done > 0 && (kept == 0 || pwrite(file->number, before, kept, at) == (ssize_t)kept))
                (void)!ftruncate(file->number, at + (off_t)kept);
            errno = error;
            return -1;
        }
    }
    return 0;
}

/* Adds to the scenario in place of the brackets that close it, and closes it again, so that it is whole after each step. */
static int add_entry(th_host *h, const char *between, const char *bytes, size_t length)
{
    struct thp_text *entry = &h->entry;
    entry->length = 0;
    thp_add_bytes(entry, between, strlen(between));
    thp_add_bytes(entry, bytes, length);
    size_t added = entry->length;
    thp_add_bytes(entry, end, strlen(end));
    if (entry->failed) {
        errno = ENOMEM;
        return -1;
    }
    if (replace_end(&h->scenario, entry->bytes, entry->length, h->recorded, h->recorded == 0 ? "" : end) != 0)
        return -1;
    h->recorded += (off_t)added;
    return 0;
}

static struct thp_file open_new(const char *path)
{
    return thp_file_of(open(path, O_WRONLY | O_CREAT | O_TRUNC | O_CLOEXEC, 0666));
}

static int add_head(th_host *h)
{
    const char *head = h->kills ? "{\"kill_on_debugger_exit\":1,\"steps\":[" : "{\"kill_on_debugger_exit\":0,\"steps\":[";
    return add_entry(h, "", head, strlen(head));
}

static int open_record(th_host *h, const char *scenario, const char *lines)
{
    if (h->answered || h->scenario.number >= 0) {
        errno = EBUSY;
        return -1;
    }
    h->scenario = open_new(scenario);
    if (h->scenario.number >= 0 && lines != NULL)
        h->lines = open_new(lines);
    if (h->scenario.number >= 0 && (lines == NULL || h->lines.number >= 0) && add_head(h) == 0)
        return 0;
    int error = errno;
    thp_close_record(h);
    errno = error;
    return -1;
}

int thp_begin_record(th_host *h, int scenario, int lines)
{
    h->scenario = thp_file_of(scenario);
    h->lines = thp_file_of(lines);
    if (add_head(h) == 0)
        return 0;
    h->scenario.number = -1;
    return -1;
}

int th_record(th_host *h, const char *scenario, const char *lines)
{
    thp_enter(h);
    int result = open_record(h, scenario, lines);
    thp_leave(h);
    return result;
}

/* a step that ran out of memory isn't part of a scenario, and a forked child's steps aren't the parent's */
static int is_recorded(const th_host *h, const struct thp_reply *reply)
{
    int is_made = reply->kind != THP_REFUSED && (reply->kind != THP_ERROR || reply->error != ENOMEM);
    return h->scenario.number >= 0 && is_made && !thp_is_inherited(h);
}

static int add_line(th_host *h)
{
    struct thp_text *answer = &h->answer;
    if (h->lines.number < 0)
        return 0;
    answer->bytes[answer->length - 1] = '\n';
    int result = replace_end(&h->lines, answer->bytes, answer->length, h->lines_end, "");
    answer->bytes[answer->length - 1] = '\0';
    return result;
}

/* A step can't be written. A test goes on without a record; another session has ended. */
static int lose_record(th_host *h, int error)
{
    h->record_error = error;
    if (h->test != NULL) {
        thp_tell_lost_record(h, error);
        h->scenario.number = -1;
        return 0;
    }
    thp_break_off(h);
    errno = TH_ERECORD;
    return -1;
}

/* The line comes first: a program that is killed between both has one line too many, and no step without a line. */
int thp_record(th_host *h, const struct thp_reply *reply)
{
    if (!is_recorded(h, reply))
        return 0;
    int result = add_line(h);
    if (result == 0) {
        result = add_entry(h, h->steps == 0 ? "\n" : ",\n", h->step.bytes, h->step.length - 1);
        int error = errno;
        if (result != 0 && is_open(&h->lines))
            (void)!ftruncate(h->lines.number, h->lines_end);
        errno = error;
    }
    if (result != 0)
        return lose_record(h, errno);
    h->steps++;
    if (h->lines.number >= 0)
        h->lines_end += (off_t)h->answer.length;
    return 0;
}

int th_record_error(const th_host *h) { return h->record_error; }

void thp_close_record(th_host *h)
{
    thp_close_file(&h->scenario);
    thp_close_file(&h->lines);
}
