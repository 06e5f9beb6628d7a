// A recording of a session: tracehost_session::record, for C++11 and later.
#ifndef TRACEHOST_RECORD_HPP
#define TRACEHOST_RECORD_HPP

#include <cerrno>
#include <cstddef>
#include <string>
#include <system_error>

#include <fcntl.h>
#include <sys/resource.h>
#include <sys/stat.h>
#include <unistd.h>

// An open file, or -1: the program may close its descriptor, and open another file that gets its number.
class tracehost_file {
public:
    explicit tracehost_file(int file) : descriptor(file)
    {
        struct stat status;
        if (file >= 0 && fstat(file, &status) == 0) {
            device = status.st_dev;
            inode = status.st_ino;
        }
    }
    ~tracehost_file()
    {
        if (is_open())
            close(descriptor);
    }
    tracehost_file(const tracehost_file &) = delete;
    tracehost_file &operator=(const tracehost_file &) = delete;

    bool is_none() const { return descriptor < 0; }
    // nobody closes it
    void leave() { descriptor = -1; }
    // throws std::system_error if the number means another file by now
    int number() const
    {
        if (!is_open())
            throw std::system_error(EBADF, std::generic_category());
        return descriptor;
    }

private:
    bool is_open() const
    {
        struct stat status;
        return descriptor >= 0 && fstat(descriptor, &status) == 0 && status.st_dev == device && status.st_ino == inode;
    }

    int descriptor;
    dev_t device = 0;
    ino_t inode = 0;
};

// A scenario that is whole after each step, and the lines of its steps. Members throw std::system_error.
class tracehost_recording {
public:
    // in files that are empty, and from now on its own; without lines the second is -1
    tracehost_recording(int scenario, int lines, bool kills) : scenario_file(scenario), lines_file(lines), owner(getpid())
    {
        const std::string head = std::string("{\"kill_on_debugger_exit\":") + (kills ? "1" : "0") + ",\"steps\":[";
        replace_end(scenario_file.number(), head, closing(), scenario_size, "");
    }
    tracehost_recording(const tracehost_recording &) = delete;
    tracehost_recording &operator=(const tracehost_recording &) = delete;

    // a new file
    static int opened(const std::string &path)
    {
        const int file = open(path.c_str(), O_WRONLY | O_CREAT | O_TRUNC | O_CLOEXEC, 0666);
        if (file < 0)
            throw std::system_error(errno, std::generic_category(), path);
        return file;
    }

    // Adds a step and its line. A step that ran out of memory isn't part of a scenario, and a forked child's steps aren't its
    // parent's. After an error both files are as before. The line comes first: a program that is killed between both has
    // one line too many, and no step without a line.
    void add(const std::string &step, const std::string &line)
    {
        if (line.find(" error ENOMEM ") != std::string::npos || owner != getpid())
            return;
        const off_t lines_before = lines_size;
        if (!lines_file.is_none())
            replace_end(lines_file.number(), line + "\n", "", lines_size, "");
        try {
            replace_end(scenario_file.number(), (count == 0 ? "\n" : ",\n") + step, closing(), scenario_size, closing());
        } catch (const std::system_error &error) {
            lines_size = lines_before;
            if (!lines_file.is_none() && ftruncate(lines_file.number(), lines_size) != 0)
                throw std::system_error(error.code(), "the lines have one more than the steps");
            throw;
        }
        count++;
    }

    std::size_t steps() const { return count; }

private:
    static std::string closing() { return "\n]}\n"; }

    // Writes `added`, which stays, and `after` from `at` on, in place of `before`.
    static void replace_end(int file, const std::string &added, const std::string &after, off_t &at, const std::string &before)
    {
        const std::string text = added + after;
        rlimit limit;
        std::size_t done = 0;
        if (getrlimit(RLIMIT_FSIZE, &limit) == 0 && limit.rlim_cur != RLIM_INFINITY &&
            static_cast<rlim_t>(at) + text.size() > limit.rlim_cur) // SIGXFSZ would end the program
            throw std::system_error(EFBIG, std::generic_category());
        while (done < text.size()) {
            const ssize_t written = pwrite(file, text.data() + done, text.size() - done, at + static_cast<off_t>(done));
            if (written < 0 && errno != EINTR)
                restore(file, done > 0, at, before);
            done += written < 0 ? 0 : static_cast<std::size_t>(written);
        }
        at += static_cast<off_t>(added.size());
    }

    // Ends the file as before a write that failed, and throws why it failed.
    [[noreturn]] static void restore(int file, bool has_changed, off_t at, const std::string &before)
    {
        const int error = errno;
        const bool is_restored = !has_changed || (pwrite(file, before.data(), before.size(), at) >= 0 &&
                                                     ftruncate(file, at + static_cast<off_t>(before.size())) == 0);
        throw std::system_error(error, std::generic_category(), is_restored ? "" : "the file isn't whole");
    }

    tracehost_file scenario_file, lines_file;
    off_t scenario_size = 0, lines_size = 0;
    std::size_t count = 0;
    pid_t owner;
};

#endif
