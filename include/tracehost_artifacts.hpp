// The files of tests in a folder that programs, their tests and their processes share: their names, and who may remove which.
// For tracehost_test.hpp.
//
// While a test runs, the process's number is at the end of its files' names. They are renamed if it fails, and removed if it
// passes. A process that ends in between leaves them so.
#ifndef TRACEHOST_ARTIFACTS_HPP
#define TRACEHOST_ARTIFACTS_HPP

#include "tracehost_record.hpp"

#include <algorithm>
#include <array>
#include <cstdint>
#include <cstdio>
#include <cstdlib>
#include <filesystem>
#include <mutex>
#include <optional>
#include <set>
#include <string>
#include <system_error>
#include <utility>
#include <vector>

#include <poll.h>
#include <signal.h>
#include <spawn.h>
#include <sys/file.h>
#include <sys/stat.h>
#include <sys/wait.h>
#include <time.h>
#include <unistd.h>

// A folder of records. Nobody else renames or removes its files while this object lives; it goes on without the lock if there
// is none to be had.
class tracehost_folder_lock {
public:
    // A signal's handler may call it. It waits for so many times 10 ms at most.
    explicit tracehost_folder_lock(const char *folder, int tries = 1000) : number(open(folder, O_RDONLY | O_DIRECTORY | O_CLOEXEC))
    {
        while (number >= 0 && flock(number, LOCK_EX | LOCK_NB) != 0) {
            is_busy = errno == EWOULDBLOCK && --tries <= 0;
            if (errno != EWOULDBLOCK || is_busy)
                return;
            poll(nullptr, 0, 10);
        }
    }
    ~tracehost_folder_lock()
    {
        if (number < 0)
            return;
        flock(number, LOCK_UN); // a child that was forked meanwhile has it too
        close(number);
    }
    tracehost_folder_lock(const tracehost_folder_lock &) = delete;
    tracehost_folder_lock &operator=(const tracehost_folder_lock &) = delete;

    // somebody has it for a long time
    bool is_busy = false;

private:
    int number;
};

// What earlier runs of this program have left in a folder, as it was before the program's first test.
class tracehost_earlier_files {
public:
    tracehost_earlier_files(std::string folder, const std::string &program) : place(std::move(folder))
    {
        std::error_code ignored;
        for (std::filesystem::directory_iterator file(place, ignored), end; !ignored && file != end; file.increment(ignored)) {
            const std::string name = file->path().filename().string();
            struct stat status {};
            if (name.compare(0, program.size(), program) == 0 && (is_whole(name) || is_running(name)) &&
                lstat(file->path().c_str(), &status) == 0)
                files.emplace_back(name, status.st_ino);
        }
    }

    const std::string &folder() const { return place; }

    // Tells of what the test left when its process died.
    void tell(const std::string &stem) const
    {
        for (const auto &[name, inode] : files)
            if (is_of(name, stem) && is_running(name) && scenario_of(name) == name && is_to_go(name, inode))
                std::fprintf(stderr, "tracehost: left by a test that ended its process: %s\n", path(name).c_str());
    }

    // Removes what an earlier run of the test has left.
    void remove(const std::string &stem) const
    {
        if (std::none_of(files.begin(), files.end(), [&](const auto &file) { return is_of(file.first, stem); }))
            return;
        const tracehost_folder_lock lock(place.c_str());
        for (const auto &[name, inode] : files)
            if (is_of(name, stem) && is_to_go(name, inode))
                unlink(path(name).c_str());
    }

private:
    static bool ends_in(const std::string &name, const std::string &end)
    {
        return name.size() > end.size() && name.compare(name.size() - end.size(), end.size(), end) == 0;
    }
    static bool is_whole(const std::string &name) { return ends_in(name, ".json") || ends_in(name, ".out") || ends_in(name, ".html"); }
    static bool is_running(const std::string &name)
    {
        const std::size_t dot = name.rfind('.');
        const std::string front = name.substr(0, dot);
        return dot + 1 < name.size() && name.find_first_not_of("0123456789", dot + 1) == std::string::npos &&
            (ends_in(front, ".json") || ends_in(front, ".out"));
    }
    static bool is_of(const std::string &name, const std::string &stem)
    {
        return name.compare(0, stem.size(), stem) == 0 && name.size() > stem.size() && (name[stem.size()] == '.' || name[stem.size()] == '-');
    }
    static std::string scenario_of(const std::string &name)
    {
        const std::size_t dot = name.rfind('.');
        const std::string front = name.substr(0, dot);
        return is_running(name) && ends_in(front, ".out") ? front.substr(0, front.size() - 4) + ".json" + name.substr(dot) : name;
    }

    // Whether it is the same file, from before this program began, and no process makes it.
    bool is_to_go(const std::string &name, ino_t inode) const
    {
        struct stat status {};
        if (lstat(path(name).c_str(), &status) != 0 || status.st_ino != inode)
            return false;
        const timespec &changed = status.st_ctim;
        const bool is_older = changed.tv_sec < began.tv_sec || (changed.tv_sec == began.tv_sec && changed.tv_nsec < began.tv_nsec);
        return is_older && !(is_running(name) && is_in_use(scenario_of(name)));
    }

    // Its process has locked the scenario.
    bool is_in_use(const std::string &scenario) const
    {
        const int file = open(path(scenario).c_str(), O_RDONLY | O_CLOEXEC | O_NOFOLLOW);
        if (file < 0)
            return errno != ENOENT;
        const bool is_free = flock(file, LOCK_EX | LOCK_NB) == 0;
        close(file);
        return !is_free;
    }

    static timespec now()
    {
        timespec time{};
        clock_gettime(CLOCK_REALTIME_COARSE, &time); // that of files
        return time;
    }

    inline static const timespec began = now();
    std::string path(const std::string &name) const { return place + "/" + name; }

    std::string place;
    std::vector<std::pair<std::string, ino_t>> files;
};

// The names that tests of this process have, while they run, and if they have failed.
class tracehost_names {
public:
    static tracehost_names &all()
    {
        static auto *names = new tracehost_names; // a test may end after static objects
        return *names;
    }
    // the name, with a number if a test has it; it is the caller's from now on
    std::string take(const std::string &name)
    {
        const std::lock_guard<std::mutex> guard(mutex);
        std::string taken = name;
        for (int nth = 2; !names.insert(taken).second; nth++)
            taken = name + "-" + std::to_string(nth);
        return taken;
    }
    void give_back(const std::string &name)
    {
        const std::lock_guard<std::mutex> guard(mutex);
        names.erase(name);
    }
    // what `act` does with the earlier files of a folder, one thread at a time
    template <typename Act> void with_earlier(const std::string &folder, const std::string &program, Act act)
    {
        const std::lock_guard<std::mutex> guard(mutex);
        if (!earlier || earlier->folder() != folder)
            earlier.emplace(folder, program);
        act(*earlier);
    }

private:
    std::mutex mutex;
    std::set<std::string> names;
    std::optional<tracehost_earlier_files> earlier;
};

// The files of a test.
class tracehost_artifacts {
public:
    // makes the folder and the files, for a test of this name; throws std::system_error
    explicit tracehost_artifacts(const std::string &test)
    {
        const char *named = std::getenv("TRACEHOST_ARTIFACTS");
        has_own_folder = named == nullptr || *named == '\0';
        folder = has_own_folder ? new_folder(plain(test, 50)) : *named == '/' ? named : std::filesystem::absolute(named).string();
        struct stat status {};
        if (stat(folder.c_str(), &status) != 0)
            std::filesystem::create_directories(folder);
        stem = stem_of(test);
        if (const char *wanted = std::getenv("TRACEHOST_TRACES"); wanted != nullptr && *wanted != '\0')
            traces = std::filesystem::absolute(wanted);
        if (!has_own_folder)
            tracehost_names::all().with_earlier(
                folder, this_program().name, [&](const tracehost_earlier_files &files) { files.tell(stem); });
        name = tracehost_names::all().take(stem);
        const std::string front = folder + "/" + name, process = "." + std::to_string(getpid());
        paths = {front + ".json", front + ".out", front + ".html", front + ".json" + process, front + ".out" + process};
        locked.emplace(opened(scenario_now()));
        static_cast<void>(flock(locked->number(), LOCK_EX | LOCK_NB));
    }
    ~tracehost_artifacts()
    {
        if (!has_failed)
            tracehost_names::all().give_back(name);
    }
    tracehost_artifacts(const tracehost_artifacts &) = delete;
    tracehost_artifacts &operator=(const tracehost_artifacts &) = delete;

    // their last names, and those while the test runs
    const std::string &scenario() const { return paths[0]; }
    const std::string &lines() const { return paths[1]; }
    const std::string &page() const { return paths[2]; }
    const std::string &scenario_now() const { return paths[3]; }
    const std::string &lines_now() const { return paths[4]; }
    int scenario_file() const { return locked->number(); }
    // a new file
    static int opened(const std::string &path)
    {
        const int file = open(path.c_str(), O_RDWR | O_CREAT | O_TRUNC | O_CLOEXEC | O_NOFOLLOW, 0666);
        if (file < 0)
            throw std::system_error(errno, std::generic_category(), path);
        return file;
    }

    // Copies the scenario to the folder $TRACEHOST_TRACES, if it is set, as STEM.PROCESS.json. What goes wrong is told.
    void leave_trace() const
    {
        if (traces.empty())
            return;
        const std::string front = (traces / stem).string() + "." + std::to_string(getpid());
        std::error_code error;
        std::filesystem::create_directories(traces, error);
        std::string trace = front;
        for (int nth = 2; !error && !std::filesystem::copy_file(scenario_now(), trace + ".json", error); nth++) {
            if (error != std::errc::file_exists)
                break;
            error.clear();
            trace = front + "-" + std::to_string(nth);
        }
        if (!error)
            return;
        std::error_code ignored;
        std::filesystem::remove(trace + ".json", ignored); // a part, if the disk is full
        say("no trace is left in " + traces.string() + ": " + error.message());
    }

    // the test has passed
    void remove()
    {
        unlink(lines_now().c_str());
        unlink(scenario_now().c_str());
        remove_earlier();
        if (has_own_folder)
            rmdir(folder.c_str());
    }

    // Gives the files their last names; an errno, or 0. A signal's handler may call it, with few tries.
    int rename_all(int tries = 1000) noexcept
    {
        const tracehost_folder_lock lock(folder.c_str(), tries);
        if (lock.is_busy)
            return EWOULDBLOCK;
        if (std::rename(scenario_now().c_str(), scenario().c_str()) != 0)
            return errno;
        has_failed = true;
        static_cast<void>(std::rename(lines_now().c_str(), lines().c_str()));
        unlink(page().c_str()); // of an earlier run
        return 0;
    }

    // the test has failed after so many steps
    void keep(const std::string &test, const std::string &message, std::size_t step)
    {
        if (const int error = rename_all()) {
            say("the record stays " + scenario_now() + ": " + std::system_category().message(error));
            return;
        }
        remove_earlier();
        if (step > 0)
            make_page(test, message, std::to_string(step));
        std::error_code ignored;
        const std::string made = std::filesystem::exists(page(), ignored) ? page() : "none";
        say("scenario: " + scenario() + "\ntracehost: lines:    " + lines() + "\ntracehost: page:     " + made);
        if (step == 0 || !tell_story(std::to_string(step))) // whose last line is this command
            say("to go on from here: tracehost-debug " + scenario());
    }

    // ---- what a signal's handler may call

    using words_of_command = const char *[10];

    // the command that makes the page of a test that failed after so many steps
    void page_command(words_of_command &words, const char *test, const char *message, const char *step) const noexcept
    {
        // its arguments: the scenario, the page, the test, the message, and the number of the step
        static const char script[] = R"(
for program in "${TRACEHOST:=tracehost}" "${TRACEHOST_VIEW:=tracehost-view}"; do
  command -v "$program" >/dev/null || { echo "tracehost: there is no $program for the page"; exit 1; }
done
trace=$("$TRACEHOST" --json=trace+rows -- "$1") && printf '%s\n' "$trace" |
  "$TRACEHOST_VIEW" -o "$2" --title="$3" --failed="$3" --message="$4" --at="$5" -
)";
        const char *const made[] = {"/bin/sh", "-c", script, "sh", scenario().c_str(), page().c_str(), test, message, step, nullptr};
        std::copy(std::begin(made), std::end(made), words);
    }

    enum class ending { well, badly, never };

    // Waits for a group of processes by its first one, and kills it if it doesn't end.
    static ending wait_for(pid_t child, int seconds = seconds_for_a_page) noexcept
    {
        int status = 0;
        for (int times = 0; times < seconds * 100; times++) {
            const pid_t ended = waitpid(child, &status, WNOHANG);
            if (ended > 0)
                return WIFEXITED(status) && WEXITSTATUS(status) == 0 ? ending::well : ending::badly;
            if (ended < 0 && errno != EINTR) // a program that ignores SIGCHLD gets no status
                return ending::badly;
            poll(nullptr, 0, 10);
        }
        kill(-child, SIGKILL);
        while (waitpid(child, &status, 0) < 0 && errno == EINTR)
            continue;
        return ending::never;
    }

    // on standard error, and not by a stream, which may throw
    static void say(const std::string &text) { std::fputs(("tracehost: " + text + "\n").c_str(), stderr); }

private:
    // at most so many characters, with plain ones only
    static std::string plain(const std::string &text, std::size_t most)
    {
        std::string name = text.substr(0, most);
        for (char &one : name)
            if (!((one >= 'a' && one <= 'z') || (one >= 'A' && one <= 'Z') || (one >= '0' && one <= '9') || one == '_' || one == '-' ||
                    one == '.'))
                one = '_';
        return name;
    }

    // FNV-1a, of the text and a NUL
    static std::uint64_t digest_of(const std::string &text, std::uint64_t digest)
    {
        for (std::size_t at = 0; at <= text.size(); at++) {
            const char one = text.c_str()[at];
            digest = (digest ^ static_cast<unsigned char>(one)) * 1099511628211u;
        }
        return digest;
    }

    // PROGRAM. and the digest of its path, which are the same for all tests
    struct program_name {
        std::string name;
        std::uint64_t digest;
    };
    static const program_name &this_program()
    {
        static const auto *made = new program_name(find_program()); // a test may end after static objects
        return *made;
    }
    static program_name find_program()
    {
        std::error_code ignored;
        const std::filesystem::path path = std::filesystem::read_symlink("/proc/self/exe", ignored);
        std::string program = path.has_filename() ? plain(path.filename().string(), 30) : "program";
        if (program[0] == '.' || program[0] == '-')
            program[0] = '_';
        return {program + ".", digest_of(path.string(), 14695981039346656037u)};
    }

    // PROGRAM.TEST-DIGEST, with a digest of the program's path and the test's name
    static std::string stem_of(const std::string &test)
    {
        const std::uint64_t digest = digest_of(test, this_program().digest);
        std::string made = this_program().name + plain(test, 50) + "-";
        for (int shift = 44; shift >= 0; shift -= 4)
            made += "0123456789abcdef"[digest >> shift & 15];
        return made;
    }

    static std::string new_folder(const std::string &name)
    {
        std::string made = std::filesystem::temp_directory_path() / ("tracehost-" + name + "-XXXXXX");
        if (mkdtemp(made.data()) == nullptr)
            throw std::system_error(errno, std::generic_category(), made);
        return made;
    }

    void remove_earlier()
    {
        if (!has_own_folder)
            tracehost_names::all().with_earlier(
                folder, this_program().name, [&](const tracehost_earlier_files &files) { files.remove(stem); });
    }

    void make_page(const std::string &test, const std::string &message, const std::string &step)
    {
        words_of_command words;
        page_command(words, test.c_str(), message.c_str(), step.c_str());
        if (run(words, seconds_for_a_page) == ending::never)
            say("the page isn't made in " + std::to_string(seconds_for_a_page) + " seconds");
    }

    // What the session comes to, in words. False if there is no tracehost-debug, or it fails.
    bool tell_story(const std::string &step)
    {
        const char *named = std::getenv("TRACEHOST_DEBUG"), *program = named == nullptr ? "tracehost-debug" : named;
        const std::string at = "--at=" + step;
        const char *const words[] = {program, "--story", at.c_str(), "--", scenario().c_str(), nullptr};
        return *program != '\0' && run(words, seconds_for_a_story) == ending::well;
    }

    // Runs a command with standard error as its output, as a group of processes.
    static ending run(const char *const *words, int seconds)
    {
        posix_spawn_file_actions_t files;
        posix_spawnattr_t attributes;
        ending how = ending::badly;
        if (posix_spawn_file_actions_init(&files) != 0)
            return how;
        if (posix_spawnattr_init(&attributes) == 0) {
            posix_spawn_file_actions_addopen(&files, STDIN_FILENO, "/dev/null", O_RDONLY, 0);
            posix_spawn_file_actions_adddup2(&files, STDERR_FILENO, STDOUT_FILENO);
            posix_spawnattr_setflags(&attributes, POSIX_SPAWN_SETPGROUP);
            pid_t child = 0;
            std::fflush(stderr);
            if (posix_spawnp(&child, words[0], &files, &attributes, const_cast<char *const *>(words), environ) == 0)
                how = wait_for(child, seconds);
            posix_spawnattr_destroy(&attributes);
        }
        posix_spawn_file_actions_destroy(&files);
        return how;
    }

#ifndef TRACEHOST_SECONDS_FOR_A_PAGE // a test has less
#define TRACEHOST_SECONDS_FOR_A_PAGE 300
#endif
#ifndef TRACEHOST_SECONDS_FOR_A_STORY
#define TRACEHOST_SECONDS_FOR_A_STORY 60
#endif
    static constexpr int seconds_for_a_page = TRACEHOST_SECONDS_FOR_A_PAGE, seconds_for_a_story = TRACEHOST_SECONDS_FOR_A_STORY;

    std::string folder, stem, name;
    std::filesystem::path traces; // $TRACEHOST_TRACES; empty if it isn't set
    std::array<std::string, 5> paths;
    bool has_own_folder = false, has_failed = false;
    std::optional<tracehost_file> locked;
};

#endif
