// Runs programs on inputs, in turn, so that what else the machine does falls on all alike.
//
//     measure ROUNDS [PROGRAM INPUT]...
//
// Prints a line for each program and input: the least time of the processor, in nanoseconds, that than which a tenth of the
// rounds took less, and that than which half took less; and the median of the most memory that was resident, in kilobytes.
#include <fcntl.h>
#include <spawn.h>
#include <sys/resource.h>
#include <sys/wait.h>
#include <unistd.h>

#include <algorithm>
#include <cstddef>
#include <cstdio>
#include <cstdlib>
#include <vector>

namespace {

struct Run {
    char* program;
    char* input;
    std::vector<long> times;
    std::vector<long> memories;
};

[[noreturn]] void fail(const char* what) {
    std::perror(what);
    std::exit(1);
}

long nanoseconds(const timeval& time) { return (time.tv_sec * 1'000'000 + time.tv_usec) * 1'000; }

pid_t start(const Run& run) {
    posix_spawn_file_actions_t files;
    posix_spawn_file_actions_init(&files);
    posix_spawn_file_actions_addopen(&files, STDIN_FILENO, run.input, O_RDONLY, 0);
    posix_spawn_file_actions_addopen(&files, STDOUT_FILENO, "/dev/null", O_WRONLY, 0);
    posix_spawn_file_actions_addopen(&files, STDERR_FILENO, "/dev/null", O_WRONLY, 0);
    char* arguments[] = {run.program, nullptr};
    pid_t child;
    if (posix_spawn(&child, run.program, &files, nullptr, arguments, environ) != 0) {
        fail(run.program);
    }
    posix_spawn_file_actions_destroy(&files);
    return child;
}

void measure(Run& run) {
    const pid_t child = start(run);
    int status;
    rusage usage;
    if (wait4(child, &status, 0, &usage) != child || status != 0) {
        fail(run.program);
    }
    run.times.push_back(nanoseconds(usage.ru_utime) + nanoseconds(usage.ru_stime));
    run.memories.push_back(usage.ru_maxrss);
}

long quantile(std::vector<long> values, double part) {
    std::sort(values.begin(), values.end());
    return values[static_cast<std::size_t>(part * values.size())];
}

void print(const Run& run) {
    for (const double part : {0.0, 0.1, 0.5}) {
        std::printf("%ld ", quantile(run.times, part));
    }
    std::printf("%ld\n", quantile(run.memories, 0.5));
}

}  // namespace

int main(int argc, char** argv) {
    if (argc < 4 || argc % 2 != 0 || std::atoi(argv[1]) < 1) {
        std::fputs("usage: measure ROUNDS [PROGRAM INPUT]...\n", stderr);
        return 1;
    }
    const int rounds = std::atoi(argv[1]);
    std::vector<Run> runs;
    for (int i = 2; i < argc; i += 2) {
        runs.push_back({argv[i], argv[i + 1], {}, {}});
    }
    for (int round = 0; round < rounds; ++round) {
        std::for_each(runs.begin(), runs.end(), measure);
    }
    std::for_each(runs.begin(), runs.end(), print);
}
