// How many lines a second are decided by a list of POSIX expressions and by RE2::Set, for
// bench/decisions to be measured against.
//
//     deciders PATTERNS LINES [WHICH]
//
// Both files have one text a line. The first pattern in order that matches the whole line decides.
// Prints for each of the two, or for the one that is named, the seconds of processor time that all
// lines took, and a sum of what was decided.
#include <re2/re2.h>
#include <re2/set.h>
#include <regex.h>

#include <algorithm>
#include <cstdio>
#include <cstdlib>
#include <ctime>
#include <fstream>
#include <functional>
#include <string>
#include <vector>

namespace {

using Texts = std::vector<std::string>;

Texts lines_of(const char* path) {
    std::ifstream file(path);
    if (!file) {
        std::fprintf(stderr, "deciders: can't read %s\n", path);
        std::exit(2);
    }
    Texts lines;
    for (std::string line; std::getline(file, line);) lines.push_back(line);
    return lines;
}

// Prints the seconds that deciding all lines takes, and the sum of the deciding places from 1.
void timed(const char* name, const Texts& lines, const std::function<long(const std::string&)>& decide) {
    const auto started = std::clock();
    long sum = 0;
    for (const auto& line : lines) sum += decide(line);
    const double seconds = static_cast<double>(std::clock() - started) / CLOCKS_PER_SEC;
    std::printf("%s %.6f %ld\n", name, seconds, sum);
}

void by_posix(const Texts& patterns, const Texts& lines) {
    std::vector<regex_t> list(patterns.size());
    for (size_t i = 0; i < patterns.size(); i++) {
        if (regcomp(&list[i], ("^(" + patterns[i] + ")$").c_str(), REG_EXTENDED | REG_NOSUB) != 0) {
            std::fprintf(stderr, "deciders: no POSIX expression: %s\n", patterns[i].c_str());
            std::exit(2);
        }
    }
    timed("regexec", lines, [&](const std::string& line) -> long {
        for (size_t i = 0; i < list.size(); i++) {
            if (regexec(&list[i], line.c_str(), 0, nullptr, 0) == 0) return i + 1;
        }
        return 0;
    });
}

void by_set(const Texts& patterns, const Texts& lines) {
    RE2::Set set(RE2::Options(), RE2::ANCHOR_BOTH);
    for (const auto& pattern : patterns) set.Add(pattern, nullptr);
    if (!set.Compile()) std::exit(2);
    std::vector<int> found;
    timed("RE2::Set", lines, [&](const std::string& line) -> long {
        if (!set.Match(line, &found)) return 0;
        return *std::min_element(found.begin(), found.end()) + 1;
    });
}

}  // namespace

int main(int argc, char** argv) {
    if (argc != 3 && argc != 4) {
        std::fprintf(stderr, "deciders PATTERNS LINES [WHICH]\n");
        return 2;
    }
    const Texts patterns = lines_of(argv[1]), lines = lines_of(argv[2]);
    const std::string which = argc == 4 ? argv[3] : "";
    if (which.empty() || which == "regexec") by_posix(patterns, lines);
    if (which.empty() || which == "RE2::Set") by_set(patterns, lines);
}
