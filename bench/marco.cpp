// usage: marco BOOK -- lists a rule book by the loop of document 000 (algorithms 1 and 2) over cadical, as bench/marco.py does over z3.
//
// One solver holds the book, each group switched on by an assumption; a second one, the map, holds what the records leave open. Prints the records in
// the order in which the loop finds them, then complete or stopped; and `seconds` with the CPU time of the loop, without the start of the process and
// the reading of the book. Past the time limit that line is `over SECONDS`.
#include <ccadical.h>
#include <cstdint>
#include <cstdio>
#include <ctime>
#include <vector>

static const size_t ROOM = 4096;
static const double LIMIT = 60;
static const int SAT = 10;

typedef uint32_t Set;

static double cpu() {
    timespec time;
    clock_gettime(CLOCK_PROCESS_CPUTIME_ID, &time);
    return time.tv_sec + time.tv_nsec / 1e9;
}

static bool has(Set set, int group) { return set >> group & 1; }

struct Solver {
    CCaDiCaL *solver = ccadical_init();
    ~Solver() { ccadical_release(solver); }
    void add(const std::vector<int> &literals) {
        for (int literal : literals) ccadical_add(solver, literal);
        ccadical_add(solver, 0);
    }
};

// Group g, counted from 0, is variable g + 1 of both solvers.
struct Book : Solver {
    int groups;
    explicit Book(const std::vector<uint8_t> &bytes) {
        auto word = [&](size_t at) { return bytes[at] * 256 + bytes[at + 1]; };
        groups = word(5);
        for (size_t at = 7; bytes[at] == 2; at += 3 + word(at + 1)) {
            std::vector<int> literals;
            if (int group = word(at + 3)) literals.push_back(-group);
            if (int head = word(at + 5)) literals.push_back(groups + head);
            for (size_t place = at + 7; place < at + 3 + word(at + 1); place += 2) literals.push_back(-(groups + word(place)));
            add(literals);
        }
    }
    // Whether a seed is consistent; else an inconsistent part of it.
    bool consistent(Set seed, Set &core) {
        for (int group = 0; group < groups; group++)
            if (has(seed, group)) ccadical_assume(solver, group + 1);
        if (ccadical_solve(solver) == SAT) return true;
        core = 0;
        for (int group = 0; group < groups; group++)
            if (has(seed, group) && ccadical_failed(solver, group + 1)) core |= Set(1) << group;
        return false;
    }
    // Takes out what can be taken out; each question that stays inconsistent may take out more.
    Set explanation(Set within) {
        Set needed = 0, core;
        while (Set rest = within & ~needed) {
            Set group = rest & -rest;
            if (consistent(within & ~group, core)) needed |= group;
            else within = core;
        }
        return within;
    }
};

struct Map : Solver {
    int groups;
    Set explained = 0;
    explicit Map(int count) : groups(count) {
        for (int group = 0; group < groups; group++) add({group + 1, -(group + 1)});
    }
    // A choice that the records leave open.
    bool trial(Set with, Set without, Set &found) {
        for (int group = 0; group < groups; group++) {
            if (has(with, group)) ccadical_assume(solver, group + 1);
            if (has(without, group)) ccadical_assume(solver, -(group + 1));
        }
        if (ccadical_solve(solver) != SAT) return false;
        found = 0;
        for (int group = 0; group < groups; group++)
            if (ccadical_val(solver, group + 1) > 0) found |= Set(1) << group;
        return true;
    }
    // A largest choice that the records leave open. A group that no explanation holds is in it from the start.
    bool seed(Set all, Set &found) {
        if (!trial(all & ~explained, 0, found)) return false;
        Set without = 0, more;
        for (int group = 0; group < groups; group++) {
            if (has(found, group)) continue;
            if (trial(found | Set(1) << group, without, more)) found |= more;
            else without |= Set(1) << group;
        }
        return true;
    }
    void block(Set set, int sign) {
        std::vector<int> literals;
        for (int group = 0; group < groups; group++)
            if (has(set, group)) literals.push_back(sign * (group + 1));
        add(literals);
    }
};

static void print(bool explanation, Set set, int groups) {
    printf(explanation ? "explain" : "repair");
    if (!set) printf(" none");
    for (int group = 0; group < groups; group++)
        if (has(set, group)) printf(" %d", group + 1);
    puts("");
}

int main(int, char **arguments) {
    FILE *file = fopen(arguments[1], "rb");
    if (!file) return 1;
    std::vector<uint8_t> bytes(65536);
    bytes.resize(fread(bytes.data(), 1, bytes.size(), file));
    Book book(bytes);
    Map map(book.groups);
    Set all = book.groups ? ~Set(0) >> (32 - book.groups) : 0, seed, core;
    printf("groups %d\n", book.groups);
    double begun = cpu();
    for (size_t count = 0;; count++) {
        bool more = map.seed(all, seed);
        bool over = cpu() - begun > LIMIT;
        if (!more || count == ROOM || over) {
            if (over) printf("over %.0f\n", LIMIT);
            else printf("%s %zu\n", more ? "stopped" : "complete", count);
            printf("seconds %.6f\n", cpu() - begun);
            return 0;
        }
        bool consistent = book.consistent(seed, core);
        Set set = consistent ? all & ~seed : book.explanation(core);
        if (!consistent) map.explained |= set;
        map.block(set, consistent ? 1 : -1);
        print(!consistent, set, book.groups);
    }
}
