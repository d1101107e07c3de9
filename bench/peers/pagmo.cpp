// pagmo's fast non-dominated sort on level tables. A question is a line `FILE CALLS`, the answer `BEST NANOSECONDS`.
#include <cstdint>
#include <ctime>
#include <fstream>
#include <iostream>
#include <sstream>
#include <string>
#include <vector>

#include <pagmo/utils/multi_objective.hpp>

static std::vector<pagmo::vector_double> table_in(const std::string &file)
{
    std::vector<pagmo::vector_double> rows;
    std::ifstream lines(file);
    for (std::string line; std::getline(lines, line);) {
        std::istringstream numbers(line);
        pagmo::vector_double row;
        for (double level; numbers >> level;)
            row.push_back(level);
        rows.push_back(row);
    }
    return rows;
}

// The time that this thread has run, as for the peers in the bench's own process.
static std::int64_t nanoseconds()
{
    timespec now;
    clock_gettime(CLOCK_THREAD_CPUTIME_ID, &now);
    return std::int64_t(now.tv_sec) * 1000000000 + now.tv_nsec;
}

int main()
{
    std::string file, last;
    std::vector<pagmo::vector_double> table;
    for (long calls; std::cin >> file >> calls;) {
        if (file != last)
            table = table_in(file);
        last = file;
        std::size_t best = 0;
        const std::int64_t begin = nanoseconds();
        for (long i = 0; i < calls; i++)
            best = std::get<0>(pagmo::fast_non_dominated_sorting(table)).front().size();
        std::cout << best << ' ' << nanoseconds() - begin << std::endl;
    }
}
