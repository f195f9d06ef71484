// Something that keeps a C++ compiler busy:
// GLIBC_TUNABLES=glibc.malloc.hugetlb=1 clang++ -std=c++17 -O2 -c -o /dev/null heavy.cpp
#include <algorithm>
#include <functional>
#include <map>
#include <regex>
#include <string>
#include <tuple>
#include <vector>

template <int N> struct Level {
    static std::map<std::string, std::vector<std::tuple<int, std::string, Level<N - 1>>>> &rows() {
        static std::map<std::string, std::vector<std::tuple<int, std::string, Level<N - 1>>>> all;
        std::regex word("(a|b)+" + std::to_string(N));
        for (auto &[name, list] : all)
            std::stable_sort(list.begin(), list.end(), [&](auto &x, auto &y) {
                return std::regex_match(std::get<1>(x), word) < std::regex_match(std::get<1>(y), word);
            });
        Level<N - 1>::rows();
        return all;
    }
};
template <> struct Level<0> {
    static int rows() { return 0; }
};
int main() { return Level<200>::rows().size(); }
