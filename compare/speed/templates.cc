// Compiled C++ for compare/speed/count: templates of the standard library, whose rows are counted. WITHOUT_MAIN makes a second unit,
// of the same functions, which the linker drops.
#include <algorithm>
#include <deque>
#include <map>
#include <regex>
#include <set>
#include <sstream>
#include <string>
#include <unordered_map>
#include <vector>

template class std::basic_regex<char>;
template class std::deque<std::string>;
template class std::vector<std::string>;
template class std::map<std::string, int>;
template class std::set<std::string>;
template class std::unordered_map<std::string, int>;
template class std::basic_stringstream<char>;

static int count_words(const std::string &text) {
    std::unordered_map<std::string, int> counts;
    std::istringstream words(text);
    for (std::string word; words >> word;)
        if (std::regex_match(word, std::regex("[a-z]+(-[a-z]+)*"))) counts[word]++;
    std::vector<std::pair<int, std::string>> sorted;
    for (const auto &it : counts) sorted.emplace_back(it.second, it.first);
    std::sort(sorted.begin(), sorted.end());
    std::stable_sort(sorted.rbegin(), sorted.rend());
    return sorted.empty() ? 0 : sorted.back().first;
}

#ifdef WITHOUT_MAIN
int count_in(const char *text) { return count_words(text); }
#else
int main(int count, char **words) { return count > 1 ? count_words(words[1]) : 0; }
#endif
