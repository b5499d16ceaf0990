#include "shared.h"
#include <cstdio>

static __attribute__((noinline)) long length_of(const std::string &word)
{
    long length = static_cast<long>(word.size());
    return length;
}

int main(int count, char **arguments)
{
    std::vector<std::string> words;
    for (int i = 0; i < count; i++)
        words.push_back(arguments[i]);
    Counter counter{count};
    std::printf("%d %d\n", counter.doubled(count), total(words));
    std::printf("%ld %u\n", increased<long>(length_of(words[0])), increased<unsigned>(2));
    return 0;
}
