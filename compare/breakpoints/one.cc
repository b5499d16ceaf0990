#include "shared.h"

int total(const std::vector<std::string> &words)
{
    Counter counter{static_cast<int>(words.size())};
    return counter.doubled(3) + increased<int>(1);
}
