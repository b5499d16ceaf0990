#include <string>
#include <vector>

// Both files compile this function, so a linker keeps one copy of it and drops the other.
struct Counter {
    int value;
    __attribute__((noinline)) int doubled(int rounds) const
    {
        int result = value;
        for (int i = 0; i < rounds; i++)
            result = result * 2 + i;
        return result;
    }
};

// Two functions with the same code, which --icf makes one.
template <typename T> __attribute__((noinline)) T increased(T value)
{
    T more = value + 1;
    return more;
}

int total(const std::vector<std::string> &words);
