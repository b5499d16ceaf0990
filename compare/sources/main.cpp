#include "lists.hpp"

namespace {
struct Guard {
    int &count;
    ~Guard() { count--; }
};
}

int main() {
    Stack<int> stack;
    int count = 3;
    for (int i = 0; i < count; i++) {
        stack.push(i);
    }
    {
        Guard guard{count};
        count += depth(stack);
    }
    try {
        if (count > 100) throw count;
    } catch (int) {
        return 2;
    }
    return stack.pop() == 2 ? 0 : 1;
}
