#include "lists.hpp"

template <typename T>
Stack<T>::~Stack() {
    while (top != nullptr) {
        pop();
    }
}

template class Stack<int>;
template class Stack<double>;

int depth(const Stack<int> &stack) {
    int count = 0;
    stack.each([&count](int value) { count += value > 0 ? 1 : 2; });
    return count;
}
