#include "faults.hpp"

// The linker keeps the functions of Noted of the unit before, and drops those of this one. What follows is kept.
void second_fault() {
    throw Noted<std::exception>(std::exception());
}

int weighted(int count) {
    int sum = 0;
    for (int i = 0; i < count; i++) {
        sum += i * clamped(count - i);
    }
    return sum;
}
