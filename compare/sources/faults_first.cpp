#include "faults.hpp"

void first_fault() {
    throw Noted<std::exception>(std::exception());
}

int unused(int number) {
    return clamped(number) + clamped(number - 5);
}
