#include "faults.hpp"

int main(int count, char **) {
    try {
        first_fault();
    } catch (const Shown &) {
        count++;
    }
    try {
        second_fault();
    } catch (const Shown &) {
        count++;
    }
    return weighted(count) > 100 ? 1 : 0;
}
