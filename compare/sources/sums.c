#include <stddef.h>

#include "shapes.h"

static int weight(int index) {
    switch (index % 4) {
    case 0:
        return 1;
    case 1:
        return 3;
    case 2:
        return index > 8 ? 5 : 7;
    default:
        return 9;
    }
}

int sum(const int *numbers, size_t count) {
    int total = 0;
    for (size_t i = 0; i < count; i++) {
        if (numbers[i] < 0) {
            continue;
        }
        total += weight((int)i) * numbers[i];
    }
    return total;
}

long long_sum(const struct shape *shapes, size_t count) {
    long total = 0;
    while (count-- > 0) {
        total += area(&shapes[count]); total -= shapes[count].height;
    }
    return total;
}
