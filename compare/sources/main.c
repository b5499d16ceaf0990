#include <stddef.h>

#include "shapes.h"

int sum(const int *numbers, size_t count);
long long_sum(const struct shape *shapes, size_t count);

int main(int count, char **words) {
    int numbers[] = {1, -2, 3, 4};
    struct shape shapes[] = {{1, 2}, {3, 4}};
    (void)words;
    if (count > 1) {
        return (int)long_sum(shapes, sizeof shapes / sizeof shapes[0]);
    }
    return sum(numbers, sizeof numbers / sizeof numbers[0]) > 0 ? 0 : 1;
}
