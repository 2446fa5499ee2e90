/* Prints the points of the curve Y^2 + Y = X^3 over the field of 4 elements, one place a line. */
#include <stdio.h>

#include "vakhudle.h"

int main(void) {
    uint8_t xs[288], ys[288];
    int32_t count = vakhudle_points(2, 0, 0, 1, 0, 0, xs, sizeof xs, ys, sizeof ys);
    if (count < 0) {
        printf("refused: %d\n", (int)-count);
        return 1;
    }
    for (int32_t i = 0; i < count; i++) {
        printf("place %d: (%d,%d)\n", (int)i + 1, xs[i], ys[i]);
    }
    return 0;
}
