#include <math.h>

#include "shapes.h"

static const double pi = 3.14159265358979323846;

double shape_area(const struct shape *shape)
{
    switch (shape->kind) {
    case CIRCLE:
        return pi * shape->size * shape->size;
    case SQUARE:
        return shape->size * shape->size;
    case TRIANGLE:
        return sqrt(3) / 4 * shape->size * shape->size;
    }
    return 0;
}
