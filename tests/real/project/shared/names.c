#include "shapes.h"

static _Thread_local unsigned named;

const char *shape_name(const struct shape *shape)
{
    static const char *const names[] = {
        [CIRCLE] = "circle",
        [SQUARE] = "square",
        [TRIANGLE] = "triangle",
    };
    named++;
    return names[shape->kind];
}

unsigned shapes_named(void)
{
    return named;
}
