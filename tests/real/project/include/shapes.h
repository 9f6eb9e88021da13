/* Shapes: a library of its own, loaded when the program starts. */
#ifndef SHAPES_H
#define SHAPES_H

enum shape_kind { CIRCLE, SQUARE, TRIANGLE };

struct shape {
    enum shape_kind kind;
    double size;
};

double shape_area(const struct shape *shape);
const char *shape_name(const struct shape *shape);
unsigned shapes_named(void);

#endif
