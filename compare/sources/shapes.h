#ifndef SHAPES_H
#define SHAPES_H

struct shape {
    int width;
    int height;
};

static inline long area(const struct shape *shape) {
    return (long)shape->width
        * shape->height;
}

#endif
