/* The marks of the ten registers as an SVG. */
#ifndef PICTURE_H
#define PICTURE_H

#include "device.h"

/* 0, and the reason in errno, if the file can't be written; it then is as it was. */
int write_picture(const struct device *device, const char *path);

#endif
