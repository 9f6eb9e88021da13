#include <math.h>

#include "numbers.h"

double mean_of(const double *values, size_t count)
{
    double sum = 0;
    for (size_t at = 0; at < count; at++)
        sum += values[at];
    return count ? sum / (double)count : 0;
}

double deviation_of(const double *values, size_t count)
{
    double mean = mean_of(values, count), sum = 0;
    for (size_t at = 0; at < count; at++)
        sum += pow(values[at] - mean, 2);
    return count ? sqrt(sum / (double)count) : 0;
}
