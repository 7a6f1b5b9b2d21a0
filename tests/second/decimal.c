#include "decimal.h"

enum { MOST_DIGITS = 10 };

bool decimal_parse(const char *text, size_t length, uint32_t *number)
{
    if (length == 0 || length > MOST_DIGITS || (length > 1 && text[0] == '0'))
        return false;
    uint64_t sum = 0;
    for (size_t i = 0; i < length; i++) {
        if (text[i] < '0' || text[i] > '9')
            return false;
        sum = sum * 10 + (uint64_t)(text[i] - '0');
    }
    if (sum > UINT32_MAX)
        return false;
    *number = (uint32_t)sum;
    return true;
}
