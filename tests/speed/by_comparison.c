/* The wire length as ordinary C finds it: by one comparison after another. */
#include <stdint.h>

uint32_t other_wire_length(uint32_t length);

uint32_t other_wire_length(uint32_t length)
{
    if (length <= 8) {
        return length;
    }
    if (length <= 12) {
        return 12;
    }
    if (length <= 16) {
        return 16;
    }
    if (length <= 20) {
        return 20;
    }
    if (length <= 24) {
        return 24;
    }
    if (length <= 32) {
        return 32;
    }
    if (length <= 48) {
        return 48;
    }
    return length <= 64 ? 64 : 255;
}
