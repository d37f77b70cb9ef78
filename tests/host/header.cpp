// The header as C++ takes it: the call by C's name, and the numbers.
#include "purlthicket.h"
#include <cstdio>

int main() {
    const uint8_t rec[] = {1, 0, 0, 0, 2, 0, 0};
    uint8_t out[PURLTHICKET_ANSWER_SIZE] = {};
    bool done = purlthicket_dim(rec, sizeof rec, out, sizeof out) == PURLTHICKET_DONE && out[21] == 1;
    bool refused = purlthicket_dim(rec, sizeof rec - 1, out, sizeof out) == PURLTHICKET_RECORD && out[5] == PURLTHICKET_RECORD;
    bool short_out = purlthicket_dim(nullptr, 0, nullptr, 0) == PURLTHICKET_OUTPUT;
    std::printf("header: %d passed, %d failed\n", done + refused + short_out, 3 - done - refused - short_out);
    return !(done && refused && short_out);
}
