// The header as C++: the three entries are called by their C names, and case A of document 01 is
// filled and asked about.
#include "filbertoss.h"

#include "filbertoss.h" // a second time: the include guard

int main()
{
    // 1 2 1 2 and 1 3 2 2, W R, 6 slots: 0 1 - 1 0 -
    const uint8_t jobs[2 * FILBERTOSS_JOB_BYTES] = {1, 0, 2, 0, 1, 2, 1, 0, 3, 0, 2, 2};
    const uint8_t want[6] = {0, 1, FILBERTOSS_IDLE, 1, 0, FILBERTOSS_IDLE};
    uint8_t got[6] = {9, 9, 9, 9, 9, 9};
    if (filbertoss_admit(jobs, sizeof jobs, FILBERTOSS_RELAXED) != FILBERTOSS_OK) {
        return 1;
    }
    if (filbertoss_fill(jobs, sizeof jobs, FILBERTOSS_ORDER_W, FILBERTOSS_RELAXED, got, sizeof got, 0, 6) !=
        FILBERTOSS_OK) {
        return 2;
    }
    for (int i = 0; i < 6; i++) {
        if (got[i] != want[i]) {
            return 3;
        }
    }
    // cycle 12: 3 windows of 4 slots and 2 of 6, none of them short
    const uint8_t told[2 * FILBERTOSS_BELOW_BYTES] = {3, 0, 0, 0, 0, 0, 0, 0, 255, 255, 255, 255,
                                                      2, 0, 0, 0, 0, 0, 0, 0, 255, 255, 255, 255};
    uint8_t below[2 * FILBERTOSS_BELOW_BYTES] = {0};
    if (filbertoss_below(jobs, sizeof jobs, FILBERTOSS_ORDER_W, FILBERTOSS_RELAXED, FILBERTOSS_SPARE_OFF, below,
                         sizeof below) != FILBERTOSS_OK) {
        return 4;
    }
    for (unsigned i = 0; i < sizeof below; i++) {
        if (below[i] != told[i]) {
            return 5;
        }
    }
    // two refusals by their names, the first of them with a null pointer
    if (filbertoss_admit(nullptr, 0, FILBERTOSS_RELAXED) != FILBERTOSS_REFUSED_NO_JOBS) {
        return 6;
    }
    if (filbertoss_admit(jobs, sizeof jobs, FILBERTOSS_ORIGINAL) != FILBERTOSS_REFUSED_ORIGINAL_MODEL) {
        return 7;
    }
    return 0;
}
