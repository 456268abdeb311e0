/* Empty arrays as null pointers, as include/wisvalom.h allows them, lines that are written and read back, and the header's test for memory
 * that overlaps. Ends with 0 and a line, or with 1 and the first call that answers otherwise. */
#include <stdio.h>
#include <stdlib.h>

#include "wisvalom.h"

static struct wisvalom_result result;

#define EXPECT(call, answer)                                                                  \
    do {                                                                                      \
        unsigned long got = (unsigned long)(call);                                            \
        if (got != (answer)) {                                                                \
            fprintf(stderr, "line %d: %s gives %lu, not %s\n", __LINE__, #call, got, #answer); \
            exit(1);                                                                          \
        }                                                                                     \
    } while (0)

int main(void)
{
    struct wisvalom_passes none = {NULL, NULL, NULL, NULL, 0, 0};
    struct wisvalom_receiver mast = {0, 0, 6378137};
    size_t numbers[4] = {9, 9, 9, 9}, passes = 9, samples = 9, length = 9;
    uint64_t seconds = 9, nanos = 9, elements[6];
    uint32_t taken = 9;
    double out[4], centre;
    uint8_t bytes[4], text[200];

    EXPECT(wisvalom_read_pass_file(NULL, 0, NULL, 0, NULL, 0, numbers, &centre), 0);
    EXPECT(numbers[0] + numbers[3], 0);
    EXPECT(wisvalom_read_position(NULL, 0, out), WISVALOM_POSITION_RANGE);
    EXPECT(wisvalom_parse(NULL, 0, &taken, out), 0);
    EXPECT(taken, 0);
    EXPECT(wisvalom_parse_from_rfc3339(NULL, 0, &seconds, &nanos), false);
    EXPECT(wisvalom_put_fixed(1, 1, ' ', NULL, 0, 0, 4), false);
    EXPECT(wisvalom_tle_checksum(NULL, 0), 0);
    EXPECT(wisvalom_read_element_lines(NULL, 0, NULL, 0, elements), WISVALOM_LINE_COLUMNS);
    EXPECT(wisvalom_compute_fractional_difference_history(NULL, 0, NULL, 0), 0);
    EXPECT(wisvalom_solve_linear_system(NULL, 0, NULL, 0, 0, NULL, 0, NULL, 0), 0);
    EXPECT(wisvalom_get_pred_pca_times(7e6, 1, 0, 0, 0, 0, 0, 0, 0, NULL, 0, NULL, 0, NULL, 0, NULL, 0, NULL, 0), 0);
    EXPECT(wisvalom_compute_rss(NULL, 0, NULL, 0, NULL, 0, NULL, 0, 0, 0, 0, 7e6, 1, 0, 0, 150.8e6, 0, 0, out), 0);
    EXPECT(wisvalom_compute_gradient(NULL, 0, NULL, 0, NULL, 0, NULL, 0, 0, 0, 0, 7e6, 1, 0, 0, 150.8e6, 0, 0, out), 0);
    EXPECT(wisvalom_store(NULL, 0, NULL, 0, NULL, 0, bytes, 4, &length), 0);
    EXPECT(length, 4);
    EXPECT(wisvalom_store(NULL, 0, NULL, 0, NULL, 0, NULL, 0, &length), WISVALOM_SHORT_MEMORY);
    EXPECT(wisvalom_load(bytes, 4, NULL, 0, NULL, 0, NULL, 0, &passes, &samples), 0);
    EXPECT(passes + samples, 0);
    EXPECT(wisvalom_load(NULL, 0, NULL, 0, NULL, 0, NULL, 0, &passes, &samples), WISVALOM_SIZES);
    EXPECT(wisvalom_fit(none, mast, 1, "", NULL, 0, &result), WISVALOM_FEW_PASSES);
    EXPECT(result.lines, WISVALOM_FEW_PASSES);
    EXPECT(wisvalom_fit_and_format_stored(NULL, 0, NULL, 0, 0, 0, 0, 7e6, 1, NULL, 0, NULL, 0, NULL, 0, NULL, 0, NULL, 0, NULL, 0, NULL, 0,
                                          NULL, 0, &result.a, &result.i, &result.raan0, &result.u0, &result.epoch, &result.epoch_nanos, &result.trials,
                                          &result.best, &result.lines, &result.length),
           WISVALOM_SIZES);
    EXPECT(wisvalom_format_tle_catalog(NULL, 0, 7e6, 1, 0, 0, 0, 0, text, sizeof text, &length), 0);
    EXPECT(length, wisvalom_text_size(0));
    EXPECT(wisvalom_read_element_lines(text + 1, 69, text + 71, 69, elements), 0);
    EXPECT(elements[0], 70);
    EXPECT(elements[2], 572958);
    EXPECT(wisvalom_format_tle_catalog(NULL, 0, 7e6, 1, 0, 0, 0, 0, NULL, 0, &length), WISVALOM_SHORT_MEMORY);
    EXPECT(wisvalom_apart(text, 4, text + 4, 4), true);
    EXPECT(wisvalom_apart(text, 5, text + 4, 4), false);
    EXPECT(wisvalom_apart_from(none, "", &result, sizeof result), true);
    puts("empty arrays may be null");
    return 0;
}
