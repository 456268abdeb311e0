/* The static library from C.
 *
 *   fit_stored store SET FILE..                          reads 1 to 16 pass files and writes them as one stored pass set
 *   fit_stored fit SET CENTRE X Y Z INCLINATION NAME     loads the set, fits an orbit and prints its lines
 *   fit_stored fit SET CENTRE LAT,LON,HEIGHT INCLINATION NAME
 *
 * CENTRE is the centre frequency of every pass in Hz (a stored set has none; `store` says the files' own), X Y Z the mast's Earth-fixed
 * position in metres, LAT,LON,HEIGHT the same in degrees and metres, INCLINATION a first guess in degrees. Ends with 1 where something is refused; nothing is then printed.
 */
#include <stdio.h>
#include <stdlib.h>

#include "wisvalom.h"

/* Nothing is allocated: on a board these stand where the linker puts them. A file has at most as many bytes as the command takes. */
static uint32_t counts[WISVALOM_MAX_PASSES];
static int64_t times[WISVALOM_MAX_SAMPLES];
static double freqs[WISVALOM_MAX_SAMPLES];
static double centres[WISVALOM_MAX_PASSES];
static double scratch[WISVALOM_MAX_SCRATCH];
static struct wisvalom_result result;
static uint8_t bytes[1114112];
static uint8_t stored[WISVALOM_MAX_STORED];

static int refused(const char *what, uint32_t number)
{
    fprintf(stderr, "fit_stored: %s: refusal %u\n", what, (unsigned)number);
    return 1;
}

/* All of a file, in `bytes`. A file that does not fit is refused, not cut. */
static size_t read_bytes(const char *path)
{
    FILE *f = fopen(path, "rb");
    size_t n = f ? fread(bytes, 1, sizeof bytes, f) : 0;
    if (!f || ferror(f)) {
        perror(path);
        exit(1);
    }
    if (n == sizeof bytes && fgetc(f) != EOF) {
        fprintf(stderr, "fit_stored: %s: more than %zu bytes\n", path, sizeof bytes);
        exit(1);
    }
    fclose(f);
    return n;
}

/* A word as the library reads numbers, the same as in a pass file. */
static double number(const char *word)
{
    uint32_t taken = 0, k;
    double v = 0;
    k = wisvalom_parse((const uint8_t *)word, strlen(word), &taken, &v);
    if (k)
        exit(refused(word, k));
    if (!taken) {
        fprintf(stderr, "fit_stored: %s: not a number\n", word);
        exit(1);
    }
    return v;
}

static int store(const char *path, int files, char **names)
{
    size_t samples = 0, size = 0;
    uint32_t k;
    FILE *f;
    if (files > WISVALOM_MAX_PASSES)
        return refused(path, WISVALOM_SIZES);
    for (int p = 0; p < files; p++) {
        size_t numbers[4] = {0};
        size_t n = read_bytes(names[p]), room = WISVALOM_MAX_SAMPLES - samples;
        k = wisvalom_read_pass_file(bytes, n, times + samples, room, freqs + samples, room, numbers, &centres[p]);
        if (k)
            return refused(names[p], k);
        fprintf(stderr, "%s: %zu samples, centre %.6f Hz\n", names[p], numbers[0], centres[p]);
        counts[p] = (uint32_t)numbers[0];
        samples += numbers[0];
    }
    k = wisvalom_store(counts, (size_t)files, times, samples, freqs, samples, stored, sizeof stored, &size);
    if (k)
        return refused(path, k);
    f = fopen(path, "wb");
    if (!f || fwrite(stored, 1, size, f) != size || fclose(f)) {
        perror(path);
        return 1;
    }
    return 0;
}

static int fit(const char *path, double centre, struct wisvalom_receiver mast, double degrees, const char *name)
{
    struct wisvalom_passes passes = {counts, times, freqs, centres, 0, 0};
    uint32_t k = wisvalom_load(bytes, read_bytes(path), counts, WISVALOM_MAX_PASSES, times, WISVALOM_MAX_SAMPLES, freqs,
                               WISVALOM_MAX_SAMPLES, &passes.passes, &passes.samples);
    if (k)
        return refused(path, k);
    for (size_t p = 0; p < passes.passes; p++)
        centres[p] = centre;
    k = wisvalom_fit(passes, mast, wisvalom_to_radians(degrees), name, scratch, WISVALOM_MAX_SCRATCH, &result);
    if (k)
        return refused("fit", k);
    if (result.lines)
        return refused("lines", result.lines);
    fwrite(result.text, 1, result.length, stdout);
    fprintf(stderr, "trials %zu, best sum %.6f Hz^2\n", result.trials, result.best);
    return 0;
}

/* The mast of a position line. */
static struct wisvalom_receiver mast_of(const char *line)
{
    double out[3];
    uint32_t k = wisvalom_read_position((const uint8_t *)line, strlen(line), out);
    struct wisvalom_receiver mast;
    if (k)
        exit(refused(line, k));
    mast.x = out[0];
    mast.y = out[1];
    mast.z = out[2];
    return mast;
}

int main(int argc, char **argv)
{
    if (argc > 3 && !strcmp(argv[1], "store"))
        return store(argv[2], argc - 3, argv + 3);
    if (argc == 9 && !strcmp(argv[1], "fit")) {
        struct wisvalom_receiver mast = {number(argv[4]), number(argv[5]), number(argv[6])};
        return fit(argv[2], number(argv[3]), mast, number(argv[7]), argv[8]);
    }
    if (argc == 7 && !strcmp(argv[1], "fit"))
        return fit(argv[2], number(argv[3]), mast_of(argv[4]), number(argv[5]), argv[6]);
    fprintf(stderr, "usage: fit_stored store SET FILE..\n       fit_stored fit SET CENTRE X Y Z INCLINATION NAME\n"
                    "       fit_stored fit SET CENTRE LAT,LON,HEIGHT INCLINATION NAME\n");
    return 2;
}
