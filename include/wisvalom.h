/* The functions of libexports.a (./archives exports), libexports_geodetic.a and libexports_element_lines.a (the same with their names), for C99, C++11
 * and other languages that call C. Those of the last two say so; all others are in the first.
 *
 * The quick way is the last part of this file: wisvalom_fit, with one struct for what goes in and one for what comes out. The flat functions
 * before it are what the library has.
 *
 * Calls. A call that can refuse returns the number of the refusal, 0 if none, and writes its result through `out`; refused, it leaves `out`
 * as it was, unless its comment says otherwise. Any number may be passed, NaN and infinities included, and any bytes. No call allocates,
 * waits, prints or keeps anything from one call to the next.
 *
 * Arrays. An array is its start and, behind it, its number of elements (n_..., or ..._room of one that is written). An empty array may be
 * a null pointer with length 0; any other pointer, also one to a single value, must not be null. What a call writes may overlap nothing else
 * that the call is given: no refusal tells it, and the answer is then worth nothing. What is only read may overlap.
 *
 * Units. Lengths are metres, angles radians, frequencies hertz, times of samples nanoseconds since 1970-01-01T00:00:00Z; a moment is whole
 * seconds since then and the nanoseconds after them, 0 to 999,999,999. In the calls below
 *   a, i, raan0, u0        an orbit: radius (m), inclination, right ascension of the node and argument of latitude, both at the epoch (rad)
 *   epoch, epoch_nanos     the orbit's moment (s, ns)
 *   x, y, z                the receiver's Earth-fixed position (m)
 *   counts                 the number of samples of each pass
 *   times, freqs           of all samples, pass after pass: moment (ns since 1970) and frequency (Hz)
 *   centres, centre_freq   the frequency that a shift is counted from (Hz): of each pass; of one call
 *   dt                     what is added to a sample's moment (s)
 *   df or df0, df1, df2    what is added to a predicted shift: Hz, Hz/s, Hz/s^2
 *
 * The floating-point environment must be the one that a program starts with: rounding to nearest, subnormal numbers kept. A host that
 * changes it (fesetround, flush-to-zero or denormals-are-zero, which gcc's -ffast-math sets at a program's start) gets other numbers.
 */
#ifndef WISVALOM_H
#define WISVALOM_H

#include <assert.h>
#include <stdbool.h>
#include <stddef.h>
#include <stdint.h>
#include <string.h>

/* The refusals. */
#define WISVALOM_NON_ASCII 1      /* a pass file or a position line holds a byte above 127 */
#define WISVALOM_LONG_LINE 2      /* a line has more than 256 bytes, its end not counted */
#define WISVALOM_NUMBER_SIZE 3    /* a number has more than 19 digits, or an exponent of over two digits or outside -30 to 30 */
#define WISVALOM_MOMENT_RANGE 4   /* a moment is outside 1957 to 2056, or has more than 999,999,999 nanoseconds */
#define WISVALOM_SIZES 5          /* sizes disagree with the arrays, or exceed 16 passes or 4,096 samples */
#define WISVALOM_NAN_ARGUMENT 6   /* the receiver, the initial a or the initial i is NaN */
#define WISVALOM_INITIAL_RANGE 7  /* the initial a is outside 6,000 to 50,000 km, or the initial i outside 0 to pi */
#define WISVALOM_NAN_FREQUENCY 8  /* a sample's frequency is NaN */
#define WISVALOM_FEW_PASSES 9     /* fewer than two passes have samples */
#define WISVALOM_FEW_SAMPLES 10   /* fewer samples than four and one for each pass that has any */
#define WISVALOM_UNPRINTABLE 11   /* the orbit (finite, 6,500 to 20,000 km) or the name (24 bytes, each 32 to 126) does not fit the lines */
#define WISVALOM_LIMITS 12        /* a base outside 2 to 7, digits above 16, a history above 64 numbers or a matrix above 68 rows */
#define WISVALOM_POSITION_RANGE 13 /* a latitude, longitude or height is NaN or out of range, or a line is not three such numbers */
#define WISVALOM_LINE_COLUMNS 14  /* an element line has not 69 bytes, or a byte that may not stand in its column */
#define WISVALOM_LINE_CHECKSUM 15 /* an element line's column 69 is not its checksum */
#define WISVALOM_ECCENTRIC 16     /* the eccentricity of element lines is not zero */
#define WISVALOM_SHORT_MEMORY 21  /* a lent output or scratch is too short */
#define WISVALOM_SMALL_PIVOT 22   /* the solver's chosen pivot is below 1e-12 in size */
#define WISVALOM_FAR_MOMENT 23    /* a moment of a prediction is over 8,000,000,000,000 s from 1970 */
#define WISVALOM_LARGE_SUM 24     /* no orbit fits: the best sum is above 1e11 Hz^2, or no trial gave one */
#define WISVALOM_LARGE_OFFSET 25  /* a pass's frequency offset exceeds 500 kHz */

/* The memory that calls need, in elements: the most, and what so many samples in so many passes that have any need. Beside what is
 * lent, a fit takes less than 370 KiB of stack. */
#define WISVALOM_MAX_PASSES 16
#define WISVALOM_MAX_SAMPLES 4096
#define WISVALOM_MAX_TRIALS 150
#define WISVALOM_MAX_SCRATCH 305936 /* doubles: the scratch of 4,096 samples in 16 passes */
#define WISVALOM_MAX_STORED 65604   /* bytes: a stored set of that size */
#define WISVALOM_MAX_NAME 24        /* bytes */
#define WISVALOM_MAX_TEXT 165       /* bytes: three lines under a name of 24 bytes */

static inline size_t wisvalom_scratch_size(size_t samples, size_t passes)
{
    return (samples + 3 * passes) * (5 + 4 * passes) + 20000;
}
static inline size_t wisvalom_stored_size(size_t samples, size_t passes)
{
    return 4 + 4 * passes + 16 * samples;
}
static inline size_t wisvalom_text_size(size_t n_name)
{
    return n_name + 141;
}

#ifdef __cplusplus
extern "C" {
#endif

/* Square root (IEEE 754), cube root (the nearest double), sine and cosine (of radians) of document 01. The cube root stands for powf(1/3):
 * of a negative number it is NaN, of minus infinity infinity, of minus zero zero. */
double wisvalom_sqrt(double x);
double wisvalom_cbrt(double x);
double wisvalom_sin(double v);
double wisvalom_cos(double v);

/* The rest of document 01's arithmetic: degrees from radians and back, the natural logarithm, casts that cut, saturate and make
 * NaN 0, and the product modulo 2^64. */
double wisvalom_abs(double v);
double wisvalom_max(double v, double w);
double wisvalom_min(double v, double w);
double wisvalom_floor(double v);
double wisvalom_round(double v);
double wisvalom_signum(double v);
double wisvalom_rem_euclid(double v, double d);
double wisvalom_to_degrees(double v);
double wisvalom_to_radians(double v);
double wisvalom_ln(double v);
uint64_t wisvalom_to_u64(double v);
int64_t wisvalom_to_i64(double v);
uint64_t wisvalom_wrapping_mul(uint64_t a, uint64_t b);

/* A draw from the generator, uniform from 0 up to 1 or normal of mean 0 and deviation 1; the state after it goes to *next. */
double wisvalom_next_f64(uint64_t state, uint64_t *next);
double wisvalom_next_gaussian(uint64_t state, uint64_t *next);

/* The Julian date (days) of a moment. Refuses: 4. */
uint32_t wisvalom_datetime_to_jd(int64_t seconds, uint32_t nanos, double *out);

/* From the inertial to the Earth-fixed frame at a Julian date (days): position x, y, z (m) to out[0..2], velocity vx, vy, vz (m/s) to
 * out[3..5]. */
void wisvalom_teme_to_ecef(double jd, double x, double y, double z, double vx, double vy, double vz, double out[6]);

/* In libexports_geodetic.a: the Earth-fixed x, y, z (m), to out[0..2], of latitude and longitude (degrees, north and east positive) and height (m)
 * above the ellipsoid of WGS 84. The fit takes them as they are. Refuses: 13, a latitude beyond 90, a longitude beyond 360 in size, a height
 * outside -500 to 10,000, or a NaN; the ends are accepted. */
uint32_t wisvalom_wgs84_to_ecef(double lat_deg, double lon_deg, double alt_m, double out[3]);

/* In libexports_geodetic.a: the same of one line of text, "latitude,longitude,height", its numbers written as in a pass file. Blanks (9 to 13 and 32) are
 * trimmed at the line's ends, where its end may stand too, and not beside commas: "59.1, 18.0,20" is 13. Refuses, in this order: 1, a byte
 * above 127; 2, over 256 bytes, an LF or CR LF at the very end not counted; 3, three numbers of which one has too many digits or too large an
 * exponent; 13, any other line that is not three numbers, or a number beyond the limits of wisvalom_wgs84_to_ecef. */
uint32_t wisvalom_read_position(const uint8_t *line, size_t n_line, double out[3]);

/* Position (m) and velocity (m/s) on a circular orbit at the moment t_orbit, Earth-fixed by the Earth's rotation at the moment t_rotate:
 * out[0..2] and out[3..5]. Refuses: 4. */
uint32_t wisvalom_propagate_ecef_at_time(double a, double i, double raan0, double u0, int64_t epoch, uint32_t epoch_nanos,
                                         int64_t t_orbit, uint32_t t_orbit_nanos, int64_t t_rotate, uint32_t t_rotate_nanos,
                                         double out[6]);

/* The predicted shift (Hz) at the moment t_obs, with an offset or with one that changes with the time since the moment t_ref. Within a
 * metre of the satellite it is the centre plus the offset. Its sign is the original's: it rises as the satellite goes away.
 * Refuses: 4, 23. */
uint32_t wisvalom_predict_frequency(double a, double i, double raan0, double u0, int64_t epoch, uint32_t epoch_nanos,
                                    int64_t t_obs, uint32_t t_obs_nanos, double dt, double df, double centre_freq, double x,
                                    double y, double z, double *out);
uint32_t wisvalom_predict_frequency_poly(double a, double i, double raan0, double u0, int64_t epoch, uint32_t epoch_nanos,
                                         int64_t t_obs, uint32_t t_obs_nanos, double dt, double df0, double df1, double df2,
                                         int64_t t_ref, uint32_t t_ref_nanos, double centre_freq, double x, double y, double z,
                                         double *out);

/* The digit maps, of plain numbers: p is the base, precision a number of digits. Refuse: 12; the differences, as many as n_x, also 21. The last
 * one's coord is a position (m). */
uint32_t wisvalom_monna_map(uint64_t val, uint64_t p, double *out);
uint32_t wisvalom_inverse_monna_map(double x, uint64_t p, size_t precision, uint64_t *out);
uint32_t wisvalom_p_adic_distance(uint64_t a, uint64_t b, uint64_t p, double *out);
uint32_t wisvalom_compute_fractional_difference_history(const double *x, size_t n_x, double *out, size_t out_room);
void wisvalom_map_to_normalized_search_space(const double coord[3], double out[15]);

/* A pass file, of n_file bytes: its samples' times and frequencies, each into an array of its own. numbers takes the count of samples, the
 * name's start and end in the file (bytes), and 1 if a name was seen, else 0; *centre_freq the file's centre. Refuses: 1 to 5, 21; numbers
 * and *centre_freq are then left as they were. */
uint32_t wisvalom_read_pass_file(const uint8_t *file, size_t n_file, int64_t *times, size_t times_room, double *freqs,
                                 size_t freqs_room, size_t numbers[4], double *centre_freq);

/* A pass set is four arrays: counts, times, freqs, centres. The closest moment of each pass (ns since 1970; as many as passes); a sum of
 * squares (Hz^2); its differences by a (per m), i, raan0 and u0 (per rad). Refuse: 4, 5; the moments also 21. */
uint32_t wisvalom_get_pred_pca_times(double a, double i, double raan0, double u0, int64_t epoch, uint32_t epoch_nanos, double x,
                                     double y, double z, const uint32_t *counts, size_t n_counts, const int64_t *times,
                                     size_t n_times, const double *freqs, size_t n_freqs, const double *centres, size_t n_centres,
                                     int64_t *out, size_t out_room);
uint32_t wisvalom_compute_rss(const uint32_t *counts, size_t n_counts, const int64_t *times, size_t n_times, const double *freqs,
                              size_t n_freqs, const double *centres, size_t n_centres, double x, double y, double z, double a,
                              double i, int64_t epoch, uint32_t epoch_nanos, double centre_freq, double raan0, double u0,
                              double *out);
uint32_t wisvalom_compute_gradient(const uint32_t *counts, size_t n_counts, const int64_t *times, size_t n_times,
                                   const double *freqs, size_t n_freqs, const double *centres, size_t n_centres, double x, double y,
                                   double z, double a, double i, int64_t epoch, uint32_t epoch_nanos, double centre_freq,
                                   double raan0, double u0, double out[4]);

/* Solves a system of n rows of plain numbers, the matrix row by row; out has n or more, scratch n*(n + 1) or more. Scratch is left alone
 * up to 21, and all zeros after any later ending. Refuses: 5, 12, 21, 22. */
uint32_t wisvalom_solve_linear_system(const double *matrix, size_t n_matrix, const double *vector, size_t n_vector, size_t n,
                                      double *out, size_t out_room, double *scratch, size_t scratch_room);

/* A stored pass set, from bytes and to bytes; centres are not stored. Refuse: 5, 4, 21; 4, 5, 21. What is counted, *passes and *samples,
 * and *size (bytes) is 0 after a refusal. */
uint32_t wisvalom_load(const uint8_t *bytes, size_t n_bytes, uint32_t *counts, size_t counts_room, int64_t *times,
                       size_t times_room, double *freqs, size_t freqs_room, size_t *passes, size_t *samples);
uint32_t wisvalom_store(const uint32_t *counts, size_t n_counts, const int64_t *times, size_t n_times, const double *freqs,
                        size_t n_freqs, uint8_t *out, size_t out_room, size_t *size);

/* Fits one circular orbit. initial_a (m) is checked and never used, initial_i (rad) is where the inclination starts. The biases of the P
 * passes that have samples go to the first P places of dts (s), dfs (Hz), df1s (Hz/s) and df2s (Hz/s^2), the sums of the trials (Hz^2)
 * to the first *trials places of log, which has 150 or more; *best is the least of them. Scratch has (S + 3P)*(5 + 4P) + 20,000 or more
 * for S samples; its content does not matter. Refuses, in this order: 5, 4, 6, 7, 8, 9, 10, 21, 23, 24, 25; orbit, epoch, count
 * and best sum are then zeros. Scratch is left alone up to 21, and all zeros after any later ending. */
uint32_t wisvalom_fit_orbit_doppler(const uint32_t *counts, size_t n_counts, const int64_t *times, size_t n_times,
                                    const double *freqs, size_t n_freqs, const double *centres, size_t n_centres, double x,
                                    double y, double z, double initial_a, double initial_i, double *dts, size_t dts_room,
                                    double *dfs, size_t dfs_room, double *df1s, size_t df1s_room, double *df2s, size_t df2s_room,
                                    double *log, size_t log_room, double *scratch, size_t scratch_room, double *a, double *i,
                                    double *raan0, double *u0, int64_t *epoch, uint32_t *epoch_nanos, size_t *trials, double *best);

/* The checksum of a line's first 68 bytes; the name line and the two element lines, *length bytes of them. Inclinations are printed from 0.0000
 * to 180.0000 degrees, nodes and mean anomalies from 0.0000 to 359.9999: one that rounds to 360.0000 is printed 0.0000. Refuses: 4, 11, 21;
 * *length is then 0. */
uint32_t wisvalom_tle_checksum(const uint8_t *line, size_t n_line);
uint32_t wisvalom_format_tle_catalog(const uint8_t *name, size_t n_name, double a, double i, double raan0, double u0,
                                     int64_t epoch, uint32_t epoch_nanos, uint8_t *out, size_t out_room, size_t *length);

/* In libexports_element_lines.a: what two element lines say, ours or another station's, each of 69 bytes without a line end (in the text above
 * they begin at n_name + 1 and n_name + 71). As whole numbers, each in units of its last printed place:
 *   out[0], out[1]   the epoch: its year without the century (57 to 99 are the 1900s), and 10^-8 days of the year, January 1 being day 1
 *   out[2], out[3]   inclination and node: 10^-4 degrees
 *   out[4]           mean anomaly and argument of perigee together, below a turn: 10^-4 degrees, 0 to 3,599,999
 *   out[5]           mean motion: 10^-8 revolutions a day
 * Refuses, each tried on both lines before the next: 14, another length or a byte that may not stand in its column; 15, a checksum; 16, an
 * eccentricity that is not 0000000: lines of most satellites are refused. Days, degrees and catalogue numbers are not looked at further: 999
 * degrees are accepted. */
uint32_t wisvalom_read_element_lines(const uint8_t *line1, size_t n_line1, const uint8_t *line2, size_t n_line2, uint64_t out[6]);

/* Fit and lines in one call, on a pass set in arrays and on a stored one: fits as wisvalom_fit_orbit_doppler does, with the same memory,
 * and writes the lines of an accepted orbit under this name to the first *length bytes of text, which has wisvalom_text_size(n_name)
 * bytes or more. Returns the fit's refusal, in the fit's order; on stored bytes any 5, of the bytes or of the centres, comes before 4.
 * *lines is the lines' own refusal, 11 or 21, which leaves an accepted fit as it is; of a refused fit *lines has the number too. Lines that
 * are refused write nothing to text, and *length is then 0. */
uint32_t wisvalom_fit_and_format(const uint32_t *counts, size_t n_counts, const int64_t *times, size_t n_times,
                                 const double *freqs, size_t n_freqs, const double *centres, size_t n_centres, double x, double y,
                                 double z, double initial_a, double initial_i, double *dts, size_t dts_room, double *dfs,
                                 size_t dfs_room, double *df1s, size_t df1s_room, double *df2s, size_t df2s_room, double *log,
                                 size_t log_room, double *scratch, size_t scratch_room, const uint8_t *name, size_t n_name,
                                 uint8_t *text, size_t text_room, double *a, double *i, double *raan0, double *u0, int64_t *epoch,
                                 uint32_t *epoch_nanos, size_t *trials, double *best, uint32_t *lines, size_t *length);
uint32_t wisvalom_fit_and_format_stored(const uint8_t *bytes, size_t n_bytes, const double *centres, size_t n_centres, double x,
                                        double y, double z, double initial_a, double initial_i, double *dts, size_t dts_room,
                                        double *dfs, size_t dfs_room, double *df1s, size_t df1s_room, double *df2s,
                                        size_t df2s_room, double *log, size_t log_room, double *scratch, size_t scratch_room,
                                        const uint8_t *name, size_t n_name, uint8_t *text, size_t text_room, double *a, double *i,
                                        double *raan0, double *u0, int64_t *epoch, uint32_t *epoch_nanos, size_t *trials,
                                        double *best, uint32_t *lines, size_t *length);

/* A number as Rust reads it: *taken becomes 1 and *out the nearest double, or *taken 0 where the text is none, which leaves *out as it
 * was. Refuses: 3, which leaves both. */
uint32_t wisvalom_parse(const uint8_t *text, size_t n_text, uint32_t *taken, double *out);

/* v to so many places, 0 to 8, in the `width` columns of out from `at` (bytes), `pad` on their left: the nearest decimal, a tie to the even
 * one. False, with nothing written, unless v is from 0 up to, not including, 1000, width is places + 2 to 16 and holds all digits, and the
 * columns lie in out. */
bool wisvalom_put_fixed(double v, size_t places, uint8_t pad, uint8_t *out, size_t out_room, size_t at, size_t width);

/* A time as RFC 3339 writes it, of any year from 0000 to 9999, without second 60: seconds from a day before the year 0000 (less
 * WISVALOM_SECONDS_TO_1970 they are those since 1970, or before it) and nanoseconds. False, with nothing written, where the text is none. */
#define WISVALOM_SECONDS_TO_1970 INT64_C(62167305600)
bool wisvalom_parse_from_rfc3339(const uint8_t *text, size_t n_text, uint64_t *seconds, uint64_t *nanos);

#ifdef __cplusplus
}
#endif

/* The quick way: wisvalom_fit_and_format with structs.
 *
 *     static double scratch[WISVALOM_MAX_SCRATCH];
 *     static struct wisvalom_result result;
 *     struct wisvalom_passes passes = {counts, times, freqs, centres, 3, 90};
 *     struct wisvalom_receiver mast = {-439659.995, -3763250.673, 5124200.889};
 *     uint32_t refusal = wisvalom_fit(passes, mast, wisvalom_to_radians(104.0), "HERD-1", scratch, WISVALOM_MAX_SCRATCH, &result);
 *     if (refusal == 0 && result.lines == 0)
 *         fwrite(result.text, 1, result.length, stdout);
 */
struct wisvalom_passes {
    const uint32_t *counts; /* the number of samples of each pass */
    const int64_t *times;   /* of each sample, pass after pass: ns since 1970 */
    const double *freqs;    /* of each sample: Hz */
    const double *centres;  /* of each pass: Hz; the fit takes that of the first pass with samples */
    size_t passes;          /* how many counts and centres, at most 16 */
    size_t samples;         /* how many times and freqs, at most 4,096: the sum of counts */
};

struct wisvalom_receiver {
    double x, y, z; /* Earth-fixed, m */
};

struct wisvalom_result {
    double a;                         /* radius, m */
    double i, raan0, u0;              /* inclination, node and argument of latitude at the epoch, rad */
    int64_t epoch;                    /* s since 1970 */
    uint32_t epoch_nanos;             /* ns after it */
    uint32_t lines;                   /* refusal of the lines, 0 if none; of a refused fit its number */
    size_t trials;                    /* 1 to 150 */
    double best;                      /* the least sum, Hz^2 */
    double log[WISVALOM_MAX_TRIALS];  /* the sums of the trials in their order, Hz^2 */
    double dts[WISVALOM_MAX_PASSES];  /* of each pass that has samples: what was added to its times, s */
    double dfs[WISVALOM_MAX_PASSES];  /* and to its predicted shifts: Hz, */
    double df1s[WISVALOM_MAX_PASSES]; /* Hz/s */
    double df2s[WISVALOM_MAX_PASSES]; /* and Hz/s^2 */
    size_t length;                    /* bytes of text */
    uint8_t text[WISVALOM_MAX_TEXT];  /* the name line and the two element lines, each with its line end; no zero byte behind them */
};

/* Whether two stretches of memory have no byte in common. */
static inline bool wisvalom_apart(const void *p, size_t n, const void *q, size_t m)
{
    return n == 0 || m == 0 || (uintptr_t)p + n <= (uintptr_t)q || (uintptr_t)q + m <= (uintptr_t)p;
}

/* Whether a stretch of memory has no byte in common with what a fit reads. */
static inline bool wisvalom_apart_from(struct wisvalom_passes in, const char *name, const void *p, size_t n)
{
    return wisvalom_apart(p, n, in.counts, in.passes * sizeof *in.counts) && wisvalom_apart(p, n, in.times, in.samples * sizeof *in.times) &&
           wisvalom_apart(p, n, in.freqs, in.samples * sizeof *in.freqs) &&
           wisvalom_apart(p, n, in.centres, in.passes * sizeof *in.centres) && wisvalom_apart(p, n, name, strlen(name));
}

/* Fits one orbit and writes its lines. initial_i is a first guess of the inclination (rad), name ends with a zero byte; scratch has
 * wisvalom_scratch_size(samples, passes) doubles or more. Returns the fit's refusal, as wisvalom_fit_and_format does; *out is
 * then all zeros but for out->lines. Lines may be refused (11) beside an accepted fit: look at both. */
static inline uint32_t wisvalom_fit(struct wisvalom_passes in, struct wisvalom_receiver at, double initial_i, const char *name,
                                    double *scratch, size_t scratch_room, struct wisvalom_result *out)
{
    assert(wisvalom_apart_from(in, name, scratch, scratch_room * sizeof *scratch));
    assert(wisvalom_apart_from(in, name, out, sizeof *out));
    assert(wisvalom_apart(scratch, scratch_room * sizeof *scratch, out, sizeof *out));
    memset(out, 0, sizeof *out);
    /* 7,000 km: the initial a is checked and never used. */
    return wisvalom_fit_and_format(in.counts, in.passes, in.times, in.samples, in.freqs, in.samples, in.centres, in.passes, at.x, at.y,
                                   at.z, 7000e3, initial_i, out->dts, WISVALOM_MAX_PASSES, out->dfs, WISVALOM_MAX_PASSES, out->df1s,
                                   WISVALOM_MAX_PASSES, out->df2s, WISVALOM_MAX_PASSES, out->log, WISVALOM_MAX_TRIALS, scratch,
                                   scratch_room, (const uint8_t *)name, strlen(name), out->text, WISVALOM_MAX_TEXT, &out->a, &out->i,
                                   &out->raan0, &out->u0, &out->epoch, &out->epoch_nanos, &out->trials, &out->best, &out->lines,
                                   &out->length);
}

#endif
