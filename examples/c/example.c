/* The example lot of README.md, by the sampled test and by every way: four samples, labels 0, 0, 1, 1, no strata, no weights.
 * Ends with 0, or with 1 after it printed the number of a refusal. */
#include "lotjudge.h"
#include <stdio.h>
#include <stdlib.h>

enum { N = 4 };

static const double distances[N * N] = {0, 2, 8, 10, 2, 0, 6, 8, 8, 6, 0, 2, 10, 8, 2, 0};
static const uint16_t labels[N] = {0, 0, 1, 1};

static double *floats(size_t length) { return calloc(length, sizeof(double)); }
static uint16_t *numbers(size_t length) { return calloc(length, sizeof(uint16_t)); }

static uint8_t sampled(void) {
    size_t l[5];
    uint8_t refused = lotjudge_test_lengths(N, l);
    if (refused) return refused;
    uint16_t *group_labels = numbers(l[0]), *counts = numbers(l[1]);
    double *means = floats(l[2]), *pair_terms = floats(l[3]), *weighted_squares = floats(l[4]);
    double v[6];
    uint64_t k[5];
    refused = lotjudge_test(N, distances, N * N, labels, N, false, NULL, 0, false, NULL, 0, 1, 999, group_labels, l[0], counts, l[1],
                            means, l[2], pair_terms, l[3], weighted_squares, l[4], v, k);
    if (!refused) printf("test: F %g, r2 %g, p %g of %d shuffles\n", v[0], v[1], v[2], 999);
    free(group_labels), free(counts), free(means), free(pair_terms), free(weighted_squares);
    return refused;
}

static uint8_t every_way(void) {
    size_t l[9];
    uint8_t refused = lotjudge_exhaustive_lengths(N, l);
    if (refused) return refused;
    uint16_t *group_labels = numbers(l[0]), *counts = numbers(l[1]), *label_counts = numbers(l[8]);
    double *means = floats(l[2]), *pair_terms = floats(l[3]), *weighted_squares = floats(l[4]);
    double *coords = floats(l[5]), *eigenpairs = floats(l[6]), *vectors = floats(l[7]);
    double v[4];
    uint64_t k[11];
    refused = lotjudge_exhaustive(N, distances, N * N, labels, N, false, NULL, 0, false, NULL, 0, group_labels, l[0], counts, l[1],
                                  means, l[2], pair_terms, l[3], weighted_squares, l[4], coords, l[5], eigenpairs, l[6], vectors, l[7],
                                  label_counts, l[8], v, k);
    if (!refused) printf("exhaustive: F %g, %llu of %llu ways are as far apart\n", v[0], (unsigned long long)k[4], (unsigned long long)k[2]);
    free(group_labels), free(counts), free(label_counts), free(means), free(pair_terms), free(weighted_squares);
    free(coords), free(eigenpairs), free(vectors);
    return refused;
}

int main(void) {
    uint8_t refused = sampled();
    if (!refused) refused = every_way();
    if (refused) printf("refusal %d\n", refused);
    return refused != 0;
}
