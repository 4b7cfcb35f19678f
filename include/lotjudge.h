/* The lot judge, for C and languages that call C, on x86-64 Linux.
 *
 * Every function is proved against a written meaning (docs/READING.md) for any arguments: it ends, and it returns 0, or the number of a
 * refusal, whatever the numbers and lengths are (`lotjudge_judge` tells a refusal in its text). README.md says what the proofs rest on.
 *
 * WHAT THE CALLER SEES TO, since no proof can:
 *   pointers   lead to as many elements as the length after them says, or the brackets, aligned as their type asks; a length of 0 reads
 *              nothing. Nothing that is written may overlap anything else that is passed. A bool is 0 or 1.
 *   floats     the floating-point environment is the default one: round to nearest, no flush to zero. A program linked with -Ofast or
 *              -ffast-math may flush subnormal numbers; a distance of -2^-1074 is then judged, where it is refused by 3 otherwise.
 *   stack      is part of no proof. Measured on the largest inputs (`oracle stack`, oracle/README.md), in KB of 1,024 bytes: test 22,
 *              exhaustive 73, jacobi_eigen 4, top_eigs 20, pcoa 54, gram_matrix and hash_pca 57, dapc 34, judge 118, every other function
 *              below 1. A thread takes some 6 KB for itself: give it 128 KB.
 * Calls are reentrant: there are no variables between calls, no heap, no locks and no input or output. Of other libraries only memcpy and
 * memset are called.
 *
 * REFUSALS, the first that applies, in the order in which they stand here:
 *   1  a length does not fit n, offsets are not as told below, or an output or work slice is short
 *   2  n above 256; n_perm above 999,999; components 0 or above 16; over 65,536 hashes; columns above 16
 *   3  a distance NaN, below 0 or above 2^20; a coordinate NaN or beyond 2^40 in magnitude; an entry of the matrix of jacobi_eigen or
 *      top_eigs NaN or infinite. -0.0 is not below 0
 *  14  an entry of distances that differs as a number from its mirror (i, j from j, i), or one on the diagonal other than zero (test,
 *      exhaustive, pcoa). All n * n entries are looked at, of samples that are not kept too; -0.0 and 0.0 are equal
 *   4  a weight not within 2^-20 to 2^20
 *   5  fewer than two labels held by two samples
 *   6  ordination (pcoa, hash_pca, gram_matrix) of fewer than 3 samples
 *  13  no hash with frequency 2 to n - 1 (hash_pca, gram_matrix)
 *   7  over 1,024 such hashes
 *   8  more than 20,000 ways
 *   9  fewer than 2 columns can be used: columns, or kept samples less groups less 1 if that is fewer
 *  10  a Cholesky pivot not above 0, which a NaN is not (no coordinates that pass 3 are known to lead there)
 *  11  a NaN among values to be ordered
 * test returns 0 to 5 and 14; exhaustive 0 to 5, 8, 11 and 14; pcoa 0 to 3, 6, 11 and 14; hash_pca 0, 1, 2, 6, 7, 11 and 13; dapc 0 to
 * 3, 5, 9, 10 and 11; jacobi_eigen and top_eigs 0 to 3 and 11; gram_matrix 0, 1, 2, 6, 7 and 13.
 * judge tells 3, 5, 8 and 11 in its text, and 12: the text is not in the form that README.md has. A lot that it reads mirrors itself.
 *
 * WHAT ARRAYS HOLD AFTERWARDS, by the number returned:
 *                    outputs                                             work        values, numbers, selected, sweeps
 *   0                the first entries are written, the rest as before   all 0       written
 *   1 to 9, 13, 14   as before                                           as before   as before
 *   10, 11           the same first entries are 0, the rest as before    all 0       as before
 * Each function says how many entries of an output are the first ones. Work is 0 to its end, past the length that is asked too. Inputs
 * are never written.
 *
 * LABELS and strata are numbers 0 to 65,534; 65,535 means none. A sample is kept if another one has its label. The kept labels in rising
 * order are the groups 0, 1, ..; a stratum informs if two of its kept samples differ in label. Without strata all samples share one; with
 * strata a sample that has none stands alone.
 *
 * WARNINGS are a number, the sum of:
 *    1  (bit 0)  some label is held by one sample alone: that sample is left out (an unlabelled sample sets no bit)
 *    2  (bit 1)  strata are given and none informs: test gives no p, and exhaustive has M = 1
 *    4  (bit 2)  some strata inform, and they hold fewer than half of the kept samples
 *    8  (bit 3)  the smallest group has fewer than 5 samples
 *   16  (bit 4)  some kept sample's squared distance to its group's centroid is below 0, and taken as 0: the distances are not Euclidean,
 *                or it is 0 but for rounding
 *   32  (bit 5)  both p are given and below 0.05: the groups differ in spread, so location is no evidence of different centres
 *   64  (bit 6)  bit 5 is not set, both p are given, that of location is below 0.05 and that of dispersion below 0.2, and the largest
 *                group is at least 3 times the smallest
 * exhaustive sets bits 0 to 4 only, by the labels as given.
 *
 * TIME: docs/BENCHMARKS.md has what was measured. At n = 256 test takes some 5 ms for 1,000 shuffles with four equal groups, so seconds for
 * 999,999, and more with very unequal groups; exhaustive tenths of a millisecond a way beside its ordination, so seconds for 20,000; pcoa with 8
 * components 0.6 to 0.7 s.
 * No call can be stopped before it ends.
 *
 * LENGTHS that outputs and work must have at least are written below, and told by the functions whose names end in `_lengths`: they write
 * them in the order of the parameters and return 0. They return 2 and write nothing where n, components or columns are beyond the limits of
 * refusal 2: then no call is accepted, whatever is lent.
 */
#ifndef LOTJUDGE_H
#define LOTJUDGE_H

#include <stdbool.h>
#include <stddef.h>
#include <stdint.h>

#ifdef __cplusplus
extern "C" {
#endif

/* PERMANOVA (location) and PERMDISP (dispersion), with n_perm shuffles of the labels within strata.
 *   distances      n * n, row by row, a matrix that mirrors itself: distances[i * n + j] equals distances[j * n + i], and the diagonal is 0.
 *                  Refusals 3 and 14 look at all of them
 *   labels         n
 *   strata         n; neither they nor their length are looked at unless strata_given
 *   weights        n; neither they nor their length are looked at unless weights_given
 *   seed, n_perm   any seed; the same arguments give the same results. p is (1 + hits)/(1 + n_perm)
 *   group_labels, counts, means   outputs, at least n each: the label, the count and the mean distance to the centroid of each group, as
 *                  many entries as there are groups
 *   pair_terms, weighted_squares   work, at least n * n each: weight * weight * square and weight * square of each pair
 *   values         F, r2, p, dispersion F, dispersion p, informative fraction
 *   numbers        kept samples, groups, whether p is given, whether the dispersion p is given, warnings (bits 0 to 6)
 * Each F may be NaN (0 between groups over 0 within) or +infinity (nothing within groups, or the quotient is too large for an f64); the F of
 * location may be below 0, and -infinity where what is within groups, divided by kept samples less groups, rounds to 0 (weighted squares
 * of distances close to 2^-1074). An F that is NaN or infinite has no p, and where strata are given and none informs neither has one. A p that is
 * not given is 0, so look at numbers first. r2 is at most 1 and may be below 0. The informative fraction is the share of the kept samples that
 * stand in strata that inform.
 */
uint8_t lotjudge_test(size_t n, const double *distances, size_t distances_len, const uint16_t *labels, size_t labels_len,
                      bool strata_given, const uint16_t *strata, size_t strata_len, bool weights_given, const double *weights,
                      size_t weights_len, uint64_t seed, uint64_t n_perm, uint16_t *group_labels, size_t group_labels_len,
                      uint16_t *counts, size_t counts_len, double *means, size_t means_len, double *pair_terms, size_t pair_terms_len,
                      double *weighted_squares, size_t weighted_squares_len, double values[6], uint64_t numbers[5]);

/* The lengths of group_labels, counts, means, pair_terms, weighted_squares. */
uint8_t lotjudge_test_lengths(size_t n, size_t lengths[5]);

/* Every way to deal the labels out again within the strata: M of them, and how many are hits of each observed statistic. Hits over M is a p.
 *   distances, labels, strata, weights, group_labels, counts, means, pair_terms, weighted_squares   as for lotjudge_test; the assignment
 *                  reads all distances
 *   coords         work, at least 16 + 8 * n: what lotjudge_pcoa writes with 8 components
 *   eigenpairs     work, at least n + n * n
 *   vectors        work, at least n * n
 *   label_counts   work, at least n * n: the labels that each stratum has left
 *   values         location F, r2, dispersion F, informative fraction
 *   numbers        kept samples, groups, M, whether the location F is finite, its hits, whether the dispersion F is finite, its hits,
 *                  whether there is an assignment, the kept samples assigned to their own group, its hits, warnings (bits 0 to 4)
 * An F that is NaN or infinite is unbounded, above all others: here it is told as 0, and as not finite in numbers. Where there is no
 * assignment (lotjudge_dapc would refuse) the samples and the hits of it are 0, and that 0 is no p.
 */
uint8_t lotjudge_exhaustive(size_t n, const double *distances, size_t distances_len, const uint16_t *labels, size_t labels_len,
                            bool strata_given, const uint16_t *strata, size_t strata_len, bool weights_given, const double *weights,
                            size_t weights_len, uint16_t *group_labels, size_t group_labels_len, uint16_t *counts, size_t counts_len,
                            double *means, size_t means_len, double *pair_terms, size_t pair_terms_len, double *weighted_squares,
                            size_t weighted_squares_len, double *coords, size_t coords_len, double *eigenpairs,
                            size_t eigenpairs_len, double *vectors, size_t vectors_len, uint16_t *label_counts,
                            size_t label_counts_len, double values[4], uint64_t numbers[11]);

/* The lengths of group_labels, counts, means, pair_terms, weighted_squares, coords, eigenpairs, vectors, label_counts. */
uint8_t lotjudge_exhaustive_lengths(size_t n, size_t lengths[9]);

/* Principal coordinates. With k = components, or n if that is less:
 *   distances      n * n, row by row, a matrix that mirrors itself, as for lotjudge_test
 *   out            output, at least k + k + n * k, all of which are written: k values, falling; k shares of the variance; coordinates n by k,
 *                  row by row
 *   centred        work, at least n * n: Gower's centred matrix
 *   eigenpairs     work, at least n + n * n
 *   rotated, vectors   work, at least n * n each
 * A value below 0 has the share 0 and coordinates of 0. A share may be above 1 where the distances are not Euclidean.
 */
uint8_t lotjudge_pcoa(const double *distances, size_t distances_len, size_t n, size_t components, double *out, size_t out_len,
                      double *centred, size_t centred_len, double *eigenpairs, size_t eigenpairs_len, double *rotated,
                      size_t rotated_len, double *vectors, size_t vectors_len);

/* The lengths of out, centred, eigenpairs, rotated, vectors. */
uint8_t lotjudge_pcoa_lengths(size_t n, size_t components, size_t lengths[5]);

/* Principal components of sets of hashes: set i has the hashes from offsets[i] to below offsets[i + 1].
 *   hashes         of all sets, one after the other
 *   offsets        n + 1: the first 0, never falling, the last hashes_len
 *   out, eigenpairs, rotated, vectors   as for lotjudge_pcoa
 *   gram           work, at least n * n: the Gram matrix
 *   words          work, at least 16 * n: each set as a row of bits, one for each hash that can be selected
 *   selected       the number of different hashes with frequency 2 to n - 1, every occurrence counted, repeats in a set too; one number
 */
uint8_t lotjudge_hash_pca(const uint64_t *hashes, size_t hashes_len, const size_t *offsets, size_t offsets_len, size_t n,
                          size_t components, double *out, size_t out_len, double *gram, size_t gram_len, double *eigenpairs,
                          size_t eigenpairs_len, double *rotated, size_t rotated_len, double *vectors, size_t vectors_len,
                          uint64_t *words, size_t words_len, size_t *selected);

/* The lengths of out, gram, eigenpairs, rotated, vectors, words. */
uint8_t lotjudge_hash_pca_lengths(size_t n, size_t components, size_t lengths[6]);

/* Discriminant scores. There are groups - 1 axes, or as many as columns used if that is fewer.
 *   x              coordinates, n * columns, row by row
 *   labels         n
 *   out            output, at least columns + n * columns, of which axes + n * axes are written: a value for each axis, then scores n by
 *                  axes, row by row, of samples not kept too
 *   assigned       output, at least n, of which n are written: the group (0, 1, ..) whose centroid is nearest for each kept sample, 65,535
 *                  for the others; on 10 and 11 all n are 0
 *   numbers        columns used, axes, kept samples assigned to their own group
 */
uint8_t lotjudge_dapc(const double *x, size_t x_len, size_t n, size_t columns, const uint16_t *labels, size_t labels_len,
                      double *out, size_t out_len, uint16_t *assigned, size_t assigned_len, size_t numbers[3]);

/* The lengths of out, assigned. */
uint8_t lotjudge_dapc_lengths(size_t n, size_t columns, size_t lengths[2]);

/* The eigenpairs of a symmetric matrix, by Jacobi's rotations. n may be 0, 1 or 2 too.
 *   a              the matrix, n * n, row by row. All of it is read, and nothing asks whether it is symmetric: lend one that is
 *   out            output, at least n + n * n, of which so many are written: n values, falling, equal ones in the order in which they stand on
 *                  the diagonal; then n rows of n, the vector of each value, with the sign that the rotations leave
 *   rotated, vectors   work, at least n * n each
 *   sweeps         the sweeps made, each a rotation for every pair; one number. They end when the squares beside the diagonal add up to less
 *                  than 1e-22, at the latest after 100
 */
uint8_t lotjudge_jacobi_eigen(const double *a, size_t a_len, size_t n, double *out, size_t out_len, double *rotated,
                              size_t rotated_len, double *vectors, size_t vectors_len, size_t *sweeps);

/* The lengths of out, rotated, vectors. */
uint8_t lotjudge_jacobi_eigen_lengths(size_t n, size_t lengths[3]);

/* The eigenpairs of the k largest values of a symmetric matrix, with k = components, or n if that is less: up to n = 64 by Jacobi's rotations,
 * above by block iteration.
 *   a              as for lotjudge_jacobi_eigen
 *   out            output, at least k + k * n, of which so many are written: k values, falling; then k rows of n, the vector of each value
 *   eigenpairs     work, at least n + n * n
 *   rotated, vectors   work, at least n * n each
 */
uint8_t lotjudge_top_eigs(const double *a, size_t a_len, size_t n, size_t components, double *out, size_t out_len,
                          double *eigenpairs, size_t eigenpairs_len, double *rotated, size_t rotated_len, double *vectors,
                          size_t vectors_len);

/* The lengths of out, eigenpairs, rotated, vectors. */
uint8_t lotjudge_top_eigs_lengths(size_t n, size_t components, size_t lengths[4]);

/* The centred Gram matrix of sets of hashes, of which lotjudge_hash_pca takes the components.
 *   hashes, offsets   as for lotjudge_hash_pca
 *   out            output, at least n * n, of which so many are written, row by row, symmetric: for two sets the number of selected hashes that
 *                  both have, less the sum of the means of the selected hashes of each, plus the sum of the squares of all means; the mean of
 *                  a hash is its frequency over n
 *   words          work, at least 16 * n
 *   selected       as for lotjudge_hash_pca
 */
uint8_t lotjudge_gram_matrix(const uint64_t *hashes, size_t hashes_len, const size_t *offsets, size_t offsets_len, size_t n,
                             double *out, size_t out_len, uint64_t *words, size_t words_len, size_t *selected);

/* The lengths of out, words. */
uint8_t lotjudge_gram_matrix_lengths(size_t n, size_t lengths[2]);

/* A lot as text, judged by every way: the bytes that the program `lotjudge` prints for it (README.md). Never refuses a call: what is wrong with
 * the text or the lot is told in the output.
 *   text           the frames, any bytes, with no 0 at the end
 *   out            the output; the returned number says how many of its bytes are written, the rest stays. It is no C string: no 0 follows
 */
size_t lotjudge_judge(const uint8_t *text, size_t text_len, uint8_t out[93]);

/* The length of out: 93, the most bytes that are ever written. */
size_t lotjudge_judge_length(void);

/* The square root that every function above uses: the f64 nearest to the root of x, as IEEE 754 asks. A number below 0 gives NaN; a zero
 * keeps its sign; +infinity and NaN give themselves. */
double lotjudge_sqrt(double x);

#ifdef __cplusplus
}
#endif

#endif
