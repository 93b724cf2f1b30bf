/* Ranks for R. With this file and the library installed:
 *
 *     R CMD SHLIB dollar_r.c -ldollar
 *     Rscript -e 'dyn.load("dollar_r.so"); .Call("dollar_ranks", edges, amounts)'
 *
 * `edges` is a matrix of integers with a column for each edge item: two vertices, numbered from 0, and a count. `amounts` is a matrix
 * of numbers with a column for each divisor. The ranks are NA for a divisor with an amount past the limit. */
#include <dollar.h>

#define R_NO_REMAP
#include <R.h>
#include <Rinternals.h>

SEXP dollar_ranks(SEXP edges, SEXP amounts) {
    size_t vertices = Rf_nrows(amounts), rows = Rf_ncols(amounts), items = Rf_ncols(edges);
    dollar_edge *listed = (dollar_edge *)R_alloc(items + 1, sizeof *listed);
    int64_t *given = (int64_t *)R_alloc(vertices * rows + 1, sizeof *given), *ranks = (int64_t *)R_alloc(rows + 1, sizeof *ranks);
    int8_t *told = (int8_t *)R_alloc(rows + 1, sizeof *told);
    for (size_t i = 0; i < items; i++)
        listed[i] = (dollar_edge){INTEGER(edges)[3 * i], INTEGER(edges)[3 * i + 1], INTEGER(edges)[3 * i + 2]};
    for (size_t i = 0; i < vertices * rows; i++) given[i] = (int64_t)REAL(amounts)[i];
    int64_t refused = dollar_rank(vertices, listed, items, given, vertices * rows, told, rows, ranks, rows, given, 0);
    if (refused) Rf_error("no ranks: kind %d at %d (dollar.h)", DOLLAR_KIND(refused), DOLLAR_PLACE(refused));
    SEXP found = PROTECT(Rf_allocVector(REALSXP, rows));
    for (size_t r = 0; r < rows; r++) REAL(found)[r] = told[r] < 0 ? NA_REAL : (double)ranks[r];
    UNPROTECT(1);
    return found;
}
