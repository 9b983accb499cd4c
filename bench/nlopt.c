/* Lets the benchmark call the least-squares solver inside NLopt's SLSQP, whose functions are
 * static. NLopt is no part of this repository: build.rs finds its slsqp.c in the folder that
 * GRITSTRUT_NLOPT names, and leaves this file out where the variable is not set.
 */
#include <math.h>
#include <string.h>

/* NLopt's driver, which the benchmark does not call, needs its other files: made static and left
 * unused, it is dropped. */
#define nlopt_slsqp static dropped
#include NLOPT_SLSQP

/* lsq_ asks this of bounds; NLopt keeps it in a file that the benchmark does not need. */
int nlopt_isinf(double x)
{
    return isinf(x) != 0;
}

/* The relaxed problem, as slsqpb_ states it, but with the weight of gritstrut_step, so that both
 * sides solve the same one. Column n of a, entry n of g and the last entry of l are room for it. */
static int relaxed(int n, int m, int meq, double *l, double *g, double *a, double *c,
                   double *lower, double *upper, double *x, double *y, double *w, int *jw)
{
    int wide = n + 1, last = n * wide / 2 + 1, rows = m > 0 ? m : 1, mode = 0;
    for (int j = 0; j < m; j++)
        a[j + n * rows] = j < meq || c[j] < 0 ? -c[j] : 0;
    g[n] = 0;
    lower[n] = 0;
    upper[n] = 1;
    l[last - 1] = 1000;
    lsq_(&m, &meq, &wide, &last, &rows, l, g, a, c, lower, upper, x, y, w, jw, &mode);
    return mode;
}

/* One step; 1 is done, as in NLopt. l is packed by columns: D on the diagonal, unit L below; a is
 * by columns, equalities first. */
int peer_step(int n, int m, int meq, double *l, double *g, double *a, double *c,
              double *lower, double *upper, double *x, double *y, double *w, int *jw)
{
    int last = n * (n + 1) / 2 + 1, rows = m > 0 ? m : 1, mode = 0;
    lsq_(&m, &meq, &n, &last, &rows, l, g, a, c, lower, upper, x, y, w, jw, &mode);
    if (mode == 4 || (mode == 6 && n == meq))
        return relaxed(n, m, meq, l, g, a, c, lower, upper, x, y, w, jw);
    return mode;
}

/* Nonnegative least squares; a, by columns, and b are copied because nnls_ overwrites them. */
int peer_nnls(int m, int n, const double *a, const double *b, double *x, double *w, int *jw)
{
    double *own = w, *side = own + m * n, *dual = side + m, *trial = dual + n, norm;
    int mode = 0;
    memcpy(own, a, sizeof *a * (size_t) (m * n));
    memcpy(side, b, sizeof *b * (size_t) m);
    nnls_(own, &m, &m, &n, side, x, &norm, dual, trial, jw, &mode);
    return mode;
}
