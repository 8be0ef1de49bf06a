// IAPWS-IF97 in plain C, to hold the proved programs' instructions to (bench/peer): regions 1 and 2 and the (p,h) query, worked from the papers by the rules of
// docs/EVALUATION.md, so with the same bits. Rows of powers are filled once a call and the six sums go in one pass over a table. With -DPOW the powers are libm's,
// and the last bits are not the same.
//
//   peer < INPUT     as the program `measure`: the operation that the first byte names, once for each byte behind it
//   peer sheet       a point sheet of (p,h) queries, for the program `answers`
//   peer answers     what `answers` says of it; a line more where h alone is not the h of its state
#include <math.h>
#include <stdint.h>
#include <stdio.h>
#include <string.h>

struct term {
    int i, j;
    double n;
};

// 002, Table A2.
static const struct term r1[34] = {
    {0, -2, 0.14632971213167}, {0, -1, -0.84548187169114}, {0, 0, -0.37563603672040e1}, {0, 1, 0.33855169168385e1}, {0, 2, -0.95791963387872},
    {0, 3, 0.15772038513228}, {0, 4, -0.16616417199501e-1}, {0, 5, 0.81214629983568e-3}, {1, -9, 0.28319080123804e-3}, {1, -7, -0.60706301565874e-3},
    {1, -1, -0.18990068218419e-1}, {1, 0, -0.32529748770505e-1}, {1, 1, -0.21841717175414e-1}, {1, 3, -0.52838357969930e-4}, {2, -3, -0.47184321073267e-3},
    {2, 0, -0.30001780793026e-3}, {2, 1, 0.47661393906987e-4}, {2, 3, -0.44141845330846e-5}, {2, 17, -0.72694996297594e-15}, {3, -4, -0.31679644845054e-4},
    {3, 0, -0.28270797985312e-5}, {3, 6, -0.85205128120103e-9}, {4, -5, -0.22425281908000e-5}, {4, -2, -0.65171222895601e-6}, {4, 10, -0.14341729937924e-12},
    {5, -8, -0.40516996860117e-6}, {8, -11, -0.12734301741641e-8}, {8, -6, -0.17424871230634e-9}, {21, -29, -0.68762131295531e-18},
    {23, -31, 0.14478307828521e-19}, {29, -38, 0.26335781662795e-22}, {30, -39, -0.11947622640071e-22}, {31, -40, 0.18228094581404e-23},
    {32, -41, -0.93537087292458e-25},
};

// Table A4.
static const struct term r2o[9] = {
    {0, 0, -0.96927686500217e1}, {0, 1, 0.10086655968018e2}, {0, -5, -0.56087911283020e-2}, {0, -4, 0.71452738081455e-1}, {0, -3, -0.40710498223928},
    {0, -2, 0.14240819171444e1}, {0, -1, -0.43839511319450e1}, {0, 2, -0.28408632460772}, {0, 3, 0.21268463753307e-1},
};

// Table A5.
static const struct term r2r[43] = {
    {1, 0, -0.17731742473213e-2}, {1, 1, -0.17834862292358e-1}, {1, 2, -0.45996013696365e-1}, {1, 3, -0.57581259083432e-1}, {1, 6, -0.50325278727930e-1},
    {2, 1, -0.33032641670203e-4}, {2, 2, -0.18948987516315e-3}, {2, 4, -0.39392777243355e-2}, {2, 7, -0.43797295650573e-1}, {2, 36, -0.26674547914087e-4},
    {3, 0, 0.20481737692309e-7}, {3, 1, 0.43870667284435e-6}, {3, 3, -0.32277677238570e-4}, {3, 6, -0.15033924542148e-2}, {3, 35, -0.40668253562649e-1},
    {4, 1, -0.78847309559367e-9}, {4, 2, 0.12790717852285e-7}, {4, 3, 0.48225372718507e-6}, {5, 7, 0.22922076337661e-5}, {6, 3, -0.16714766451061e-10},
    {6, 16, -0.21171472321355e-2}, {6, 35, -0.23895741934104e2}, {7, 0, -0.59059564324270e-17}, {7, 11, -0.12621808899101e-5}, {7, 25, -0.38946842435739e-1},
    {8, 8, 0.11256211360459e-10}, {8, 36, -0.82311340897998e1}, {9, 13, 0.19809712802088e-7}, {10, 4, 0.10406965210174e-18}, {10, 10, -0.10234747095929e-12},
    {10, 14, -0.10018179379511e-8}, {16, 29, -0.80882908646985e-10}, {16, 50, 0.10693031879409}, {18, 57, -0.33662250574171}, {20, 20, 0.89185845355421e-24},
    {20, 35, 0.30629316876232e-12}, {20, 48, -0.42002467698208e-5}, {21, 21, -0.59056029685639e-25}, {22, 53, 0.37826947613457e-5},
    {23, 39, -0.12768608934681e-14}, {24, 26, 0.73087610595061e-28}, {24, 40, 0.55414715350778e-16}, {24, 58, -0.94369707241210e-6},
};

// Table A16.
static const struct term t1ph[20] = {
    {0, 0, -0.23872489924521e3}, {0, 1, 0.40421188637945e3}, {0, 2, 0.11349746881718e3}, {0, 6, -0.58457616048039e1}, {0, 22, -0.15285482413140e-3},
    {0, 32, -0.10866707695377e-5}, {1, 0, -0.13391744872602e2}, {1, 1, 0.43211039183559e2}, {1, 2, -0.54010067170506e2}, {1, 3, 0.30535892203916e2},
    {1, 4, -0.65964749423638e1}, {1, 10, 0.93965400878363e-2}, {1, 32, 0.11573647505340e-6}, {2, 10, -0.25858641282073e-4}, {2, 32, -0.40644363084799e-8},
    {3, 10, 0.66456186191635e-7}, {3, 32, 0.80670734103027e-10}, {4, 32, -0.93477771213947e-12}, {5, 32, 0.58265442020601e-14},
    {6, 32, -0.15020185953503e-16},
};

// Table A21.
static const struct term t2aph[34] = {
    {0, 0, 0.10898952318288e4}, {0, 1, 0.84951654495535e3}, {0, 2, -0.10781748091826e3}, {0, 3, 0.33153654801263e2}, {0, 7, -0.74232016790248e1},
    {0, 20, 0.11765048724356e2}, {1, 0, 0.18445749355790e1}, {1, 1, -0.41792700549624e1}, {1, 2, 0.62478196935812e1}, {1, 3, -0.17344563108114e2},
    {1, 7, -0.20058176862096e3}, {1, 9, 0.27196065473796e3}, {1, 11, -0.45511318285818e3}, {1, 18, 0.30919688604755e4}, {1, 44, 0.25226640357872e6},
    {2, 0, -0.61707422868339e-2}, {2, 2, -0.31078046629583}, {2, 7, 0.11670873077107e2}, {2, 36, 0.12812798404046e9}, {2, 38, -0.98554909623276e9},
    {2, 40, 0.28224546973002e10}, {2, 42, -0.35948971410703e10}, {2, 44, 0.17227349913197e10}, {3, 24, -0.13551334240775e5}, {3, 44, 0.12848734664650e8},
    {4, 12, 0.13865724283226e1}, {4, 32, 0.23598832556514e6}, {4, 44, -0.13105236545054e8}, {5, 32, 0.73999835474766e4}, {5, 36, -0.55196697030060e6},
    {5, 42, 0.37154085996233e7}, {6, 34, 0.19127729239660e5}, {6, 44, -0.41535164835634e6}, {7, 28, -0.62459855192507e2},
};

// Table A22.
static const struct term t2bph[38] = {
    {0, 0, 0.14895041079516e4}, {0, 1, 0.74307798314034e3}, {0, 2, -0.97708318797837e2}, {0, 12, 0.24742464705674e1}, {0, 18, -0.63281320016026},
    {0, 24, 0.11385952129658e1}, {0, 28, -0.47811863648625}, {0, 40, 0.85208123431544e-2}, {1, 0, 0.93747147377932}, {1, 2, 0.33593118604916e1},
    {1, 6, 0.33809355601454e1}, {1, 12, 0.16844539671904}, {1, 18, 0.73875745236695}, {1, 24, -0.47128737436186}, {1, 28, 0.15020273139707},
    {1, 40, -0.21764114219750e-2}, {2, 2, -0.21810755324761e-1}, {2, 8, -0.10829784403677}, {2, 18, -0.46333324635812e-1}, {2, 40, 0.71280351959551e-4},
    {3, 1, 0.11032831789999e-3}, {3, 2, 0.18955248387902e-3}, {3, 12, 0.30891541160537e-2}, {3, 24, 0.13555504554949e-2}, {4, 2, 0.28640237477456e-6},
    {4, 12, -0.10779857357512e-4}, {4, 18, -0.76462712454814e-4}, {4, 24, 0.14052392818316e-4}, {4, 28, -0.31083814331434e-4}, {4, 40, -0.10302738212103e-5},
    {5, 18, 0.28217281635040e-6}, {5, 24, 0.12704902271945e-5}, {5, 40, 0.73803353468292e-7}, {6, 28, -0.11030139238909e-7}, {7, 2, -0.81456365207833e-13},
    {7, 28, -0.25180545682962e-10}, {9, 1, -0.17565233969407e-17}, {9, 40, 0.86934156344163e-14},
};

// Table A23.
static const struct term t2cph[23] = {
    {-7, 0, -0.32368398555242e13}, {-7, 4, 0.73263350902181e13}, {-6, 0, 0.35825089945447e12}, {-6, 2, -0.58340131851590e12}, {-5, 0, -0.10783068217470e11},
    {-5, 2, 0.20825544563171e11}, {-2, 0, 0.61074783564516e6}, {-2, 1, 0.85977722535580e6}, {-1, 0, -0.25745723604170e5}, {-1, 2, 0.31081088422714e5},
    {0, 0, 0.12082315865936e4}, {0, 1, 0.48219755109255e3}, {1, 4, 0.37966001272486e1}, {1, 8, -0.10842984880077e2}, {2, 4, -0.45364172676660e-1},
    {6, 0, 0.14559115658698e-12}, {6, 1, 0.11261597407230e-11}, {6, 4, -0.17804982240686e-10}, {6, 10, 0.12324579690832e-6}, {6, 12, -0.11606921130984e-5},
    {6, 16, 0.27846367088554e-4}, {6, 20, -0.59270038474176e-3}, {6, 22, 0.12918582991878e-2},
};

// A table, and the least and greatest exponents of A and of B in it.
struct table {
    const struct term *terms;
    int rows, a_from, a_to, b_from, b_to;
};

static const struct table R1 = {r1, 34, 0, 32, -41, 17};
static const struct table R2O = {r2o, 9, 0, 0, -5, 3};
static const struct table R2R = {r2r, 43, 1, 24, 0, 58};
static const struct table T1PH = {t1ph, 20, 0, 6, 0, 32};
static const struct table T2APH = {t2aph, 34, 0, 7, 0, 44};
static const struct table T2BPH = {t2bph, 38, 0, 9, 0, 40};
static const struct table T2CPH = {t2cph, 23, -7, 6, 0, 22};

// Powers x^k for k from `from`, at most 0, to `to`; the row has x^0 at ZERO.
enum { ZERO = 48, ROW = 112 };

static inline void fill(double *row, double x, int from, int to)
{
    double *at = row + ZERO;
#ifdef POW
    for (int k = from; k <= to; k++) at[k] = pow(x, k);
#else
    double power = 1.0;
    at[0] = 1.0;
    for (int k = 1; k <= to; k++) at[k] = at[k - 1] * x;
    for (int k = 1; k <= -from; k++) {
        power *= x;
        at[-k] = 1.0 / power;
    }
#endif
}

static inline int at_most_0(int k) { return k < 0 ? k : 0; }

struct six {
    double f, fa, faa, fb, fbb, fab;
};

// All six sums. A term whose factor is 0 is added: it is a zero, and changes no sum.
static inline struct six six_sums(const struct table t, double a, double b)
{
    double as[ROW], bs[ROW];
    struct six s = {0, 0, 0, 0, 0, 0};
    fill(as, a, at_most_0(t.a_from - 2), t.a_to);
    fill(bs, b, at_most_0(t.b_from - 2), t.b_to);
    for (int k = 0; k < t.rows; k++) {
        const struct term r = t.terms[k];
        const double *x = as + ZERO + r.i, *y = bs + ZERO + r.j;
        double i = r.i, j = r.j, ni = r.n * i, nj = r.n * j;
        s.f += r.n * x[0] * y[0];
        s.fa += ni * x[-1] * y[0];
        s.faa += ni * (i - 1) * x[-2] * y[0];
        s.fb += nj * x[0] * y[-1];
        s.fbb += nj * (j - 1) * x[0] * y[-2];
        s.fab += ni * j * x[-1] * y[-1];
    }
    return s;
}

// The derivative by B alone.
static inline double slope(const struct table t, double a, double b)
{
    double as[ROW], bs[ROW], s = 0;
    fill(as, a, at_most_0(t.a_from), t.a_to);
    fill(bs, b, at_most_0(t.b_from - 1), t.b_to);
    for (int k = 0; k < t.rows; k++) {
        const struct term r = t.terms[k];
        s += r.n * r.j * as[ZERO + r.i] * bs[ZERO + r.j - 1];
    }
    return s;
}

// The sum alone.
static inline double sum(const struct table t, double a, double b)
{
    double as[ROW], bs[ROW], s = 0;
    fill(as, a, at_most_0(t.a_from), t.a_to);
    fill(bs, b, at_most_0(t.b_from), t.b_to);
    for (int k = 0; k < t.rows; k++) {
        const struct term r = t.terms[k];
        s += r.n * as[ZERO + r.i] * bs[ZERO + r.j];
    }
    return s;
}

// The natural logarithm of a normal positive number, by the series of the papers' rules.
static double logarithm(double x)
{
    uint64_t b, t;
    memcpy(&b, &x, 8);
    int e = (int)(b >> 52) - 1023;
    t = b & 0xfffffffffffff;
    if (t < 0x8000000000000) {
        b = 0x3ff0000000000000 + t;
    } else {
        b = 0x3fe0000000000000 + t;
        e++;
    }
    double m, z, q, s = 1.0 / 23.0;
    memcpy(&m, &b, 8);
    z = (m - 1.0) / (m + 1.0);
    q = z * z;
    for (int d = 21; d >= 1; d -= 2) s = s * q + 1.0 / d;
    return e * 0.693147180559945309417 + 2.0 * z * s;
}

struct state {
    double v, u, h, s, cp, w;
};

static const double R = 0.461526;

static inline struct state properties(double p, double t, double pi, double tau, double g, double gp, double gt, double gtt, double quotient)
{
    double rt = R * t;
    struct state a = {
        .v = rt * pi * gp / (1000.0 * p),
        .u = rt * (tau * gt - pi * gp),
        .h = rt * tau * gt,
        .s = R * (tau * gt - g),
        .cp = -R * (tau * tau) * gtt,
        .w = sqrt(1000.0 * rt * quotient),
    };
    return a;
}

static struct state state1(double p, double t)
{
    double pi = p / 16.53, tau = 1386.0 / t;
    struct six s = six_sums(R1, 7.1 - pi, tau - 1.222);
    double gp = -s.fa, gpt = -s.fab, d = gp - tau * gpt;
    return properties(p, t, pi, tau, s.f, gp, s.fb, s.fbb, gp * gp / (d * d / (tau * tau * s.fbb) - s.faa));
}

static double h1(double p, double t)
{
    double pi = p / 16.53, tau = 1386.0 / t;
    return R * t * tau * slope(R1, 7.1 - pi, tau - 1.222);
}

static struct state state2(double p, double t)
{
    double pi = p, tau = 540.0 / t;
    struct six o = six_sums(R2O, pi, tau), r = six_sums(R2R, pi, tau - 0.5);
    double g = logarithm(pi) + o.f + r.f, gtt = o.fbb + r.fbb, d = 1.0 + pi * r.fa - tau * pi * r.fab;
    double above = 1.0 + 2.0 * pi * r.fa + pi * pi * (r.fa * r.fa), below = 1.0 - pi * pi * r.faa + d * d / (tau * tau * gtt);
    return properties(p, t, pi, tau, g, 1.0 / pi + r.fa, o.fb + r.fb, gtt, above / below);
}

static double h2(double p, double t)
{
    double tau = 540.0 / t;
    return R * t * tau * (slope(R2O, p, tau) + slope(R2R, p, tau - 0.5));
}

// Table A11.
static double ts(double p)
{
    static const double n[11] = {0, 0.11670521452767e4, -0.72421316703206e6, -0.17073846940092e2, 0.12020824702470e5, -0.32325550322333e7,
        0.14915108613530e2, -0.48232657361591e4, 0.40511340542057e6, -0.23855557567849, 0.65017534844798e3};
    double b = sqrt(sqrt(p)), e = b * b + n[3] * b + n[6], f = n[1] * (b * b) + n[4] * b + n[7], g = n[2] * (b * b) + n[5] * b + n[8];
    double d = 2.0 * g / (-f - sqrt(f * f - 4.0 * e * g)), c = n[10] + d;
    return (c - sqrt(c * c - 4.0 * (n[9] + n[10] * d))) / 2.0;
}

static double t_b23(double p) { return 0.57254459862746e3 + sqrt((p - 0.13918839778870e2) / 0.10192970039326e-2); }

static double p_2bc(double h) { return 0.90584278514723e3 + -0.67955786399241 * h + 0.12809002730136e-3 * (h * h); }

static double t1_ph(double p, double h) { return sum(T1PH, p, h / 2500.0 + 1.0); }

static double t2_ph(double p, double h)
{
    if (p <= 4.0) return sum(T2APH, p, h / 2000.0 - 2.1);
    if (p <= p_2bc(h)) return sum(T2BPH, p - 2.0, h / 2000.0 - 2.6);
    return sum(T2CPH, p + 25.0, h / 2000.0 - 1.8);
}

// What a query is answered: a refusal, or a state; x of a wet state, which has no cp and no w.
struct answer {
    int refusal, region, verified;
    double p, t, x;
    struct state a;
};

static inline struct answer refused(int n) { return (struct answer){.refusal = n}; }

static inline int verified(double h, double asked) { return fabs(h - asked) <= 0.08; }

static inline struct answer liquid(double p, double h, double t)
{
    struct state a = state1(p, t);
    return (struct answer){0, 1, verified(a.h, h), p, t, 0, a};
}

static inline struct answer vapour(double p, double h, double t)
{
    struct state a = state2(p, t);
    return (struct answer){0, 2, verified(a.h, h), p, t, 0, a};
}

static inline struct answer wet(double p, double h, double t)
{
    struct state l = state1(p, t), v = state2(p, t), a = {0};
    double x = (h - l.h) / (v.h - l.h);
    a.v = l.v + x * (v.v - l.v);
    a.u = l.u + x * (v.u - l.u);
    a.h = l.h + x * (v.h - l.h);
    a.s = l.s + x * (v.s - l.s);
    return (struct answer){0, 4, verified(a.h, h), p, t, x, a};
}

static struct answer from_ph(double p, double h)
{
    if (!isfinite(p) || !isfinite(h)) return refused(1);
    if (p < 0.000611213 || 100.0 < p) return refused(2);
    if (h < h1(p, 273.15) || h2(p, 1073.15) < h) return refused(6);
    if (p <= 16.529164252604478) {
        double t = ts(p);
        if (h < h1(p, t)) {
            double l = t1_ph(p, h);
            return liquid(p, h, l > t ? t : l);
        }
        if (h <= h2(p, t)) return wet(p, h, t);
        double v = t2_ph(p, h);
        return vapour(p, h, v < t ? t : v);
    }
    if (h <= h1(p, 623.15)) return liquid(p, h, t1_ph(p, h));
    if (h >= h2(p, t_b23(p))) return vapour(p, h, t2_ph(p, h));
    return refused(5);
}

static double sum_of(struct state a) { return a.v + a.u + a.h + a.s + a.cp + a.w; }

static double answered(struct answer a) { return a.refusal ? -1.0e9 : a.t + a.x + sum_of(a.a); }

static double worked(int operation, double x)
{
    switch (operation) {
    case '1': return sum_of(state1(x, 300.0 + 10.0 * x));
    case '2': return sum_of(state2(x, 700.0 + 10.0 * x));
    case 'h': return h1(x, 300.0 + 10.0 * x);
    case 'b': return t1_ph(x, 100.0 + 10.0 * x);
    case 'C': return answered(from_ph(x, 100.0 + 10.0 * x));
    case 'D': return answered(from_ph(0.5 * x, 3300.0 + 10.0 * x));
    default: return x;
    }
}

static int run(void)
{
    char buffer[1024];
    size_t got = fread(buffer, 1, sizeof buffer, stdin);
    double x = 0.0371, value = 0.0;
    for (size_t k = 1; k < got; k++) {
        value += worked(buffer[0], x);
        x *= 1.05;
    }
    puts(value < 0.0 ? "below zero" : "done");
    return 0;
}

// The points: p spread evenly by its logarithm over a little more than its range, h evenly.
enum { POINTS = 1000 };

static double spread(uint64_t *seed)
{
    *seed = *seed * 6364136223846793005 + 1442695040888963407;
    return (double)(*seed >> 11) / 9007199254740992.0;
}

static void point(uint64_t *seed, double *p, double *h)
{
    *p = exp(12.2 * spread(seed) - 7.5);
    *h = 4200.0 * spread(seed) - 10.0;
}

static void number(uint64_t n, int bytes)
{
    for (int k = 0; k < bytes; k++) putchar((int)(n >> 8 * k & 255));
}

static uint64_t bits(double x)
{
    uint64_t b;
    memcpy(&b, &x, 8);
    return b;
}

static int sheet(void)
{
    uint64_t seed = 1;
    for (int k = 0; k < POINTS; k++) {
        double p, h;
        point(&seed, &p, &h);
        number(2, 8);
        number(bits(p), 8);
        number(bits(h), 8);
    }
    number(POINTS, 4);
    number(24 * POINTS, 4);
    number(1, 4);
    number(0, 4);
    return 0;
}

static void line(int row, struct answer a)
{
    double values[8] = {a.p, a.t, a.a.v, a.a.u, a.a.h, a.a.s, a.a.cp, a.a.w};
    if (a.refusal) {
        printf("%d 2 %d 0 - - - - - - - - - -\n", row, a.refusal);
        return;
    }
    printf("%d 2 0 %d %d", row, a.region, a.verified);
    for (int k = 0; k < 6; k++) printf(" %016llx", (unsigned long long)bits(values[k]));
    if (a.region == 4) {
        printf(" - - %016llx\n", (unsigned long long)bits(a.x));
    } else {
        printf(" %016llx %016llx -\n", (unsigned long long)bits(values[6]), (unsigned long long)bits(values[7]));
    }
}

static int answers(void)
{
    uint64_t seed = 1;
    puts("row kind answer region mark p T v u h s cp w x");
    for (int k = 1; k <= POINTS; k++) {
        double p, h;
        point(&seed, &p, &h);
        struct answer a = from_ph(p, h);
        line(k, a);
        if ((a.region == 1 && h1(a.p, a.t) != a.a.h) || (a.region == 2 && h2(a.p, a.t) != a.a.h)) printf("%d: h alone is not the h of the state\n", k);
    }
    return 0;
}

int main(int words, char **word)
{
    if (words == 2 && strcmp(word[1], "sheet") == 0) return sheet();
    if (words == 2 && strcmp(word[1], "answers") == 0) return answers();
    return run();
}
