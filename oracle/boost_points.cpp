// Boost.Math at the points of oracle/incomplete_points.py: how far its answers are from the references.
//   g++ -O2 -std=c++17 oracle/boost_points.cpp -o OUT/boost_points && OUT/boost_points OUT
// (Debian: libboost-math-dev.) Boost's ellint_3, ellint_2 and ellint_1 take the modulus k, so they serve m >= 0, and ellint_3 needs n < 1. At the other points Boost's own Carlson
// functions are put together by DLMF 19.25.2, 19.25.4, 19.25.9 and 19.25.5. All in long double, so that √m does not show.
#include <boost/math/special_functions/ellint_1.hpp>
#include <boost/math/special_functions/ellint_2.hpp>
#include <boost/math/special_functions/ellint_3.hpp>
#include <boost/math/special_functions/ellint_rd.hpp>
#include <boost/math/special_functions/ellint_rf.hpp>
#include <boost/math/special_functions/ellint_rj.hpp>

#include <cmath>
#include <cstdint>
#include <cstring>
#include <fstream>
#include <iostream>
#include <string>

using real = long double;
using namespace boost::math;

static double value(const std::string& pattern) {
    const std::uint64_t bits = std::stoull(pattern, nullptr, 16);
    double x;
    std::memcpy(&x, &bits, sizeof x);
    return x;
}

static bool direct_pi(real n, real m) { return m >= 0 && n < 1; }

static real pi_of(real n, real m) {
    if (direct_pi(n, m)) return ellint_3(std::sqrt(m), n);
    if (n < 1) return ellint_rf(real(0), 1 - m, real(1)) + n / 3 * ellint_rj(real(0), 1 - m, real(1), 1 - n);
    return -(m / (3 * n)) * ellint_rj(real(0), 1 - m, real(1), 1 - m / n);
}

static bool direct_e(real, real m) { return m >= 0; }

static real e_of(real phi, real m) {
    if (direct_e(phi, m)) return ellint_2(std::sqrt(m), phi);
    const real pi = constants::pi<real>(), turns = std::round(phi / pi), rest = phi - turns * pi, s = std::sin(rest);
    const real whole = ellint_rf(real(0), 1 - m, real(1)) - m / 3 * ellint_rd(real(0), 1 - m, real(1));
    if (s == 0) return 2 * turns * whole;
    const real c = 1 / (s * s), c1 = std::pow(std::cos(rest) / s, 2), part = ellint_rf(c1, c - m, c) - m / 3 * ellint_rd(c1, c - m, c);
    return 2 * turns * whole + std::copysign(part, s);
}

static real f_of(real phi, real m) {
    if (direct_e(phi, m)) return ellint_1(std::sqrt(m), phi);
    const real pi = constants::pi<real>(), turns = std::round(phi / pi), rest = phi - turns * pi, s = std::sin(rest);
    const real whole = ellint_rf(real(0), 1 - m, real(1));
    if (s == 0) return 2 * turns * whole;
    const real c = 1 / (s * s), c1 = std::pow(std::cos(rest) / s, 2);
    return 2 * turns * whole + std::copysign(ellint_rf(c1, c - m, c), s);
}

template <class Function, class Direct>
static void compare(const std::string& out, const std::string& name, Function function, Direct direct) {
    std::ifstream lines(out + "/" + name + ".txt");
    std::string a, b, expected;
    int count = 0, own = 0;
    real worst = 0;
    double at_a = 0, at_b = 0;
    while (lines >> a >> b >> expected) {
        const real x = value(a), y = value(b), reference = value(expected), got = function(x, y);
        const real off = reference == 0 ? std::fabs(got) : std::fabs(got - reference) / std::fabs(reference);
        if (!(off <= worst)) worst = off, at_a = value(a), at_b = value(b);
        own += direct(x, y);
        ++count;
    }
    std::cout.precision(17);
    std::cout << name << ": " << count << " points, " << own << " by Boost's own function, largest relative difference 2^" << std::log2(worst) << " at (" << at_a << ", " << at_b << ")\n";
}

int main(int, char** argv) {
    compare(argv[1], "ellippi", pi_of, direct_pi);
    compare(argv[1], "ellipeinc", e_of, direct_e);
    compare(argv[1], "ellipf", f_of, direct_e);
}
