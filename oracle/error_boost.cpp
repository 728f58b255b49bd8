// Boost.Math's functions of the modulus k, in double, for error_answers.rs to call (Debian: libboost-math-dev).
// `boost_*`: as Boost comes, which works them out in long double and rounds. `plain_*`: in double alone.
#include <boost/math/special_functions/ellint_1.hpp>
#include <boost/math/special_functions/ellint_2.hpp>
#include <boost/math/special_functions/ellint_3.hpp>

using namespace boost::math;
using namespace boost::math::policies;

static const policy<promote_double<false>> plain;

extern "C" {
double boost_k(double k) { return ellint_1(k); }
double boost_e(double k) { return ellint_2(k); }
double boost_pi(double n, double k) { return ellint_3(k, n); }
double boost_einc(double phi, double k) { return ellint_2(k, phi); }
double boost_f(double phi, double k) { return ellint_1(k, phi); }

double plain_k(double k) { return ellint_1(k, plain); }
double plain_e(double k) { return ellint_2(k, plain); }
double plain_pi(double n, double k) { return ellint_3(k, n, plain); }
double plain_einc(double phi, double k) { return ellint_2(k, phi, plain); }
double plain_f(double phi, double k) { return ellint_1(k, phi, plain); }
}
