// Boost.Math's functions of m, in double, for incomplete_bench.rs to call (Debian: libboost-math-dev). Boost takes the modulus, so m >= 0.
#include <boost/math/special_functions/ellint_1.hpp>
#include <boost/math/special_functions/ellint_2.hpp>
#include <boost/math/special_functions/ellint_3.hpp>

#include <cmath>

extern "C" double boost_ellippi(double n, double m) { return boost::math::ellint_3(std::sqrt(m), n); }

extern "C" double boost_ellipeinc(double phi, double m) { return boost::math::ellint_2(std::sqrt(m), phi); }

extern "C" double boost_ellipf(double phi, double m) { return boost::math::ellint_1(std::sqrt(m), phi); }
