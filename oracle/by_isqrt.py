#!/usr/bin/env python3
"""by_isqrt.py: writes target/by_isqrt and target/by_digits, the f64 reading in ellip/ with multiply-add in integers, and root by u128::isqrt or by digits with a branch on each."""
import os

here = os.path.dirname(os.path.abspath(__file__))
ROOT = '''
/// Root and multiply-add in integers, each rounded once.
pub trait InIntegers {
    fn root(self) -> f64;
    fn fused(self, y: f64, z: f64) -> f64;
}

impl InIntegers for f64 {
    /// Of a normal number above zero.
    fn root(self) -> f64 {
        let bits = self.to_bits();
        let (field, digits) = (bits >> 52, bits & 0xf_ffff_ffff_ffff | 1 << 52);
        let odd = (field + 1) & 1;
METHOD
        let (q, half) = ((root >> 1) as u64, root & 1 == 1);
        let q = q + (half && (inexact || q & 1 == 1)) as u64;
        f64::from_bits(q + ((field + 1021 - odd) / 2 << 52))
    }

    fn fused(self, y: f64, z: f64) -> f64 {
        twin::fused::fused(self, y, z)
    }
}
'''
METHODS = {
    'by_isqrt': '''        let n = (digits as u128) << (54 + odd);
        let root = n.isqrt();
        let inexact = root * root != n;''',
    'by_digits': '''        let mut radicand = digits << (10 + odd);
        let (mut root, mut rest) = (0u64, 0u64);
        for _ in 0..54 {
            let trial = 4 * root + 1;
            rest = 4 * rest + (radicand >> 62);
            radicand <<= 2;
            if trial <= rest {
                rest -= trial;
                root = 2 * root + 1;
            } else {
                root *= 2;
            }
        }
        let inexact = rest > 0;''',
}


def write(method):
    out = os.path.join(here, 'target', method)
    os.makedirs(out, exist_ok=True)
    for name in sorted(os.listdir(os.path.join(here, 'ellip'))):
        if not name.endswith('.rs'):
            continue
        text = open(os.path.join(here, 'ellip', name), encoding='utf-8').read()
        text = text.replace('f64::EPSILON.sqrt()', '1.4901161193847656e-8').replace('.sqrt()', '.root()').replace('.mul_add(', '.fused(')
        text = text.replace('crate::', 'super::')
        if name == 'lib.rs':
            text = text + ROOT.replace('METHOD', METHODS[method])
        elif name != 'coeffs.rs':
            lines = text.split('\n')
            at = next(i for i, line in enumerate(lines) if line.startswith('use ') or line.startswith('pub fn') or line.startswith('fn') or line.startswith('#['))
            text = '\n'.join(lines[:at] + ['#[allow(unused_imports)]', 'use super::InIntegers;'] + lines[at:])
        open(os.path.join(out, name), 'w', encoding='utf-8').write(text)


for method in METHODS:
    write(method)
