#!/usr/bin/env python3
"""make_coeffs.py COEFFS_RS: prints coeffs.rs's tables for lib.rs, digit for digit, without the generic `to_t`."""
import re
import sys

if len(sys.argv) != 2:
    sys.exit(__doc__)
text = open(sys.argv[1], encoding="utf-8").read()
start = text.index("use num_traits")
end = text.index("pub(crate) const")
sys.stdout.write(text[:start] + re.sub(r"\n+$", "\n", text[end:]))
