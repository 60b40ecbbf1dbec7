"""`products.py MIR..`: the products of samples in a line as the compiler is handed them. They are the signed multiplications of the MIR that the kit
keeps beside a built library (crates/NAME/out/rlib/NAME.rlib/toolchain/mir.json), counted through the calls; those of an index are unsigned."""
import json
import re
import sys

bodies = {}
for path in sys.argv[1:]:
    with open(path, encoding="utf-8") as file:
        bodies.update((name, json.dumps(function["body"])) for name, function in json.load(file))


def products(name):
    # What is not in these files is the library's: conversions and limits, without a product.
    body = bodies.get(name, "")
    return body.count('{"Mul": "Signed"}') + sum(products(called) for called in re.findall(r'"Fn": \["([^"]+)"', body))


low = "ring::line::Line::low"
if low not in bodies:
    sys.exit(f"{low} is not in these files")
print(f"a line's low sample: {products(low)} products as the compiler is handed them")
