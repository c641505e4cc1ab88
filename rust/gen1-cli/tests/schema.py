"""Reads lines of standard input, each a list of a name, a value, and whether the schema of that name allows it; prints what differs.

usage: schema.py SCHEMA
Status 77 where Python's jsonschema is missing.
"""
import json
import sys

try:
    from jsonschema import Draft202012Validator
except ImportError:
    sys.exit(77)

schema = json.load(open(sys.argv[1], encoding="utf-8"))
Draft202012Validator.check_schema(schema)
validators = {name: Draft202012Validator({**schema, "$ref": f"#/$defs/{name}"}) for name in schema["$defs"]}
count = 0
for line in sys.stdin:
    name, value, is_allowed = json.loads(line)
    fault = next(validators[name].iter_errors(value), None)
    if is_allowed and fault or not is_allowed and not fault:
        print(f"{name}: {fault.message[:300] if fault else 'allowed'} in {line[:300]}")
    count += 1
print(f"{count} values")
