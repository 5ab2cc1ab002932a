"""The faults of a document by its JSON Schema of docs/schema, each as its path and a line, in the order in which the program looks
for them. `faults_in` raises ImportError where python3-jsonschema isn't installed."""
import json
import pathlib
import re

SCHEMAS = pathlib.Path(__file__).resolve().parents[3] / "docs/schema"
# The keys of all objects, those of each in the order of its table in docs/FORMATS.md.
ORDER = (
    "job data resume id exception-classes step chunk partition plan item-count skip-limit retry-limit skippable-exception-classes"
    " retryable-exception-classes no-rollback-exception-classes include exclude counts partitions threads override ranges rounds"
    " certificate records prefix drop faults read process write outputs saved rows version"
).split()
KINDS = {"string": "text", "integer": "whole number", "array": "list", "object": "object", "boolean": "truth value"}
LINES = {
    "minimum": "it is below {}",
    "maximum": "it is above {}",
    "minLength": "it has fewer than {} characters",
    "maxLength": "it has more than {} characters",
    "minItems": "it has fewer than {} members",
    "maxItems": "it has more than {} members",
    "const": "it isn't {}",
    "enum": "it is none of {}",
}


def faults_in(word, tree):
    import jsonschema

    path = SCHEMAS / f"{word}.json"
    schema = json.loads(path.read_text(encoding="utf-8"))
    resolver = jsonschema.RefResolver(path.as_uri(), schema)  # by which one schema names another file's
    errors = jsonschema.Draft202012Validator(schema, resolver=resolver).iter_errors(tree)
    return [(path_of(error), line_of(error)) for error in sorted(errors, key=turn)]


def path_of(error):
    """Where the fault is: of a member that is missing, where it would be."""
    return [*error.absolute_path, *([re.match("'(.*)'", error.message)[1]] if error.validator == "required" else [])]


def turn(error):
    """Where in the program's order it comes: a member's whole part before the next member."""
    path = path_of(error)
    return [(ORDER.index(part), "") if part in ORDER else (part, "") if isinstance(part, int) else (len(ORDER), part) for part in path]


def line_of(error):
    value = error.validator_value
    match error.validator:
        case "type":
            return f"it is no {KINDS[value]}"
        case "required":
            return "it is required"
        case "additionalProperties":
            unknown = error.instance.keys() - error.schema["properties"].keys()
            return f"it has keys that its table doesn't have: {', '.join(sorted(unknown))}"
        case "items":
            return f"it has more than {len(error.schema['prefixItems'])} members"
        case "not" if "required" in value:
            return f"it has both {' and '.join(value['required'])}"
        case "not":
            return f"it is {value['const']}"
        case "oneOf":
            return f"it isn't this: {error.schema['description']}"
        case name if name in LINES:
            return LINES[name].format(", ".join(map(str, value)) if isinstance(value, list) else value)
    return error.message[:200]
