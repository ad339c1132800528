"""An OpenAPI 3.1 document for tests: its structure, and whether replies are as it describes them.

It knows the part of OpenAPI and of JSON Schema that docs/openapi.json uses, and refuses any other keyword.
"""
import contextlib
import json
import re

KEYWORDS = {"$ref", "additionalProperties", "anyOf", "const", "description", "enum", "items", "maxItems", "maxLength",
            "maximum", "minItems", "minimum", "not", "oneOf", "pattern", "properties", "required", "type"}
TYPES = {"array": list, "boolean": bool, "integer": int, "null": type(None), "object": dict, "string": str}


class Invalid(Exception):
    """A value that does not fit its schema, or a reply that does not fit the description."""


def require(is_ok, *why):
    if not is_ok:
        raise Invalid(" ".join(map(str, why)))


def is_type(value, name):
    return isinstance(value, TYPES[name]) and (name == "boolean" or not isinstance(value, bool))


class Description:
    """An OpenAPI document, and what was seen of it."""

    def __init__(self, document):
        self.document, self.seen, self.alternatives = document, set(), set()
        self.operations = {it["operationId"]: (path, method, it) for path, item in document["paths"].items()
                           for method, it in item.items()}

    def resolve(self, part):
        while "$ref" in part:
            found = self.document
            for name in part["$ref"].removeprefix("#/").split("/"):
                require(name in found, "unknown reference", part["$ref"])
                found = found[name]
            part = found
        return part

    def validate(self, schema, value, place):
        """Raises `Invalid` unless the value fits the schema, by the part of JSON Schema that the document uses."""
        require(not set(schema) - KEYWORDS, "unknown keyword", *set(schema) - KEYWORDS)
        require(schema.get("not", None) is None, place, "may not be there")  # the only `not` is that of any value
        if "$ref" in schema:
            self.validate(self.resolve(schema), value, schema["$ref"].rpartition("/")[2])
        if "type" in schema:
            require(is_type(value, schema["type"]), place, "is not of type", schema["type"], repr(value)[:80])
        if "const" in schema:
            require(value == schema["const"], place, "is not", schema["const"], repr(value)[:80])
        if "enum" in schema:
            require(value in schema["enum"], place, "has another value", repr(value)[:80])
            self.alternatives.add(f"{place}={value}")
        if is_type(value, "integer"):
            is_inside = schema.get("minimum", value) <= value <= schema.get("maximum", value)
            require(is_inside, place, "is out of range", value)
        if isinstance(value, str):
            pattern = re.sub(r"\$$", r"\\Z", schema.get("pattern", ""))  # `$` of JSON Schema is the end alone
            require(re.search(pattern, value), place, "does not match", repr(value)[:80])
            require(len(value) <= schema.get("maxLength", len(value)), place, "is too long")
        if isinstance(value, list):
            is_inside = schema.get("minItems", 0) <= len(value) <= schema.get("maxItems", len(value))
            require(is_inside, place, "has", len(value), "items")
            for item in value:
                self.validate(schema.get("items", {}), item, f"{place}/items")
        if isinstance(value, dict):
            known = schema.get("properties", {})
            require(set(schema.get("required", ())) <= set(value), place, "lacks a member", *sorted(value))
            unknown = sorted(set(value) - set(known))
            require(schema.get("additionalProperties", True) or not unknown, place, "has the unknown members", *unknown)
            for name in set(known) & set(value):
                self.validate(known[name], value[name], f"{place}/properties/{name}")
        for keyword in ("oneOf", "anyOf"):
            if keyword in schema:
                self.choose(keyword, schema[keyword], value, place)

    def choose(self, keyword, options, value, place):
        fitting, reasons = [], []
        for number, option in enumerate(options):
            try:
                self.validate(option, value, f"{place}#{number}")
                fitting.append(number)
            except Invalid as why:
                reasons.append(str(why))
        require(fitting, *reasons[:2])
        require(keyword == "anyOf" or len(fitting) == 1, place, "fits several alternatives")
        self.alternatives.update(f"{place}#{it}" for it in fitting)

    def errors_of(self, reply):
        """The error numbers of a documented reply; None for one that is no error."""
        (content,) = reply["content"].values()
        schema = self.resolve(content["schema"])
        options = [self.resolve(it) for it in schema.get("oneOf", [schema])]
        return [it.get("properties", {}).get("error", {}).get("const") for it in options]

    def documented(self):
        """Each documented reply: the operation, the status and the error number or None."""
        return {(name, int(status), number) for name, (_, _, operation) in self.operations.items()
                for status, reply in operation["responses"].items() for number in self.errors_of(self.resolve(reply))}

    def take(self, name, data, raw, has_body):
        """Validates a reply to a request with this body, and whether the body fits. Returns the reply's status and body."""
        require(name in self.operations, "unknown operation", name)
        status, body = self.take_reply(name, raw, has_body)
        if "requestBody" in self.operations[name][2] and (status == 200 or b'"error":81,' in body):
            fits = self.fits_request(name, data)
            require(fits == (status == 200), name, "has", status, "but the schema", "takes" if fits else "refuses", data[:80])
        return status, body

    def fits_request(self, name, data):
        """Whether these bytes are a body that an operation documents."""
        content = self.operations[name][2]["requestBody"]["content"]["application/json"]
        try:
            self.validate(content["schema"], json.loads(data), name)
        except (Invalid, ValueError):
            return False
        return True

    def take_reply(self, name, raw, has_body):
        head, _, body = raw.partition(b"\r\n\r\n")
        status_line, *lines = head.decode().split("\r\n")
        version, status, _ = status_line.split(" ", 2)
        fields = dict(it.split(": ", 1) for it in lines)
        require(version == "HTTP/1.1" and len(fields) == len(lines), "bad head", head)
        replies = self.operations[name][2]["responses"]
        require(status in replies, name, "does not document the status", status)
        reply = self.resolve(replies[status])
        known = {"Content-Type": None} | {field: self.resolve(of) for field, of in reply["headers"].items()}
        needed = {field for field, of in known.items() if of is None or of["required"]}
        require(needed <= set(fields) <= set(known), name, status, "has the fields", *fields)
        for field in fields.keys() - {"Content-Type"}:
            of = known[field]["schema"]
            self.validate(of, int(fields[field]) if of.get("type") == "integer" else fields[field], field)
        require(fields["Content-Type"] in reply["content"], name, status, "has the type", fields["Content-Type"])
        if not has_body:
            require(not body and int(fields["Content-Length"]) > 0, "a reply to HEAD has a body")
            return int(status), body
        require(len(body) == int(fields["Content-Length"]), name, "has another length")
        self.take_body(name, status, fields["Content-Type"], reply, body.decode())
        return int(status), body

    def take_body(self, name, status, kind, reply, text):
        value = text
        if kind == "application/json":
            value = json.loads(text)
            compact = json.dumps(value, sort_keys=True, separators=(",", ":"))
            require(compact == text, "not compact or not in order", text)
        self.validate(reply["content"][kind]["schema"], value, f"{name}/{status}")
        number = value.get("error") if isinstance(value, dict) and status != "200" else None
        self.seen.add((name, int(status), number))


def alternatives_of(description):
    """Each alternative and each value of an enumeration in the schemas of replies."""
    def walk(schema, place):
        for number, option in enumerate(schema.get("oneOf", schema.get("anyOf", ()))):
            yield f"{place}#{number}"
            yield from walk(option, f"{place}#{number}")
        yield from (f"{place}={it}" for it in schema.get("enum", ()))
        for name, of in schema.get("properties", {}).items():
            yield from walk(of, f"{place}/properties/{name}")
        if "items" in schema:
            yield from walk(schema["items"], f"{place}/items")
    for name, schema in description.document["components"]["schemas"].items():
        yield from walk(schema, name)


def parts_of(schema):
    """A schema and all schemas inside it."""
    yield schema
    inside = [*schema.get("properties", {}).values(), *schema.get("oneOf", ()), *schema.get("anyOf", ())]
    for part in [*inside, *([schema["items"]] if "items" in schema else [])]:
        yield from parts_of(part)


def is_pattern(text):
    with contextlib.suppress(re.error):
        re.compile(text)
        return True
    return False


def structure_problems(document):
    """What makes a document no OpenAPI 3.1 description, as far as this one uses its parts."""
    found, operation_ids, text = [], [], json.dumps(document)

    def need(is_ok, *why):
        if not is_ok:
            found.append(" ".join(map(str, why)))

    need(re.fullmatch(r"3\.1\.\d+", document.get("openapi", "")), "openapi is not 3.1")
    need(not set(document) - {"openapi", "info", "servers", "security", "tags", "paths", "components"}, "unknown field")
    need({"title", "version"} <= set(document.get("info", {})), "info lacks title or version")
    components = document["components"]
    for reference in re.findall(r'"\$ref": "([^"]*)"', text):
        kind, _, name = reference.removeprefix("#/components/").partition("/")
        need(name in components.get(kind, {}), "unknown reference", reference)
    for kind in set(components) - {"securitySchemes"}:
        for name in components[kind]:
            need(f'"#/components/{kind}/{name}"' in text, "unused component", kind, name)
            need(re.fullmatch(r"[A-Za-z0-9._-]+", name), "bad name", name)
    for wanted in document["security"]:
        need(set(wanted) <= set(components["securitySchemes"]), "unknown security scheme")
    for scheme in components["securitySchemes"].values():
        need((scheme["type"], scheme["in"]) == ("apiKey", "header") and scheme["name"], "bad security scheme")
    description = Description(document)
    for path, item in document["paths"].items():
        need(path.startswith("/") and set(item) <= {"get", "post"}, "bad path", path)
        for operation in item.values():
            operation_ids.append(operation.get("operationId"))
            parameters = [description.resolve(it) for it in operation.get("parameters", ())]
            need(sorted(it["name"] for it in parameters) == sorted(re.findall(r"{(\w+)}", path)), "parameters of", path)
            need(all(it["in"] == "path" and it["required"] is True and it["schema"] for it in parameters), "parameter of", path)
            need(set(operation["tags"]) <= {it["name"] for it in document["tags"]}, "unknown tag of", path)
            need(operation["responses"], "no responses of", path)
            for status, reply in operation["responses"].items():
                reply = description.resolve(reply)
                need(re.fullmatch("[1-5][0-9][0-9]", status), "bad status", status)
                need(isinstance(reply.get("description"), str), "no description", path, status)
                need(all("schema" in it for it in reply["content"].values()), "no schema", path, status)
    need(len(set(operation_ids)) == len(operation_ids) and all(operation_ids), "operation ids are not unique")

    for name, schema in components["schemas"].items():
        for part in parts_of(schema):
            need(not set(part) - KEYWORDS and part.get("type", "string") in TYPES, "unknown keyword or type in", name)
            need(set(part.get("required", ())) <= set(part.get("properties", {})), "unknown required member in", name)
            need(is_pattern(part.get("pattern", "")), "bad pattern in", name)
    return found
