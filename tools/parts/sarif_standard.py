"""What the standard of SARIF 2.1.0 wants of a log, by the classes that were made of its schema: each
object has the properties that are required, and none but those that there are. By its words, too: a
result is under the rule of its place, a URI is one, and no message has a placeholder or a link.

It needs these classes, on Debian `python3-sarif-python-om`."""

import re
import sys
import urllib.parse

# Where Debian has them, for another Python too.
sys.path.append("/usr/lib/python3/dist-packages")

import attr
import sarif_om

# The classes of the objects below a property, by the class of the object that has it. What isn't
# here is no object, or is a bag of properties.
CLASSES = {
    "SarifLog": {"runs": "Run"},
    "Run": {"invocations": "Invocation", "results": "Result", "tool": "Tool"},
    "Tool": {"driver": "ToolComponent"},
    "ToolComponent": {"rules": "ReportingDescriptor"},
    "ReportingDescriptor": {
        "defaultConfiguration": "ReportingConfiguration",
        "fullDescription": "MultiformatMessageString",
        "help": "MultiformatMessageString",
        "shortDescription": "MultiformatMessageString",
    },
    "Result": {
        "codeFlows": "CodeFlow",
        "fixes": "Fix",
        "locations": "Location",
        "message": "Message",
    },
    "CodeFlow": {"threadFlows": "ThreadFlow"},
    "ThreadFlow": {"locations": "ThreadFlowLocation"},
    "ThreadFlowLocation": {"location": "Location"},
    "Location": {"message": "Message", "physicalLocation": "PhysicalLocation"},
    "PhysicalLocation": {"artifactLocation": "ArtifactLocation", "region": "Region"},
    "Fix": {"artifactChanges": "ArtifactChange", "description": "Message"},
    "ArtifactChange": {"artifactLocation": "ArtifactLocation", "replacements": "Replacement"},
    "Replacement": {"deletedRegion": "Region", "insertedContent": "ArtifactContent"},
}
# What the text of the standard says of levels: one that isn't `none` is of a failure.
FAILS = "error", "warning", "note"


def properties_of(name):
    """The properties of a class, and those of them that are required."""
    fields = attr.fields(getattr(sarif_om, name))
    known = {field.metadata["schema_property_name"] for field in fields}
    required = {
        field.metadata["schema_property_name"] for field in fields if field.default is attr.NOTHING
    }
    return known, required


def object_faults(name, value):
    """What is wrong with an object of a class, and with those in it."""
    known, required = properties_of(name)
    below = CLASSES.get(name, {})
    for key in sorted(required - set(value)):
        yield f"{name} has no `{key}`"
    for key, part in value.items():
        if key not in known:
            yield f"{name} has no property `{key}`, and has one here"
        elif key in below:
            for one in part if isinstance(part, list) else [part]:
                yield from object_faults(below[key], one)
        elif isinstance(part, dict) and key != "partialFingerprints":
            yield f"nothing is known of `{key}` of {name}"


def result_faults(result, rules):
    """What is wrong with a result beside its properties."""
    kind, level = result.get("kind", "fail"), result.get("level", "warning")
    if (kind == "fail") != (level in FAILS):
        yield f"a result of kind {kind} is of level {level}"
    if result.get("ruleId") not in rules:
        yield f"there is no rule {result.get('ruleId')}"
    elif rules.index(result["ruleId"]) != result.get("ruleIndex"):
        yield f"the rule {result['ruleId']} isn't {result.get('ruleIndex')}"


def messages_in(value, name="SarifLog"):
    """The message strings below an object of a class, and whether each is plain text."""
    if name in ("Message", "MultiformatMessageString"):
        yield value["text"], True
        if "markdown" in value:
            yield value["markdown"], False
    for key, part in value.items():
        if key in CLASSES.get(name, {}):
            for one in part if isinstance(part, list) else [part]:
                yield from messages_in(one, CLASSES[name][key])


def message_faults(text, is_plain):
    """Whether a message has a placeholder (3.11.5) or, in plain text, a link (3.11.6)."""
    if re.search(r"[{}]", re.sub(r"\{\{|\}\}", "", text)):
        yield f"a message has a placeholder: {text!r}"
    if is_plain and re.search(r"[\[\]]", re.sub(r"\\.", "", text)):
        yield f"a message has a link: {text!r}"


def uri_faults(value):
    """Whether each URI of a value is one (3.10), and a relative one is a path alone."""
    if isinstance(value, list):
        for part in value:
            yield from uri_faults(part)
    elif isinstance(value, dict):
        for key, part in value.items():
            if key == "uri" or key.endswith("Uri"):
                yield from one_uri_faults(key, part)
            yield from uri_faults(part)


def one_uri_faults(key, text):
    """What is wrong with a URI."""
    parts = urllib.parse.urlsplit(text)
    if not re.fullmatch(r"([A-Za-z0-9._~/:-]|%[0-9A-F]{2})*", text):
        yield f"{text!r} is no URI"
    if key == "uri" and (parts.scheme or parts.netloc or "//" in parts.path):
        yield f"{text!r} is more than a path"
    if key != "uri" and not parts.scheme:
        yield f"{text!r} isn't absolute"


def faults_of(log):
    """What is wrong with a log."""
    yield from object_faults("SarifLog", log)
    yield from uri_faults(log)
    for text, is_plain in messages_in(log):
        yield from message_faults(text, is_plain)
    for run in log["runs"]:
        rules = [rule["id"] for rule in run["tool"]["driver"]["rules"]]
        for result in run["results"]:
            yield from result_faults(result, rules)
