"""The parts that are used of two JSON schemas, SARIF 2.1.0 and GitLab's Code Quality; no other properties are allowed."""
from __future__ import annotations

from typing import Any, Dict, Sequence

TEXT: Dict[str, Any] = {"type": "string"}
COUNT: Dict[str, Any] = {"type": "integer", "minimum": 0}
FROM_ONE: Dict[str, Any] = {"type": "integer", "minimum": 1}
URI: Dict[str, Any] = {"type": "string", "pattern": r"^(?:[A-Za-z0-9._~/:?#\[\]@!$&'()*+,;=-]|%[0-9A-Fa-f]{2})+$"}


def _object(properties: Dict[str, Any], required: Sequence[str] = ()) -> Dict[str, Any]:
    """An object with these properties and no others."""
    return {"type": "object", "properties": properties, "required": list(required), "additionalProperties": False}


def _array(items: Dict[str, Any], least: int = 0) -> Dict[str, Any]:
    """An array of such items."""
    return {"type": "array", "items": items, "minItems": least}


LEVEL = {"enum": ["none", "note", "warning", "error"]}
MESSAGE = _object({"text": TEXT, "markdown": TEXT, "id": TEXT}, ["text"])
ARTIFACT = _object({"uri": URI, "uriBaseId": TEXT, "index": COUNT})
REGION = _object({it: FROM_ONE for it in ("startLine", "startColumn", "endLine", "endColumn")})
REPLACEMENT = _object({"deletedRegion": REGION, "insertedContent": _object({"text": TEXT})}, ["deletedRegion"])
CHANGE = _object({"artifactLocation": ARTIFACT, "replacements": _array(REPLACEMENT, 1)}, ["artifactLocation", "replacements"])
SUPPRESSION = _object({"kind": {"enum": ["inSource", "external"]}, "justification": TEXT,
                       "status": {"enum": ["accepted", "underReview", "rejected"]}}, ["kind"])
RESULT = _object({
    "ruleId": TEXT, "ruleIndex": COUNT, "level": LEVEL, "message": MESSAGE,
    "locations": _array(_object({"physicalLocation": _object({"artifactLocation": ARTIFACT, "region": REGION})})),
    "partialFingerprints": {"type": "object", "additionalProperties": TEXT},
    "fixes": _array(_object({"description": MESSAGE, "artifactChanges": _array(CHANGE, 1)}, ["artifactChanges"])),
    "baselineState": {"enum": ["new", "unchanged", "updated", "absent"]}, "suppressions": _array(SUPPRESSION),
}, ["message"])
RULE = _object({
    "id": TEXT, "name": TEXT, "shortDescription": MESSAGE, "fullDescription": MESSAGE, "help": MESSAGE, "helpUri": URI,
    "defaultConfiguration": _object({"level": LEVEL}), "properties": {"type": "object"},
}, ["id"])
DRIVER = _object({"name": TEXT, "version": TEXT, "semanticVersion": TEXT, "rules": _array(RULE)}, ["name"])
NOTICE = _object({"level": LEVEL, "message": MESSAGE}, ["message"])
INVOCATION = _object({"executionSuccessful": {"type": "boolean"}, "toolExecutionNotifications": _array(NOTICE)},
                     ["executionSuccessful"])
RUN = _object({"invocations": _array(INVOCATION), "tool": _object({"driver": DRIVER}, ["driver"]), "results": _array(RESULT),
               "columnKind": {"enum": ["utf16CodeUnits", "unicodeCodePoints"]}}, ["tool"])
SARIF = _object({"$schema": URI, "version": {"enum": ["2.1.0"]}, "runs": _array(RUN)}, ["version", "runs"])
# What GitLab reads of an issue; of the rest, only what the format of Code Climate has.
ISSUE = _object({
    "type": {"enum": ["issue"]}, "description": {"type": "string", "minLength": 1}, "check_name": TEXT,
    "fingerprint": {"type": "string", "pattern": "^[0-9a-f]{64}$"}, "categories": _array({"enum": ["Security"]}),
    "severity": {"enum": ["info", "minor", "major", "critical", "blocker"]}, "content": _object({"body": TEXT}, ["body"]),
    "location": _object({"path": {"type": "string", "pattern": "^(?!\\./|/)."},
                         "lines": _object({"begin": FROM_ONE}, ["begin"])},
                        ["path", "lines"]),
}, ["description", "check_name", "fingerprint", "severity", "location"])
GITLAB = _array(ISSUE)
