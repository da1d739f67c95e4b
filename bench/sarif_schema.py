"""What the schema of SARIF 2.1.0 (OASIS, sarif-schema-2.1.0.json) says of the objects that a report has: which members
each may have, which it must have, and of what kind they are. Debian has no copy of that schema, so this part of it is
written off by hand; of members that no report has only the names are here."""


def struct(required, members, others=""):
    """An object with these members, and others of any kind, and none else."""
    return {
        "type": "object",
        "required": required.split(),
        "properties": {**dict.fromkeys(f"{others} properties".split(), True), **members},
        "additionalProperties": False,
    }


def one_of(*names):
    return {"enum": list(names)}


def each(item, **more):
    return {"type": "array", "items": item, **more}


TEXT = {"type": "string"}
# https://semver.org, as GitHub reads it: the schema takes any string.
VERSION = {"type": "string", "pattern": r"^(0|[1-9]\d*)\.(0|[1-9]\d*)\.(0|[1-9]\d*)([-+][0-9A-Za-z.+-]+)?$"}
ADDRESS = {"type": "string", "format": "uri"}
NUMBER = {"type": "integer", "minimum": 1}
INDEX = {"type": "integer", "minimum": -1}

LEVEL = one_of("none", "note", "warning", "error")
TAGGED = {"type": "object", "properties": {"tags": each(TEXT, minItems=0, uniqueItems=True)}}
TEXT_FORMS = struct("text", {"text": TEXT, "markdown": TEXT})
MESSAGE = {**struct("", {"text": TEXT, "id": TEXT}, "markdown arguments"), "anyOf": [{"required": ["text"]}, {"required": ["id"]}]}
FILE = struct("", {"uri": {"type": "string", "format": "uri-reference"}, "uriBaseId": TEXT, "index": INDEX}, "description")
REGION = struct(
    "",
    {"startLine": NUMBER, "startColumn": NUMBER, "endLine": NUMBER, "endColumn": NUMBER},
    "charOffset charLength byteOffset byteLength snippet message sourceLanguage",
)
PLACE = {
    **struct("", {"artifactLocation": FILE, "region": REGION}, "address contextRegion"),
    "anyOf": [{"required": ["address"]}, {"required": ["artifactLocation"]}],
}
LOCATION = struct("", {"physicalLocation": PLACE, "message": MESSAGE}, "id logicalLocations annotations relationships")
STEP = struct(
    "",
    {"location": LOCATION},
    "index stack kinds taxa module state nestingLevel executionOrder executionTimeUtc importance webRequest webResponse",
)
THREAD_FLOW = struct("locations", {"locations": each(STEP, minItems=1)}, "id message initialState immutableState")
CODE_FLOW = struct("threadFlows", {"threadFlows": each(THREAD_FLOW, minItems=1)}, "message")
SUPPRESSION = struct("kind", {"kind": one_of("inSource", "external"), "justification": TEXT}, "guid status location")
REPLACEMENT = struct(
    "deletedRegion", {"deletedRegion": REGION, "insertedContent": struct("", {"text": TEXT}, "binary rendered")}
)
CHANGE = struct(
    "artifactLocation replacements",
    {"artifactLocation": FILE, "replacements": each(REPLACEMENT, minItems=1, uniqueItems=False)},
)
FIX = struct(
    "artifactChanges", {"description": MESSAGE, "artifactChanges": each(CHANGE, minItems=1, uniqueItems=True)}
)
RESULT = struct(
    "message",
    {
        "ruleId": TEXT,
        "ruleIndex": INDEX,
        "level": LEVEL,
        "message": MESSAGE,
        "locations": each(LOCATION, uniqueItems=False),
        "codeFlows": each(CODE_FLOW, uniqueItems=False),
        "relatedLocations": each(LOCATION, uniqueItems=True),
        "suppressions": each(SUPPRESSION, uniqueItems=True),
        "partialFingerprints": {"type": "object", "additionalProperties": TEXT},
        "fixes": each(FIX, uniqueItems=True),
    },
    "rule kind analysisTarget guid correlationGuid occurrenceCount fingerprints stacks graphs graphTraversals"
    " baselineState rank attachments hostedViewerUri workItemUris provenance taxa webRequest webResponse",
)
RULE = struct(
    "id",
    {
        "id": TEXT,
        "name": TEXT,
        "shortDescription": TEXT_FORMS,
        "fullDescription": TEXT_FORMS,
        "helpUri": ADDRESS,
        "help": TEXT_FORMS,
        "defaultConfiguration": struct("", {"level": LEVEL}, "enabled rank parameters"),
        "properties": TAGGED,
    },
    "deprecatedIds guid deprecatedGuids deprecatedNames messageStrings relationships",
)
COMPONENT = struct(
    "name",
    {
        "name": TEXT,
        "version": TEXT,
        "semanticVersion": VERSION,
        "informationUri": ADDRESS,
        "rules": each(RULE, uniqueItems=True),
    },
    "guid organization product productSuite shortDescription fullDescription fullName"
    " dottedQuadFileVersion releaseDateUtc downloadUri globalMessageStrings notifications taxa locations language contents"
    " isComprehensive localizedDataSemanticVersion minimumRequiredLocalizedDataSemanticVersion associatedComponent"
    " translationMetadata supportedTaxonomies",
)
RUN = struct(
    "tool",
    {
        "tool": struct("driver", {"driver": COMPONENT}, "extensions"),
        "results": each(RESULT, uniqueItems=False),
        "columnKind": one_of("utf16CodeUnits", "unicodeCodePoints"),
        "automationDetails": struct("", {"id": TEXT}, "description guid correlationGuid"),
    },
    "invocations conversion language versionControlProvenance originalUriBaseIds artifacts logicalLocations graphs"
    " runAggregates baselineGuid redactionTokens defaultEncoding defaultSourceLanguage newlineSequences"
    " externalPropertyFileReferences threadFlowLocations taxonomies addresses translations policies webRequests"
    " webResponses specialLocations",
)
SCHEMA = struct(
    "version runs",
    {"$schema": ADDRESS, "version": one_of("2.1.0"), "runs": each(RUN, uniqueItems=False)},
    "inlineExternalProperties",
)


def faults(report):
    """What the schema says against this report, a line each; or that nothing here knows schemas."""
    try:
        from jsonschema import Draft7Validator, FormatChecker
    except ImportError:
        return ["no jsonschema for Python (Debian: python3-jsonschema)"]
    found = Draft7Validator(SCHEMA, format_checker=FormatChecker()).iter_errors(report)
    return [f"{'/'.join(map(str, fault.absolute_path))}: {fault.message}" for fault in found]
