"""The regular expression of each template: a is its first activity, b its second, x any other one."""

from defined.templates import NUMBERS

EXPRESSIONS = {
    "Init": "a[ax]*",
    "End": "[ax]*a",
    "Participation": "x*a[ax]*",
    "AtMostOne": "x*|x*ax*",
    "ChainSuccession": "(x|ab)*",
    "AlternateSuccession": "(x|ax*b)*",
    "Succession": "x*|x*a[abx]*bx*",
    "CoExistence": "x*|[abx]*a[abx]*b[abx]*|[abx]*b[abx]*a[abx]*",
    "ChainResponse": "([bx]|ab)*",
    "AlternateResponse": "([bx]|ax*b)*",
    "Response": "([bx]|a[ax]*b)*",
    "ChainPrecedence": "([ax]|ab)*",
    "AlternatePrecedence": "(x*a[ax]*b)*[ax]*",
    "Precedence": "x*|x*a[abx]*",
    "RespondedExistence": "[bx]*|[abx]*b[abx]*",
    "NotCoExistence": "[ax]*|[bx]*",
    "NotSuccession": "[bx]*[ax]*",
    "NotChainSuccession": "([bx]|aa*x)*a*",
    "NotRespondedExistence": "[ax]*|[bx]*",
    "NotResponse": "[bx]*[ax]*",
    "NotPrecedence": "[bx]*[ax]*",
    "NotChainResponse": "([bx]|aa*x)*a*",
    "NotChainPrecedence": "([bx]|aa*x)*a*",
    **{f"Exactly{n}": "x*" + n * "ax*" for n in NUMBERS},
    **{f"AtLeast{n}": n * "x*a" + "[ax]*" for n in NUMBERS},
    **{f"AtMost{n}": "x*" + n * "(ax*)?" for n in NUMBERS},
}
