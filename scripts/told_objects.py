"""Objects that the program prints, for the scripts beside it."""
import hashlib
import json
import re
from typing import Any


def file_of(role: str, content: bytes, **more: Any) -> dict[str, Any]:
    return {"role": role, "length": len(content), "sha256": hashlib.sha256(content).hexdigest(), **more}


def line_of(verdict: str, files: list[dict[str, Any]], **members: Any) -> str:
    """The line of an object: no spaces, members in the order of their names, and hidden characters as escapes."""
    text = json.dumps({"auditor": "0.1.0", "verdict": verdict, "files": files, **members}, sort_keys=True, separators=(",", ":"), ensure_ascii=False)
    return re.sub("[\x80-\x9f\u061c\u200e\u200f\u202a-\u202e\u2066-\u2069]", lambda hidden: f"\\u{ord(hidden[0]):04x}", text)
