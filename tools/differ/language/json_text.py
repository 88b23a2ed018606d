"""A value as JSON, with nothing between its tokens."""
import json
import re


def json_of(value):
    """The filters' JSON, which ends no script: its marks stand by their numbers."""
    text = json.dumps(value, ensure_ascii=False, separators=(",", ":"))
    return re.sub("[<>&]", lambda mark: f"\\u{ord(mark[0]):04x}", text)
