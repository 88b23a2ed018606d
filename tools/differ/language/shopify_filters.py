"""The filters of Shopify's templates (docs/use/shopify.md), over what the data says of the shop."""
import base64
import binascii
import hashlib
import hmac
import re

from . import shopify_blocks
from .arguments import lower, upper
from .faults import Fault
from .json_text import json_of
from .money import FORMAT, FORMAT_WITH_CURRENCY, amount, format_of, in_format, whole_units_alone
from .values import GREATEST, LEAST, is_truthy, same, text_of, whole

SPACE = " \t\n\f\r"
WORDS = re.compile(f"[^{SPACE}]+")
LEFT_OUT = "'\"()[]"
HANDLE_WORDS = re.compile("[A-Za-z0-9_]+")
CAMEL_PARTS = re.compile(r"[^-_ ]+")
SIZES = ("grande", "large", "medium", "compact", "small", "thumb", "icon")
IMAGE = re.compile(r"products/([A-Za-z0-9_-]+)\.([A-Za-z0-9_]{2,4})")


def text_filter(change):
    """A filter over the texts of its input and its arguments."""
    return lambda *values: change(*map(text_of, values))


def handle(text):
    kept = "".join(letter for letter in lower(text) if letter not in LEFT_OUT)
    return "-".join(HANDLE_WORDS.findall(kept))


def camelize(text):
    return "".join(upper(part[:1]) + part[1:] for part in CAMEL_PARTS.findall(text))


def squish(value):
    return None if value is None else " ".join(WORDS.findall(text_of(value)))


def replace_last(text, old, new):
    before, found, after = text.rpartition(old) if old else (text, True, "")
    return before + new + after if found else text


def base64_decode(text):
    """Of what base64 writes: the bits after the last byte are 0."""
    try:
        found = base64.b64decode(text, validate=True)
        if base64.b64encode(found).decode() == text:
            return found.decode()
    except (binascii.Error, ValueError):
        pass
    raise Fault("InvalidInput")


def digest(name):
    return text_filter(lambda text: hashlib.new(name, text.encode()).hexdigest())


def hmac_sha256(text, key):
    return hmac.new(key.encode(), text.encode(), "sha256").hexdigest()


def maps_of(value):
    """The items of a list of maps, None where one is no map. Nil is an empty list, and any other value a list of itself."""
    found = [] if value is None else value if isinstance(value, list) else [value]
    return found if all(isinstance(item, dict) for item in found) else None


def picked(item, name, target):
    """Whether the property is truthy, or is the target where one is given, of which nil is none."""
    held = item.get(text_of(name))
    return is_truthy(held) if target is None else same(held, target)


def reject(value, name, target=None):
    found = maps_of(value)
    return found and [item for item in found if not picked(item, name, target)]


def places(value, name, target):
    return [place for place, item in enumerate(maps_of(value) or ()) if picked(item, name, target)]


def find(value, name, target=None):
    found = places(value, name, target)
    return maps_of(value)[found[0]] if found else None


def find_index(value, name, target=None):
    return (places(value, name, target) or [None])[0]


def has(value, name, target=None):
    return None if maps_of(value) is None else bool(places(value, name, target))


def total(value, *names):
    found = [] if value is None else value if isinstance(value, list) else [value]
    if names:
        found = [item.get(text_of(names[0])) if isinstance(item, dict) else None for item in found]
    so_far = 0
    for item in found:
        so_far += counted(item)
        if not LEAST <= so_far <= GREATEST:
            raise Fault("NumberRange")
    return so_far


def counted(item):
    if item is None or isinstance(item, (bool, dict)):
        return 0
    number = whole(item)
    if number is None:
        raise Fault("InvalidInput")
    return number


def weight_with_unit(value):
    grams = whole(value)
    if grams is None:
        raise Fault("InvalidInput")
    kilograms, rest = divmod(abs(grams), 1000)
    return f"{'-' if grams < 0 else ''}{kilograms}.{f'{rest:03}'.rstrip('0') or '0'} kg"


def link_to(text, url, title=""):
    return f'<a href="{url}" title="{title}">{text}</a>'


def link_to_collection(value):
    if value is None or value is False:
        return "Unknown Vendor"
    text = text_of(value)
    return link_to(text, f"/collections/{handle(text)}", text)


def within(value, collection):
    held = collection.get("handle") if isinstance(collection, dict) else None
    if not isinstance(collection, dict) or "handle" not in collection:
        return value
    return f"/collections/{text_of(held)}{text_of(value)}"


def product_img_url(value, size="small"):
    found, size = IMAGE.match(text_of(value)), text_of(size)
    if not found:
        raise Fault("InvalidInput")
    if size == "original":
        return f"/{text_of(value)}"
    if size not in SIZES:
        raise Fault("InvalidArgument")
    return f"/products/{found[1]}_{size}.{found[2]}"


def tag_filters(collection, tags):
    """The filters of the page's tags."""

    def link(text, tag, address):
        return f'<a title="Show tag {tag}" href="/collections/{collection}/{"+".join(address)}">{text}</a>'

    def others(tag):
        return [other for other in tags if other != tag]

    def highlight(value, style="active"):
        return f'<span class="{text_of(style)}">{value}</span>' if isinstance(value, str) and value in tags else value

    return {
        "link_to_tag": (1, 1, text_filter(lambda text, tag: link(text, tag, [tag]))),
        "link_to_add_tag": (1, 1, text_filter(lambda text, tag: link(text, tag, [*others(tag), tag]))),
        "link_to_remove_tag": (1, 1, text_filter(lambda text, tag: link(text, tag, others(tag)))),
        "highlight_active_tag": (0, 1, highlight),
    }


def money_filters(shop):
    plain = format_of(shop.get("money_format"), FORMAT)
    with_currency = format_of(shop.get("money_with_currency_format"), FORMAT_WITH_CURRENCY)

    def of_cents(write):
        def answer(value):
            cents = whole(value)
            if value is None:
                return ""
            if cents is None:
                raise Fault("InvalidInput")
            return write(cents)

        return answer

    return {
        "money": (0, 0, of_cents(lambda cents: in_format(plain, cents))),
        "money_with_currency": (0, 0, of_cents(lambda cents: in_format(with_currency, cents))),
        "money_without_currency": (0, 0, of_cents(lambda cents: amount(plain.style, cents))),
        "money_without_trailing_zeros": (0, 0, of_cents(lambda cents: whole_units_alone(plain, cents))),
    }


def filters_over(data):
    shop, collection, tags = (data.get(name) for name in ("shop", "collection", "current_tags"))
    held = collection.get("handle") if isinstance(collection, dict) else None
    tags = [tag for tag in tags if isinstance(tag, str)] if isinstance(tags, list) else []
    return {
        **FILTERS,
        **shopify_blocks.FILTERS,
        **money_filters(shop if isinstance(shop, dict) else {}),
        **tag_filters(held if isinstance(held, str) else "", tags),
    }


FILTERS = {
    "asset_url": (0, 0, text_filter(lambda text: f"/assets/{text}")),
    "global_asset_url": (0, 0, text_filter(lambda text: f"/global/{text}")),
    "shopify_asset_url": (0, 0, text_filter(lambda text: f"/shopify/{text}")),
    "url_for_vendor": (0, 0, text_filter(lambda text: f"/collections/{handle(text)}")),
    "url_for_type": (0, 0, text_filter(lambda text: f"/collections/{handle(text)}")),
    "product_img_url": (0, 1, product_img_url),
    "within": (1, 1, within),
    "link_to": (1, 2, text_filter(link_to)),
    "link_to_vendor": (0, 0, link_to_collection),
    "link_to_type": (0, 0, link_to_collection),
    "img_tag": (0, 1, text_filter(lambda text, other="": f'<img src="{text}" alt="{other}" />')),
    "script_tag": (0, 0, text_filter(lambda text: f'<script src="{text}" type="text/javascript"></script>')),
    "stylesheet_tag": (
        0, 1, text_filter(lambda text, media="all": f'<link href="{text}" rel="stylesheet" type="text/css"  media="{media}"  />'),
    ),
    "handle": (0, 0, text_filter(handle)),
    "handleize": (0, 0, text_filter(handle)),
    "camelize": (0, 0, text_filter(camelize)),
    "squish": (0, 0, squish),
    "replace_last": (2, 2, text_filter(replace_last)),
    "remove_last": (1, 1, text_filter(lambda text, old: replace_last(text, old, ""))),
    "base64_encode": (0, 0, text_filter(lambda text: base64.b64encode(text.encode()).decode())),
    "base64_decode": (0, 0, text_filter(base64_decode)),
    "md5": (0, 0, digest("md5")),
    "sha1": (0, 0, digest("sha1")),
    "sha256": (0, 0, digest("sha256")),
    "hmac_sha256": (1, 1, text_filter(hmac_sha256)),
    "json": (0, 0, json_of),
    "reject": (1, 2, reject),
    "find": (1, 2, find),
    "find_index": (1, 2, find_index),
    "has": (1, 2, has),
    "sum": (0, 1, total),
    "weight_with_unit": (0, 0, weight_with_unit),
}
