"""Amounts of money: the placeholders of a shop's settings, and formats with one of them (docs/use/shopify.md)."""
import re
from dataclasses import dataclass

# of each placeholder what stands between thousands, and what before the cents, None where none are written
STYLES = {
    "amount": (",", "."),
    "amount_no_decimals": (",", None),
    "amount_with_comma_separator": (".", ","),
    "amount_no_decimals_with_comma_separator": (".", None),
    "amount_with_apostrophe_separator": ("'", "."),
    "amount_no_decimals_with_space_separator": (" ", None),
    "amount_with_space_separator": (" ", ","),
    "amount_with_period_and_space_separator": (" ", "."),
}
# the placeholder stands between the first opener and the closer after it
PLACEHOLDER = re.compile(r"\{\{(.*?)\}\}", re.S)


@dataclass
class MoneyFormat:
    before: str
    style: str
    after: str


FORMAT = MoneyFormat("$ ", "amount", "")
FORMAT_WITH_CURRENCY = MoneyFormat("$ ", "amount", " USD")


def format_of(text, otherwise):
    """The format that a text of the shop writes."""
    found = PLACEHOLDER.search(text) if isinstance(text, str) else None
    style = found and found[1].strip(" ")
    if style not in STYLES:
        return otherwise
    return MoneyFormat(text[: found.start()], style, text[found.end() :])


def amount(style, cents):
    thousands, point = STYLES[style]
    units, rest = divmod(abs(cents), 100)
    if point is None:
        units += rest >= 50
    sign = "-" if cents < 0 and (units or point is not None) else ""
    text = f"{units:,}".replace(",", thousands)
    return f"{sign}{text}" if point is None else f"{sign}{text}{point}{rest:02}"


def in_format(form, cents):
    return form.before + amount(form.style, cents) + form.after


def whole_units_alone(form, cents):
    """As in the format, but whole units have no cents after them."""
    text = amount(form.style, cents)
    if cents % 100 == 0 and STYLES[form.style][1] is not None:
        text = text[:-3]
    return form.before + text + form.after
