"""What Shopify's tags and blocks write, and links to the pages of a list (docs/use/shopify.md)."""
from .faults import Fault
from .values import is_truthy, text_of

CONTACT = ("/contact#contact_form", ' id="contact_form"', ' class="contact-form"')
MULTIPART = ' enctype="multipart/form-data"'
# where a form of a kind goes, and its attributes before and after those that all forms have
FORMS = {
    "cart": ("/cart", ' id="cart_form"', f' class="shopify-cart-form"{MULTIPART}'),
    "contact": CONTACT,
    "customer": CONTACT,
    "create_customer": ("/account", ' id="create_customer"', ' data-login-with-shop-sign-up="true"'),
    "customer_login": ("/account/login", ' id="customer_login"', ' data-login-with-shop-sign-in="true"'),
    "recover_customer_password": ("/account/recover", "", ""),
    "storefront_password": ("/password", ' id="login_form"', ' class="storefront-password-form"'),
}


def form(body, kind, subject=None):
    name, body = text_of(kind), text_of(body)
    if name == "product":
        number = needed(subject, "id")
        parts = ("/cart/add", f' id="product_form_{number}"', f' class="shopify-product-form"{MULTIPART}')
        body += f'<input type="hidden" name="product-id" value="{number}" />'
    elif name == "new_comment":
        parts = (f"{needed(subject, 'url')}/comments#comment_form", ' id="comment_form"', ' class="comment-form"')
    elif name in FORMS:
        parts = FORMS[name]
    else:
        raise Fault("InvalidArgument")
    action, before, after = parts
    hidden = f'<input type="hidden" name="form_type" value="{name}" /><input type="hidden" name="utf8" value="\u2713" />'
    return f'<form method="post" action="{action}"{before} accept-charset="UTF-8"{after}>{hidden}{body}</form>'


def needed(subject, name):
    if not isinstance(subject, dict) or name not in subject:
        raise Fault("InvalidArgument")
    return text_of(subject[name])


def section(sections, name):
    text = sections.get(text_of(name)) if isinstance(sections, dict) else None
    if not isinstance(text, str):
        raise Fault("InvalidArgument")
    return text


def default_pagination(paginate):
    parts = paginate.get("parts") if isinstance(paginate, dict) else None
    if not isinstance(parts, list):
        raise Fault("InvalidInput")
    current = shown(paginate, "current_page")
    spans = [neighbour("prev", paginate.get("previous")), *(part(current, it) for it in parts), neighbour("next", paginate.get("next"))]
    return " ".join(filter(None, spans))


def part(current, it):
    if isinstance(it, dict) and is_truthy(it.get("is_link")):
        return span("page", link(it))
    title = shown(it, "title")
    return span("page current" if title == current else "deco", title)


def neighbour(name, page):
    return span(name, link(page)) if is_truthy(page) else ""


def link(page):
    return f'<a href="{shown(page, "url")}" title="">{shown(page, "title")}</a>'


def span(name, inner):
    return f'<span class="{name}">{inner}</span>'


def shown(held, name):
    return text_of(held[name]) if isinstance(held, dict) and name in held else ""


FILTERS = {
    "default_pagination": (0, 0, default_pagination),
    "form": (1, 2, form),
    "layout": (1, 1, lambda _, markup: ""),
    "no_text": (0, 0, lambda body: ""),
    "paginate": (1, 1, lambda body, markup: body),
    "section": (1, 1, section),
    "style": (0, 0, lambda body: f"<style data-shopify>{text_of(body)}</style>"),
}
# blocks and tags whose markup is one text, and those that have items, with their filters, and of a tag the variable that is its input
TEXT_BLOCKS = {"paginate": "paginate"}
TEXT_TAGS = {"layout": ()}
ITEM_BLOCKS = {"form": "form", "style": "style", "schema": "no_text", "javascript": "no_text", "stylesheet": "no_text"}
ITEM_TAGS = {"section": ("section", "sections"), "sections": ("section", "sections")}
