"""The pages that are compared, and their data, which is the same each time."""
import random
from dataclasses import dataclass, replace
from typing import Callable

FIRST = ["Ada", "Béla", "Chen", "Dana", "Emil", "Fatma", "Goran", "Hana", "Ivo", "Jana", "Kofi", "Lea"]
LAST = ["Adler", "Berg", "Costa", "Duval", "Evans", "Fischer", "Green", "Huber", "Ito", "Jensen", "Kaya", "Lang"]
THINGS = ["kettle", "lamp", "chair", "shelf", "bowl", "carpet", "clock", "mirror", "basket", "blanket"]
KINDS = ["green", "blue", "small", "large", "old & mended", "new", "plain", 'the "good"', "<soft>", "folding"]
WORDS = "some words that make a line of text, now longer and now shorter, with a mark & another <here> and there".split()


@dataclass
class Page:
    """A page: the name of its templates, how often a template repeats what its file has, how many items
    its data has, and the data."""

    name: str
    template: str
    times: int
    items: int
    data: Callable
    partials: tuple = ()

    def tenfold(self):
        """The same page of ten times the items, or of a template that repeats its file ten times as often."""
        times = self.times if self.items else 10 * self.times
        return replace(self, name=f"{self.name}, tenfold", times=times, items=10 * self.items)


def person(dice):
    return f"{dice.choice(FIRST)} {dice.choice(LAST)}"


def some(dice, texts, most):
    return dice.sample(texts, dice.randint(1, most))


def line(dice, least, most):
    return " ".join(dice.choice(WORDS) for _ in range(dice.randint(least, most)))


def nothing(dice, items):
    return {}


def mail(dice, items):
    """A customer and an order."""
    user = {"name": "Ada Adler", "street": "Long Lane", "house": 7, "code": "1010", "city": "Vienna", "country": "Austria", "points": 250}
    order = {"paid": True, "total": 12050, "due": "1 May", "number": 4711, "day": "3 April", "parcels": 3, "grams": 2400, "gift": True, "receiver": "Béla Berg"}
    shop = {"mail": "shop@example.org", "phone": "+43 1 234", "name": "The Shop", "city": "Linz", "country": "Germany"}
    return {"user": user, "order": order, "shop": shop}


def product(dice, number):
    return {
        "id": number,
        "code": f"item-{dice.randrange(10**6)}",
        "name": f"{dice.choice(KINDS)} {dice.choice(THINGS)}",
        "maker": dice.choice(LAST),
        "cents": dice.randrange(100, 100_000),
        "stock": max(0, dice.randrange(-10, 50)),
        "tags": some(dice, ["wood", "steel", "wool", "glass", "clay"], 3),
    }


def products(dice, items):
    return {"products": [product(dice, number) for number in range(items)]}


def report(dice, items):
    """Groups of 20 lines each."""

    def entry():
        return {"item": dice.choice(THINGS), "count": dice.randint(1, 20), "cents": dice.randrange(100, 10_000)}

    def group(number):
        return {"name": f"{person(dice)}, customer {number}", "lines": [entry() for _ in range(20)]}

    return {"title": "What was sold", "groups": [group(number) for number in range(items // 20)]}


def site(dice, items):
    def item(number):
        return {
            "title": f"{dice.choice(KINDS)} {dice.choice(THINGS)}",
            "url": f"items-{number}.html",
            "text": line(dice, 15, 40),
            "day": f"{dice.randint(1, 28)} May",
            "minutes": dice.randint(1, 30),
            "new": dice.random() < 0.2,
            "tags": some(dice, ["house", "garden", "kitchen"], 3) if dice.random() < 0.8 else None,
        }

    links = [{"url": f"{name}.html", "title": name.capitalize()} for name in ("home", "items", "prices", "about")]
    about = {"title": "The Shop", "year": 2026, "links": links}
    return {"site": about, "page": {"title": "Items", "url": "items.html"}, "items": [item(number) for number in range(items)]}


def people(dice, items):
    def one(number):
        city = {"name": dice.choice(["Linz", "Graz", "Wien", "Győr", "Brno"]), "code": dice.randrange(1000, 10_000)}
        points = dice.randrange(5_000)
        return {"id": number, "name": person(dice), "city": city, "member": points > 100, "points": points, "days": [dice.randint(1, 365) for _ in range(4)], "note": line(dice, 4, 10)}

    return {"people": [one(number) for number in range(items)]}


def records(dice, items):
    """Records of 30 members, of which a page shows four."""

    def one(number):
        known = {"id": number, "name": person(dice), "city": dice.choice(["Linz", "Graz", "Wien", "Brno"])}
        known["points"] = dice.randrange(5_000)
        texts = {f"note_{place}": line(dice, 2, 6) for place in range(20)}
        return known | texts | {f"count_{place}": dice.randrange(10**6) for place in range(6)}

    return {"records": [one(number) for number in range(items)]}


def data_of(page):
    """The data of a page. Its dice are its own, so that it is the same whichever pages are asked for."""
    return page.data(random.Random(page.template), page.items)


ONCE = [
    Page("plain text", "text", 17_500, 0, nothing),
    Page("mail", "mail", 2_000, 0, mail),
    Page("products", "products", 1, 20_000, products),
    Page("report", "report", 1, 40_000, report),
    Page("site page", "site", 1, 2_000, site, ("card",)),
    Page("large data", "large", 1, 11_000, people),
    Page("wide records", "wide", 1, 4_000, records),
]
PAGES = [page for once in ONCE for page in (once, once.tenfold())]
