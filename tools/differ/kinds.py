"""The kinds of cases: what is made, what the reading says of it, and what is asked of which program."""
import generate
import reading
from compare import Kind, run_check, run_page, run_paths, run_render


def read_page(filters=None, missing_is_nil=False):
    return lambda case: reading.page(case.source, case.data, case.partials, filters, missing_is_nil)


def read_paths(case):
    return reading.paths(case.source, case.partials)


def read_faults(case):
    return reading.faults(case.source), None


def within_pieces(read, ran):
    """Whether the same faults are reported, each at a place in its piece."""
    left = list(read[0])
    for printed in ran[0]:
        found = next((fault for fault in left if is_there(fault, printed)), None)
        if found is None:
            return False
        left.remove(found)
    return not left and read[1] == ran[1]


def is_there(expected, printed):
    (first, last, kind), (line, column, found_kind) = expected, printed
    return kind == found_kind and first <= (line, column) <= last


KINDS = {
    "language": Kind("liquid_page", generate.case_of, read_page(), run_page),
    "projected": Kind("liquid_page", generate.long_case_of, read_page(), run_page),
    "missing": Kind("bikleinu", generate.lacking_case_of, read_page(missing_is_nil=True), run_render("--missing", "nil")),
    "escaped": Kind("bikleinu", generate.escaping_case_of, read_page("escaped"), run_render("--escape", "html")),
    "paths": Kind("bikleinu", generate.asking_case_of, read_paths, run_paths),
    "faults": Kind("bikleinu", generate.broken_case_of, read_faults, run_check, within_pieces),
    "jekyll": Kind("bikleinu", generate.pack_case_of("jekyll"), read_page("jekyll"), run_render("--filters", "jekyll")),
    "shopify": Kind("bikleinu", generate.pack_case_of("shopify"), read_page("shopify"), run_render("--filters", "shopify")),
}
