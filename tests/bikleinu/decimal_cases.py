"""The cases of `--filters decimals`, for tests/bikleinu/run: worked out by hand."""

MISSING_SET = "  tip: --filters decimals has it"

# an output, and what it writes
OUTPUTS = (
    ("'19.99' | decimal_times: 3", "59.97"),
    ("'19.99' | decimal_times: '0.19'", "3.7981"),
    ("'19.99' | decimal_times: '0.19' | decimal_round: 2", "3.80"),
    ("'1.50' | decimal_plus: '0.5'", "2.00"),
    ("'0.1' | decimal_plus: '0.2'", "0.3"),
    ("5 | decimal_plus: 2", "7"),
    ("'1.5' | decimal_minus: 2", "-0.5"),
    ("'-0.05' | decimal_plus: '0.05'", "0.00"),
    ("'+007.250' | decimal_plus: 0", "7.250"),
    ("10 | decimal_divided_by: 3, 2", "3.33"),
    ("20 | decimal_divided_by: 3, 2", "6.67"),
    ("'-0.25' | decimal_divided_by: 1, 1", "-0.3"),
    ("'0.5' | decimal_divided_by: '-0.02', 0", "-25"),
    ("1 | decimal_divided_by: '0.000000000000000003', 0", "333333333333333333"),
    ("'2.5' | decimal_round: 0", "3"),
    ("'-2.5' | decimal_round: 0", "-3"),
    ("'2.449' | decimal_round: 1", "2.4"),
    ("'19.9' | decimal_round: 2", "19.90"),
    ("'-0.4' | decimal_round: 0", "0"),
    ("'2.10' | decimal_at_least: '2.1'", "2.10"),
    ("'2.09' | decimal_at_least: '2.1'", "2.1"),
    ("'2.11' | decimal_at_most: '2.1'", "2.1"),
    ("'19.99' | decimal_compare: 100", "-1"),
    ("'100.00' | decimal_compare: 100", "0"),
    ("100 | decimal_compare: '99.999'", "1"),
    ("'1234567.885' | decimal_format: 2", "1,234,567.89"),
    ("'1234567.885' | decimal_format: 2, '.', ','", "1.234.567,89"),
    ("'-999.5' | decimal_format: 0, ' '", "-1 000"),
    ("'1234.5' | decimal_format: 2, ''", "1234.50"),
    ("'9223372036854775807' | decimal_plus: 0", "9223372036854775807"),
    ("'-9223372036854775807' | decimal_minus: 1", "-9223372036854775808"),
    ("'0.000000000000000001' | decimal_times: 5", "0.000000000000000005"),
    ("prices | decimal_sum", "6.500"),
    ("lines | decimal_sum: 'price'", "21.24"),
    ("nothing | decimal_sum", "0"),
)
# an output that ends by a fault, and its kind
FAULTS = (
    ("'19,99' | decimal_plus: 1", "InvalidInput"),
    ("'1.' | decimal_plus: 1", "InvalidInput"),
    ("'.5' | decimal_round: 1", "InvalidInput"),
    ("nil | decimal_times: 2", "InvalidInput"),
    ("1 | decimal_plus: 'two'", "InvalidArgument"),
    ("1 | decimal_compare: true", "InvalidArgument"),
    ("1 | decimal_round: -1", "InvalidArgument"),
    ("1 | decimal_round: 19", "InvalidArgument"),
    ("1 | decimal_divided_by: 3, 'x'", "InvalidArgument"),
    ("1 | decimal_divided_by: '0.00', 2", "DivideByZero"),
    ("9223372036854775807 | decimal_plus: 1", "NumberRange"),
    ("'0.0000000000000000001' | decimal_plus: 0", "NumberRange"),
    ("'9223372036854775808' | decimal_round: 0", "NumberRange"),
    ("'0.0000000001' | decimal_times: '0.000000001'", "NumberRange"),
    ("10 | decimal_round: 18", "NumberRange"),
    ("9223372036854775807 | decimal_divided_by: '0.000000000000000001', 18", "NumberRange"),
    ("lines | decimal_sum", "InvalidInput"),
    ("lines | decimal_sum: 'sum'", "InvalidInput"),
)
DATA = '{"prices": ["1.25", 5, "0.250"], "lines": [{"price": "19.99"}, {"price": "1.25"}], "nothing": []}'


def case(title, words, files, out="", errors=(), status=None):
    return {"title": title, "words": words, "files": files, "out": out, "errors": errors, "status": bool(errors) if status is None else status}


def decimal_cases():
    words = "render t d --filters decimals"
    return [
        *(case(output, words, {"t": "{{ %s }}" % output, "d": DATA}, out) for output, out in OUTPUTS),
        *(case(output, words, {"t": "{{ %s }}" % output, "d": DATA}, errors=(f"error: t: {kind}: ",)) for output, kind in FAULTS),
        case("decimals of JSON", f"{words} --decimals text", {"t": "{{ a | decimal_times: 2 }}", "d": '{"a": 19.90}'}, "39.80"),
        case("whole numbers beside decimals", words, {"t": "{{ 7 | times: 3 | divided_by: 2 }}", "d": "{}"}, "10"),
        case("decimals without their set", "render t", {"t": "{{ 1 | decimal_plus: 2 }}"}, errors=("error: t: UnknownFilter: line 1, column 8", MISSING_SET)),
        case("decimals that are checked", "check t --filters decimals", {"t": "{{ 1 | decimal_plus: 2 }}"}, errors=("files 1, faults 0, warnings 0",), status=0),
        case("assets of decimals", "render t --filters decimals --assets /t/", {"t": "a"}, errors=("error: --assets is for Shopify's filters: write --filters shopify",), status=2),
    ]
