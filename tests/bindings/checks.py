"""What the tests in Python share: the way to the package, which with --installed is pip's, and checks, of which each answers what isn't
well, or None."""
import os
import sys

HERE = os.path.dirname(os.path.abspath(__file__))
TOP = os.path.dirname(os.path.dirname(HERE))
if "--installed" not in sys.argv:
    sys.path.insert(1, f"{TOP}/bindings/python")


def fails(call, number):
    try:
        call()
    except Exception as fault:
        report = getattr(fault, "number", None), getattr(fault, "message", None)
        return None if report[0] == number and report[1] else f"{report[0]}: {report[1] or fault!r}, and {number} with a message is wanted"
    return f"no fault, and {number} is wanted"


def raises(call, kind):
    try:
        call()
    except kind as error:
        return None if str(error) else "no message"
    return f"no error, and {kind.__name__} is wanted"


def same(call, wanted):
    """What a call answers, or the words of the error that it raises."""
    try:
        made = call()
    except Exception as error:
        made = f"{type(error).__name__}: {error}"
    return None if made == wanted else f"{made!r}, and {wanted!r} is wanted"


def first(checks):
    return next(filter(None, checks), None)


def report(checks):
    """Makes these named checks, tells what isn't well, and at the end how many are."""
    passed = failed = 0
    for name, check in checks:
        try:
            wrong = check()
        except Exception as error:
            wrong = repr(error)
        passed, failed = passed + (not wrong), failed + bool(wrong)
        if wrong:
            print(f"{name}: {wrong}")
    print(f"{passed} passed, {failed} failed")
