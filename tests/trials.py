"""How tests are run: one passes where it returns True, and a line says so."""
import time


def passes(subject, test, *given):
    """Whether a test returns True of what is given to it; a line says so, with its seconds where they are many."""
    name, begin = ': '.join((test.__name__, *(it for it in given if isinstance(it, str)))), time.monotonic()
    try:
        why = None if test(*given) else 'it is not so'
    except Exception as error:
        why = repr(error)
    took = time.monotonic() - begin
    seconds = f', {took:.1f} seconds' if took >= 1 else ''
    print(f'{subject} {name} ... {f"FAILED: {why}" if why else "ok"}{seconds}', flush=True)
    return why is None


def passed_of(subject, tests):
    """Runs tests, each with what is given to it, and says in a last line how many passed; whether all did."""
    passed = sum(passes(subject, *test) for test in tests)
    print(f'{subject}: {passed} passed, {len(tests) - passed} failed', flush=True)
    return passed == len(tests)
