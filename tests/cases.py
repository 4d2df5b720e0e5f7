"""Cases of a test, functions whose names say what must hold, and what comes of them; how a test answers --help."""
import subprocess
import sys


def answer_help(usage, *options):
    """Before a test does anything: prints its usage and ends for -h and --help, and with status 2 if it has no such option."""
    words = sys.argv[1:]
    if {"-h", "--help"} & set(words):
        sys.exit(print(usage.strip()))
    for it in words:
        if it.startswith("-") and it not in options:
            print(f"no option {it}\n\n{usage.strip()}", file=sys.stderr)
            sys.exit(2)


class Differs(Exception):
    """What is not as it must be."""


def expect(found, wanted, of):
    """Whether what was found of something is what it must be."""
    if found != wanted:
        raise Differs(f"{of}: {found!r:.300}, and not {wanted!r:.300}")


def title(test):
    return test.__name__.replace("_", " ")


def passes(test, name=None):
    """Whether a case passes; if not, a line says what differs."""
    try:
        test()
    except (Differs, OSError, subprocess.TimeoutExpired) as error:
        print(f"{name or title(test)}: {error}", flush=True)
        return False
    return True


def verdict(well):
    """Prints the last line of a test, which says how many of its cases passed; the status with which it ends."""
    print(f"{sum(well)} passed, {len(well) - sum(well)} failed", flush=True)
    return 0 if well and all(well) else 1
