"""How the scripts of the repository read their arguments, and how they fail: by one line on standard error."""

import argparse
import subprocess
import sys


def parser_of(about):
    """Returns the parser of a script that has this head, which `--help` prints. Wrong arguments end with status 2."""
    return argparse.ArgumentParser(description=about, formatter_class=argparse.RawDescriptionHelpFormatter)


def ended(name, main, status=1):
    """Runs a script and ends with its status, or with another one if a file or a command that it takes fails."""
    try:
        sys.exit(main(sys.argv[1:]))
    except subprocess.CalledProcessError as error:
        print(f"{name}: {error.cmd[0]} ended with status {error.returncode}", file=sys.stderr)
    except OSError as error:
        print(f"{name}: {error.filename or 'failed'}: {error.strerror or error}", file=sys.stderr)
    except KeyboardInterrupt:
        status = 130
    sys.exit(status)
