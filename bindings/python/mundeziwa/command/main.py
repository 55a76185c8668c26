"""The entry point: errors and interruptions as an exit status."""

from .. import Error
from .columns import InputError
from .options import check, make_parser
from .output import complain, end_line, end_output, set_encoding

FAILED, INTERRUPTED = 2, 130


def _run(arguments):
    """Runs the part that is asked for."""
    parser = make_parser()
    options = parser.parse_args(arguments)
    if not hasattr(options, "run"):
        parser.print_help()
        return FAILED
    check(parser, options)
    return options.run(options)


def main(arguments=None):
    """Runs the command, and gives its exit status."""
    set_encoding()
    try:
        try:
            return _run(arguments)
        finally:
            end_output()
    except KeyboardInterrupt:
        end_line()
        return INTERRUPTED
    except BrokenPipeError:
        return 0  # only of the help, since reports are written with care
    except (Error, InputError) as error:
        complain(error)
    except MemoryError:
        complain("there is not enough memory for these lists")
    except OSError as error:
        complain(f"the answer can't be written: {error.strerror or error}")
    return FAILED
