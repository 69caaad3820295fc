"""The sub-commands of ./ward: what each takes, and what it writes."""

import argparse
import contextlib
import os

from ward import sending, wards
from ward.check import check
from ward.delays import DelayPicture, Delays
from ward.ends import CANNOT_READ, CANNOT_WRITE, DAMAGED, DONE, NO, STATUSES, WRONG_USE, Ended
from ward.files import STANDARD, complain, name_of, opened, readable, say, stand_in, text_of, writable
from ward.history import History
from ward.picture import TimeLine, Window, usual_ticks
from ward.plan import plan
from ward.records import LONGEST
from ward.run import run
from ward.summary import summary
from ward.text import bytes_lines, kinds_of, text_lines, together


def ward_of(path):
    return wards.read_ward(name_of(path), text_of(path))


def pumps_in(path):
    """The pumps of a ward, in the order in which they ask; none without a ward."""
    return ward_of(path).pumps if path else ()


def do_plan(options):
    lines, status = plan(ward_of(options.ward), options.each, options.fit)
    say(lines)
    return status


def do_trace(options):
    ward = sending.with_ways(ward_of(options.ward), options.sends)
    made = sending.trace(ward, ward.ticks if options.ticks is None else options.ticks, options.seed)
    with writable(options.output) as file:
        file.write(made)
    return DONE


def do_text(options):
    """One file, or a trace and its log together."""
    with contextlib.ExitStack() as open_files:
        files = [(name_of(path), open_files.enter_context(opened(open_files.enter_context(readable(path))))) for path in options.files]
        say(together(*files) if len(files) == 2 else text_lines(*files[0], kinds_at(files[0][1])))
    return DONE


def kinds_at(file):
    """Whether a file is a trace or a log."""
    kinds = kinds_of(file.read(LONGEST))
    file.seek(0)
    return kinds


def do_bytes(options):
    lines = text_of(options.text).splitlines()
    with writable(options.output) as file:
        for part in bytes_lines(name_of(options.text), lines, options.only):
            file.write(part)
    return DONE


def do_run(options):
    if options.output == STANDARD:
        raise Ended("--log: a file, please: standard output has the summary", WRONG_USE)
    with readable(options.trace) as path:
        lines, status = summary(run(path, options.output, pumps_in(options.ward), options.progress))
    say(lines)
    return status


def do_picture(options):
    """A first reading tells where the trace ends, the second keeps what is drawn."""
    with readable(options.trace) as trace, readable(options.log) as log:
        pumps = pumps_in(options.ward)
        whole = told_by(trace, log, pumps)
        known = [line.name for line in whole.all_lines()]
        for name in options.lines:
            if name not in known:
                raise Ended(f"--lines: the trace has no line {name!r}", WRONG_USE)
        kept = (Delays if options.delays else Window)(*shown_ticks(options, whole))
        history = told_by(trace, log, pumps, kept.keep)
    drawing = (DelayPicture if options.delays else TimeLine)(history, kept, options.lines)
    with writable(options.output) as file:
        file.write(drawing.written().encode())
    if history.damage:
        raise Ended(f"{name_of(options.log if history.log_is_damaged else options.trace)}: damaged at byte {history.damage.at}: {history.damage.why}; all up to there is drawn", DAMAGED)
    return DONE


def shown_ticks(options, history):
    """The first and the last tick of a picture."""
    low = options.low
    high = min(history.clock, low + usual_ticks(history.link)) if options.high is None else options.high
    if options.delays and options.high is None:
        high = history.clock
    if high < low:
        raise Ended(f"--from {low}: the {'trace ends' if options.high is None else 'picture would end'} at tick {high}, before that", WRONG_USE)
    return low, high


def told_by(trace, log, pumps, keep=lambda event: None):
    """The history of a trace and its log, with an eye on each event."""
    with opened(trace) as records, opened(log) as answers:
        return History(pumps, keep).read(records, answers)


def do_check(options):
    with readable(options.trace) as trace, readable(options.log) as log:
        line, wrong = check(trace, log)
    say([line])
    return NO if wrong else DONE


def count(text):
    """A number of ticks."""
    number = text.replace(",", "")
    if not (number.isascii() and number.isdigit()) or int(number) > wards.MOST_TICKS:
        raise argparse.ArgumentTypeError(f"{text!r} is no number of ticks from 0 to {wards.MOST_TICKS:,}")
    return int(number)


# What a shell says of a command that was ended from the keyboard.
INTERRUPTED = 130
A_WARD, OUTPUT = "the ward, a text file; - is standard input", "where it goes; else to standard output"


class Parser(argparse.ArgumentParser):
    """Tells wrong use in one line."""

    def error(self, message):
        self.exit(WRONG_USE, f"{self.prog}: {message} ({self.prog} --help tells more)\n")


def parser():
    what = "The technician's bench: a ward planned, run and drawn, by the proved program. docs/TECHNICIAN.md shows how."
    top = Parser(prog="ward", description=what, epilog=STATUSES)
    subs = top.add_subparsers(dest="command", required=True, metavar="COMMAND")

    def sub(name, act, what, more=None):
        made = subs.add_parser(name, help=what, description=f"{what}\n\n{more or ''}", epilog=STATUSES, formatter_class=argparse.RawDescriptionHelpFormatter)
        made.set_defaults(act=act)
        return made

    one = sub("plan", do_plan, "who of a ward is let in, what is to spare, and what would let in those who are refused", wards.__doc__)
    one.add_argument("ward", metavar="WARD", help=A_WARD)
    one.add_argument("--each", action="store_true", help="a row for each pump, also for those that are alike")
    fit = "how many more of a pump fit, by document 01's test and by the finer one: a name of the ward, or figures such as 'level 1 gap 40 size 4'"
    one.add_argument("--fit", metavar="PUMP", help=fit)

    one = sub("trace", do_trace, "a trace of a ward: who sends when")
    one.add_argument("ward", metavar="WARD", help=A_WARD)
    one.add_argument("--ticks", type=count, help="how long it is; else as the ward says, or 1,000")
    one.add_argument("--seed", type=int, default=0, help="for those that send at random; 0 where nothing is said")
    one.add_argument("--sends", metavar="PUMP=WAY", action="append", default=[], help=f"another way for a pump: {', '.join(wards.WAYS)}")
    one.add_argument("-o", "--output", metavar="FILE", help=OUTPUT)

    one = sub("text", do_text, "a trace or a log as text, a line for each record; of both, each record with its answers under it")
    one.add_argument("files", metavar="FILE", nargs="+", help="a trace or a log, or both, the trace first; - is standard input")

    one = sub("bytes", do_bytes, "text of ward text as bytes again, byte for byte")
    one.add_argument("text", metavar="TEXT", help="the text; - is standard input")
    one.add_argument("--only", choices=("trace", "log"), help="of a text that has both")
    one.add_argument("-o", "--output", metavar="FILE", help=OUTPUT)

    one = sub("run", do_run, "a trace run by the proved program, and what became of each line")
    one.add_argument("trace", metavar="TRACE", help="the trace; - is standard input")
    one.add_argument("--log", dest="output", metavar="FILE", help="where the answers go")
    one.add_argument("--ward", metavar="WARD", help="the ward that the trace was made of, for its names")
    one.add_argument("--progress", action="store_true", help="on standard error, also where that is no terminal")

    one = sub("picture", do_picture, "a trace and its log as a picture (SVG): a time line, or delays beside their bounds")
    one.add_argument("trace", metavar="TRACE", help="the trace; - is standard input")
    one.add_argument("log", metavar="LOG", help="its log")
    one.add_argument("--delays", action="store_true", help="how long packets took, beside their bounds")
    one.add_argument("--from", dest="low", metavar="TICK", type=count, default=0, help="the first tick of the picture; 0 where nothing is said")
    one.add_argument("--to", dest="high", metavar="TICK", type=count, help="the last one; else as many ticks are shown as the first bound has twice, 400 at least; of delays all")
    one.add_argument("--lines", metavar="NAME", nargs="+", default=(), help="these lines alone")
    one.add_argument("--ward", metavar="WARD", help="the ward that the trace was made of, for its names")
    one.add_argument("-o", "--output", metavar="FILE", help=OUTPUT)

    one = sub("check", do_check, "whether a log is the one that the rules give for a trace")
    one.add_argument("trace", metavar="TRACE", help="the trace; - is standard input")
    one.add_argument("log", metavar="LOG", help="its log")
    return top


def look_over(options):
    """Raises Ended where the files that are named can't be meant so."""
    given, made = [*getattr(options, "files", ()), *(getattr(options, name, None) for name in ("ward", "text", "trace", "log"))], getattr(options, "output", None)
    if len(getattr(options, "files", ())) > 2:
        raise Ended("a file, please, or a trace and its log", WRONG_USE)
    if given.count(STANDARD) > 1:
        raise Ended("standard input can be only one of the files", WRONG_USE)
    if made and os.path.isfile(made) and any(path and os.path.isfile(path) and os.path.samefile(path, made) for path in given):
        raise Ended(f"{made}: it is read, and would be written over", WRONG_USE)


def acted(options):
    """Runs a sub-command; its status. Nobody who reads the output any more is no error to tell of."""
    try:
        look_over(options)
        return options.act(options)
    except Ended as end:
        complain(f"ward {options.command}: {end}")
        return end.status
    except KeyboardInterrupt:
        return INTERRUPTED
    except BrokenPipeError:
        return CANNOT_WRITE
    except OSError as error:
        complain(f"ward {options.command}: {error.filename or 'a file'}: {error.strerror}")
        return CANNOT_READ


def main(arguments):
    stand_in()
    return acted(parser().parse_args(arguments))
