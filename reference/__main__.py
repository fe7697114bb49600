"""The reference's command line: `python3 reference COMMAND ..` from the repository root."""

import argparse
import sys
from collections.abc import Callable
from io import BytesIO
from pathlib import Path

import layout
import paper
import rounding
import script
import session
import vectors
from board_page import board_page
from cells import printed
from layout import Refusal
from listing import listing, refused_line

SAMPLE_CLOSENESS = 256


def read_input(name: str) -> bytes:
    return sys.stdin.buffer.read() if name == "-" else Path(name).read_bytes()


def run_list(arguments: argparse.Namespace) -> int:
    sys.stdout.write(listing(read_input(arguments.file)))
    return 0


def run_page(arguments: argparse.Namespace) -> int:
    sys.stdout.write(board_page(read_input(arguments.file)))
    return 0


def run_judge(arguments: argparse.Namespace) -> int:
    answer, state = session.open_file(session.EMPTY, read_input(arguments.file))
    if isinstance(answer, session.Opened):
        answer = session.judge(state, read_input(arguments.record))
    else:
        print(f"{arguments.file} is not opened", file=sys.stderr)
    if isinstance(answer, Refusal):
        print(refused_line(answer))
    else:
        print("passed" if isinstance(answer, session.Passed) else f"fails {answer.part}")
    return 0


def run_calls(arguments: argparse.Namespace) -> int:
    # Standard input is read call by call, so that another program can wait for each answer.
    source = sys.stdin.buffer if arguments.script == "-" else BytesIO(read_input(arguments.script))
    for line in script.answers(source):
        print(line, flush=True)
    return 0


def run_vectors(arguments: argparse.Namespace) -> int:
    made = vectors.make(arguments.seed)
    if not arguments.check:
        vectors.write(arguments.out, made)
        print(f"{len(made)} vectors written to {arguments.out}")
        return 0
    found = vectors.differences(arguments.out, made)
    for line in found:
        print(line, file=sys.stderr)
    print(f"{len(made)} vectors made again, {len(found)} differences")
    return 1 if found else 0


def run_random(arguments: argparse.Namespace) -> int:
    made = vectors.make_random(arguments.seed, arguments.count)
    vectors.write(arguments.out, made)
    print(f"{len(made)} vectors written to {arguments.out}")
    return 0


def run_sample(arguments: argparse.Namespace) -> int:
    lent = layout.build_file(paper.tables_file(arguments.closeness))
    arguments.out.write_bytes(lent)
    print(f"{len(lent)} bytes written to {arguments.out}")
    return 0


def run_cells(_arguments: argparse.Namespace) -> int:
    sys.stdout.write(printed())
    return 0


def run_reserves(_arguments: argparse.Namespace) -> int:
    file = paper.tables_file(SAMPLE_CLOSENESS)
    ours = paper.reserves(file, paper.settled_mean(file))
    print(f"{'year':>5} {'reserve':>12} {'Table 3':>12} {'apart':>9}")
    rows = [(str(year), *pair) for year, pair in enumerate(zip(ours, paper.RESERVES), start=1)]
    for year, reserve, printed in rows + [("total", sum(ours), paper.RESERVES_TOTAL)]:
        print(f"{year:>5} {reserve:12,.0f} {printed:12,} {100 * (reserve - printed) / printed:8.4f}%")
    return 0


def run_rounding(arguments: argparse.Namespace) -> int:
    print(f"{rounding.DRAWN:,} amounts drawn: the mean of the logarithm less the exact one, in ticks")
    for name, error in zip(("cut off", "to the nearest"), rounding.mean_errors(arguments.seed)):
        print(f"{name:>15} {float(error):7.3f}")
    return 0


def closeness(text: str) -> int:
    value = int(text)
    if not layout.is_inside(value, layout.CLOSENESS_LIMITS):
        raise argparse.ArgumentTypeError("closeness is from {} to {}".format(*layout.CLOSENESS_LIMITS))
    return value


def count(text: str) -> int:
    value = int(text)
    if value < 1:
        raise argparse.ArgumentTypeError("a count is at least 1")
    return value


def parser() -> argparse.ArgumentParser:
    about = "The paid-incurred chain desk, in exact numbers."
    top = argparse.ArgumentParser(prog="reference", description=about)
    commands = top.add_subparsers(required=True, metavar="COMMAND")

    def command(name: str, run: Callable[[argparse.Namespace], int], text: str) -> argparse.ArgumentParser:
        added = commands.add_parser(name, help=text, description=text)
        added.set_defaults(run=run)
        return added

    for name, run, what in (("list", run_list, "listing"), ("page", run_page, "page")):
        shown = command(name, run, f"print the {what} of a file")
        shown.add_argument("file", metavar="FILE", help="a file of the desk, or - for standard input")
    judged = command("judge", run_judge, "print whether a mean record passes for a file")
    judged.add_argument("file", metavar="FILE", help="a file of the desk")
    judged.add_argument("record", metavar="RECORD", help="a mean record")
    called = command("calls", run_calls, "run a script of calls and print the answers")
    called.add_argument("script", metavar="SCRIPT", help="a script of calls, or - for standard input")
    made = command("vectors", run_vectors, "write the vectors, or check the written ones")
    made.add_argument("--seed", type=int, default=vectors.DEFAULT_SEED, help="default %(default)s")
    made.add_argument("--out", type=Path, default=vectors.ROOT, metavar="DIR", help="default: the repository")
    made.add_argument("--check", action="store_true", help="fail where one differs or is missing")
    drawn = command("random", run_random, "write drawn vectors for a longer comparison")
    drawn.add_argument("--seed", type=int, required=True)
    drawn.add_argument("--count", type=count, required=True, help="of files to list and page, and of sessions")
    drawn.add_argument("--out", type=Path, required=True, metavar="DIR")
    sample = command("sample", run_sample, "write the file of the paper's Tables 10 and 11")
    sample.add_argument("out", type=Path, metavar="OUT", help="the file to write")
    sample.add_argument("--closeness", type=closeness, default=SAMPLE_CLOSENESS, metavar="E", help="default %(default)s")
    command("cells", run_cells, "print where each row starts, by cells and by bytes: docs/CELLS.md")
    command("reserves", run_reserves, "print the reserves of Tables 10 and 11 beside the paper's")
    rounded = command("rounding", run_rounding, "print how far logarithms are from the exact ones on average, cut off and to the nearest")
    rounded.add_argument("--seed", type=int, default=vectors.DEFAULT_SEED, help="default %(default)s")
    return top


def main() -> int:
    arguments = parser().parse_args()
    try:
        return arguments.run(arguments)
    except OSError as error:
        print(f"reference: {error}", file=sys.stderr)
        return 2


sys.exit(main())
