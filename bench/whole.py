"""bench/whole.py ROUNDS WHAT INPUT PROGRAM...: runs whole programs in turn on one input and prints the processor time
of a run as a line of table.py. The status is 1 where two of them write different bytes."""
import resource
import statistics
import subprocess
import sys

import table

RUNS = 50


def spent():
    """Seconds of the processor that all runs so far have had."""
    children = resource.getrusage(resource.RUSAGE_CHILDREN)
    return children.ru_utime + children.ru_stime


def milliseconds(program, capture):
    """Of the processor, for one of RUNS runs in a row."""
    before = spent()
    for _ in range(RUNS):
        with open(capture, 'rb') as given:
            subprocess.run([program], stdin=given, stdout=subprocess.DEVNULL, check=True)
    return 1000 * (spent() - before) / RUNS


def written(program, capture):
    with open(capture, 'rb') as given:
        return subprocess.run([program], stdin=given, stdout=subprocess.PIPE, check=True).stdout


def main(rounds, what, capture, programs):
    if len({written(program, capture) for program in programs}) > 1:
        print('DIFFERENT REPORTS:', capture)
        return 1
    figures = {program: [] for program in programs}
    for _ in range(rounds):
        for program in programs:
            figures[program].append(milliseconds(program, capture))
    table.print_line(what + ', ms', {program: statistics.median(figures[program]) for program in programs})
    return 0


if __name__ == '__main__':
    sys.exit(main(int(sys.argv[1]), sys.argv[2], sys.argv[3], sys.argv[4:]))
