"""bench/table.py ROUNDS WORD PROGRAM...: runs the programs in turn, on the lines with WORD in them, and prints their
medians side by side, with the ratio of each kind to the first. A kind is a program's name before its hyphen, and
after it stands the compiler: the better of a kind counts. The status is 1 where two of them give different answers."""
import os
import statistics
import subprocess
import sys


def kind_of(program):
    """The kind of a program, and its compiler."""
    name = os.path.basename(program).removeprefix('nxread-')
    kind, _, compiler = name.partition('-')
    return kind, compiler


def print_row(what, cells, ratios):
    print('%-58s' % what + ''.join('%9s %-5s' % cell for cell in cells) + ' ' + ''.join('%9s' % r for r in ratios))


def print_head(programs):
    kinds = list(dict.fromkeys(kind_of(program)[0] for program in programs))
    print_row('', [(kind, '') for kind in kinds], kinds[1:])


def print_line(what, medians):
    """medians: by program, the first one's first."""
    best = {}
    for program, median in medians.items():
        kind, compiler = kind_of(program)
        best[kind] = min(best.get(kind, (median, compiler)), (median, compiler))
    first, *others = best.values()
    print_row(what, [('%.2f' % median, compiler) for median, compiler in best.values()],
              ['%.2f' % (median / first[0]) for median, _ in others])


def lines(program, word):
    """(what, figure, answers) of each line that a program prints."""
    output = subprocess.run([program, 'lines', word], stdout=subprocess.PIPE, text=True, check=True).stdout
    for line in output.splitlines():
        what, figure, answers = line.split('\t')
        yield what, float(figure), answers


def main(rounds, word, programs):
    figures, answers = {}, {}
    for _ in range(rounds):
        for program in programs:
            for what, figure, answer in lines(program, word):
                figures.setdefault(what, {}).setdefault(program, []).append(figure)
                answers.setdefault(what, set()).add(answer)
    print_head(programs)
    for what, by_program in figures.items():
        print_line(what, {program: statistics.median(by_program[program]) for program in programs})
    different = [what for what, found in answers.items() if len(found) > 1]
    for what in different:
        print('DIFFERENT ANSWERS:', what)
    return int(bool(different))


if __name__ == '__main__':
    sys.exit(main(int(sys.argv[1]), sys.argv[2], sys.argv[3:]))
