"""The command `test`: records a program, replays the runs and explains their races."""
import argparse
import glob
import os
import subprocess
import sys
import tempfile

from .command import HERE, NO_PROGRAM, Stop, add_options, explain, guarded
from .replay import find_program

# The status of `record` where nothing was recorded, or events are missing.
NOT_RECORDED = 125


def record(words, folder, run):
    """Records a run; answers the status of `record`, and the traces of its processes."""
    sys.stdout.flush()
    trace = os.path.join(folder, f'run{run}.txt')
    status = subprocess.run([os.path.join(HERE, 'record'), '-o', trace, '--', *words]).returncode
    found = glob.glob(glob.escape(trace) + '*')
    return status, sorted(path for path in found if not path.endswith(('.info', '.part')))


def test(words, options, folder):
    if find_program(options.wcp, HERE) is None:
        raise Stop(NO_PROGRAM, 'there is no program wcp: build it by ./wcp, or name it by --wcp PATH')
    runs, statuses = [], []
    for run in range(1, options.runs + 1):
        status, traces = record(words, folder, run)
        statuses.append(status)
        if not traces:
            return status or NOT_RECORDED
        runs.append(traces)
    status = explain(runs, options, is_kept=options.keep is not None)
    return status or (NOT_RECORDED if NOT_RECORDED in statuses else max(statuses))


def main():
    parser = argparse.ArgumentParser(
        prog='test', usage='test [-n N] [--keep FOLDER] [OPTIONS OF explain] PROGRAM ARGS..',
        description='Records a run of a program, replays it, and explains its races.',
        epilog='The exit status is that of explain; where that is 0, it is that of record.')
    parser.add_argument('-n', '--runs', metavar='N', type=int, default=1,
                        help='run the program so often, and unite the races')
    parser.add_argument('--keep', metavar='FOLDER', help='keep the traces in this folder, which is made')
    add_options(parser)
    parser.add_argument('program', nargs=argparse.REMAINDER, metavar='PROGRAM ARGS..', help='what is run')
    options = parser.parse_args()
    words = options.program[options.program[:1] == ['--']:]
    if not words or options.runs < 1 or options.report:
        parser.error('give a PROGRAM, at least one run, and no --report')

    def work():
        if options.keep:
            os.makedirs(options.keep, exist_ok=True)
            return test(words, options, options.keep)
        with tempfile.TemporaryDirectory(prefix='recorder.') as folder:
            return test(words, options, folder)
    return guarded(work)
