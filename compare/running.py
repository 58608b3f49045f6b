"""Shared by compare/all and checks/all: runs scripts one after the other, and counts those that pass."""
import subprocess, time


def run_all(commands):
    """Runs pairs of a title and a command. Prints a line for each: whether it passed, its last line, and the seconds it
    took; and before the line all that it printed, if it failed. The last line is `N passed, M failed`. Returns whether
    one failed."""
    failed = 0
    for title, command in commands:
        begun = time.time()
        ended = subprocess.run(list(map(str, command)), stdin=subprocess.DEVNULL, stdout=subprocess.PIPE,
                               stderr=subprocess.STDOUT, text=True, errors='replace')
        lines = ended.stdout.splitlines()
        if ended.returncode:
            failed += 1
            print(ended.stdout, end='')
        print(f"{title}: {'failed' if ended.returncode else 'passed'} in {time.time() - begun:.0f} s, "
              f"{lines[-1] if lines else 'nothing printed'}", flush=True)
    print(f'{len(commands) - failed} passed, {failed} failed')
    return failed > 0
