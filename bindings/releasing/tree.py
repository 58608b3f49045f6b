"""The tree that is released: its commit, and what `rt ci` says of it."""
import os, pathlib, re, subprocess

BINDINGS = pathlib.Path(__file__).resolve().parent.parent
TOP = BINDINGS.parent
VERSION = (BINDINGS / 'VERSION').read_text().strip()
# the release of the Rust crate whose names this library has
CRATE_VERSION = '9.3.2'


class Refused(Exception):
    """The tree, or the machine, is such that no release can be made."""


def output_of(*words, cwd=TOP):
    return subprocess.run(words, cwd=cwd, check=True, stdin=subprocess.DEVNULL, stdout=subprocess.PIPE).stdout.decode()


def run(*words, cwd=TOP, **env):
    """Runs a command that has to succeed. Its output goes to the screen only if it fails."""
    ended = subprocess.run(list(map(str, words)), cwd=cwd, env={**os.environ, **env}, stdin=subprocess.DEVNULL,
                           stdout=subprocess.PIPE, stderr=subprocess.STDOUT)
    if ended.returncode:
        raise Refused(f'{" ".join(map(str, words))} ended with status {ended.returncode}:\n'
                      + ended.stdout.decode(errors='replace')[-4000:])
    return ended.stdout.decode(errors='replace')


def clean_commit():
    changed = output_of('git', 'status', '--porcelain')
    if changed:
        raise Refused(f'these changes are not committed:\n{changed}')
    return output_of('git', 'rev-parse', 'HEAD').strip()


def epoch():
    """SOURCE_DATE_EPOCH, or the time of the commit."""
    return int(os.environ.get('SOURCE_DATE_EPOCH') or output_of('git', 'log', '-1', '--format=%ct'))


def last_counts(lines):
    return next((line for line in reversed(lines) if re.match(r'\d+ passed, \d+ failed', line)), 'no verdict')


def run_ci(out):
    return subprocess.run(['rt', 'ci'], cwd=TOP, stdin=subprocess.DEVNULL, stdout=out, stderr=subprocess.STDOUT).returncode


def log_head(commit):
    return [f'commit {commit}', output_of('rt', 'version').strip()]


def prove(log):
    """Writes to a file what `rt ci` says of this commit. The first two lines name the commit and the kit, the last one the
    status and the commit."""
    with open(log, 'w') as out:
        commit = clean_commit()
        out.write('\n'.join([*log_head(commit), '']))
        out.flush()
        status = run_ci(out)
        if clean_commit() != commit:
            raise Refused('the tree is at another commit than when rt ci began')
        out.write(f'\nended with {status}, commit {commit}\n')
    verdicts(commit, log)


def verdicts(commit, log):
    """The lines of `rt ci` in a file that `prove` wrote on this commit. Refuses one of another commit or another kit, one that
    ends early, and one in which something is not proved."""
    lines = pathlib.Path(log).read_text(errors='replace').splitlines()
    if lines[:2] != log_head(commit):
        raise Refused(f'{log} begins with {lines[:2]}, and not with {log_head(commit)}')
    if lines[-1] != f'ended with 0, commit {commit}' or not re.match(r'[1-9]\d* passed, 0 failed$', last_counts(lines)):
        raise Refused(f'{log} ends with {lines[-1]!r} and {last_counts(lines)}')
    return lines
