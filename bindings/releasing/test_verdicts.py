"""Which logs of `rt ci` a release takes. A small repository and a command that plays `rt` stand for the real ones."""
import os, pathlib, shutil, subprocess, sys, tempfile, unittest
from .tree import BINDINGS, TOP

RT = '''#!/bin/sh
case $1 in
    version) echo "${KIT:-kit 1}" ;;
    doc) echo /kit/START-HERE.md ;;
    ci) cat "$SAYS"; eval "$MEANWHILE"; exit "${STATUS:-0}" ;;
esac
'''
GOOD = 'rt: low proved\nrt: high proved\nrt: must-fail low/x: refused, as it must be\nrt: ok\n3 passed, 0 failed\n'


class Verdicts(unittest.TestCase):
    def setUp(self):
        room = tempfile.TemporaryDirectory()
        self.addCleanup(room.cleanup)
        self.room = pathlib.Path(room.name)
        self.top, self.log = self.room / 'top', self.room / 'log'
        (self.top / 'bindings').mkdir(parents=True)
        for name in ('VERSION', 'release'):
            shutil.copy(BINDINGS / name, self.top / 'bindings')
        shutil.copytree(BINDINGS / 'releasing', self.top / 'bindings/releasing')
        shutil.copy(TOP / '.gitignore', self.top)
        (self.top / 'crates.txt').write_text('# crates\nlow:\nhigh: low\n')
        (self.top / 'HANDLES').write_text('Handles allowed: none.\n')
        (self.room / 'rt').write_text(RT)
        (self.room / 'rt').chmod(0o755)
        self.git('init', '--quiet')
        self.commit('first')

    def git(self, *words):
        subprocess.run(['git', '-c', 'user.name=a', '-c', 'user.email=a@b.invalid', *words], cwd=self.top, check=True)

    def commit(self, text):
        self.git('add', '--all')
        self.git('commit', '--quiet', '--allow-empty', '--message', text)

    def run_with(self, words, says=GOOD, **env):
        (self.room / 'says').write_text(says)
        env = {**os.environ, 'PATH': f'{self.room}:{os.environ["PATH"]}', 'SAYS': str(self.room / 'says'), **env}
        return subprocess.run([sys.executable, *words], cwd=self.top / 'bindings', text=True, env=env,
                              stdout=subprocess.PIPE, stderr=subprocess.STDOUT)

    def prove(self, says=GOOD, **env):
        return self.run_with(['release', '--prove', self.log], says, **env)

    def refusal(self, **env):
        """What a release says of the log. It stops before it makes its folder."""
        ran = self.run_with(['release', '--proof', self.log, self.room / 'dist'], **env)
        self.assertEqual((ran.returncode, (self.room / 'dist').exists()), (1, False), ran.stdout)
        return ran.stdout

    def test_a_log_of_this_commit_is_taken(self):
        self.assertEqual(self.prove().returncode, 0)
        ran = self.run_with(['-c', f'import pathlib; from releasing import listing, tree; commit = tree.clean_commit(); '
                                   f'listing.write_proof(pathlib.Path("{self.room}"), commit, tree.verdicts(commit, "{self.log}"))'])
        commit = subprocess.run(['git', 'rev-parse', 'HEAD'], cwd=self.top, text=True, stdout=subprocess.PIPE).stdout.strip()
        self.assertEqual(ran.stdout, '')
        self.assertEqual((self.room / 'PROOF.txt').read_text(),
                         f'commit {commit}\nkit 1\nHandles allowed: none.\n\nlow: proved\nhigh: proved\n\n'
                         'must-fail low/x: refused\n\n3 passed, 0 failed\n')

    def test_a_log_of_another_commit_is_refused(self):
        self.prove()
        self.commit('second')
        self.assertIn('begins with', self.refusal())

    def test_a_log_of_another_kit_is_refused(self):
        self.prove()
        self.assertIn('begins with', self.refusal(KIT='kit 2'))

    def test_a_log_without_a_commit_is_refused(self):
        self.log.write_text(GOOD)
        self.assertIn('begins with', self.refusal())

    def test_a_log_that_ends_early_is_refused(self):
        self.prove()
        self.log.write_text(''.join(self.log.read_text().splitlines(True)[:-1]))
        self.assertIn('ends with', self.refusal())

    def test_a_run_that_failed_is_refused(self):
        runs = ((GOOD, '1'), (GOOD.replace('0 failed', '1 failed'), '0'), ('rt: low proved\n', '0'), ('0 passed, 0 failed\n', '0'))
        for says, status in runs:
            ran = self.prove(says, STATUS=status)
            self.assertEqual(ran.returncode, 1, says)
            self.assertIn('ends with', self.refusal())

    def test_a_crate_without_a_verdict_is_refused(self):
        ran = self.run_with(['-c', 'from releasing import listing; listing.write_proof(None, "", ["rt: low proved", "1 passed, 0 failed"])'])
        self.assertIn('no verdict on high', ran.stdout)

    def test_a_tree_with_changes_is_not_proved(self):
        (self.top / 'new').write_text('')
        self.assertIn('not committed', self.prove().stdout)
        self.assertIn('not committed', self.refusal())

    def test_a_tree_that_changes_while_it_is_proved_is_refused(self):
        ran = self.prove(MEANWHILE=f'touch "{self.top}/new"')
        self.assertIn('not committed', ran.stdout)
        (self.top / 'new').unlink()
        self.assertIn('ends with', self.refusal())


if __name__ == '__main__':
    unittest.main()
