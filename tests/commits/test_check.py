"""What check.py says of messages, of a hook's file and of a range."""
import os
import subprocess
import sys
import tempfile
import unittest
sys.dont_write_bytecode = True
HERE = os.path.dirname(os.path.abspath(__file__))
sys.path.insert(0, HERE)
from check import faults

GOOD = 'Keep the routes of a service\n\nThey were made for each request, which took most of its time.\n'


class Messages(unittest.TestCase):
    def holds(self, message, *expected):
        self.assertEqual([*faults(message, {'README.md'})], [*expected])

    def test_a_good_message(self):
        self.holds(GOOD)

    def test_a_subject_alone(self):
        self.holds('Keep the routes', 'it has no body with the reason')

    def test_a_long_subject(self):
        self.holds('a' * 72 + '\n\nWhy.')
        self.holds('a' * 73 + '\n\nWhy.', 'its subject has 73 characters, 72 at most')

    def test_no_empty_line(self):
        self.holds('Keep the routes\nof a service\nWhy.', 'its second line isn\'t empty')

    def test_a_full_stop_and_a_fixup(self):
        self.holds('Keep the routes.\n\nWhy.', 'its subject ends with a full stop')
        self.holds('fixup! Keep the routes\n\nWhy.', 'its subject begins with fixup!')

    def test_no_subject(self):
        self.holds('\n\nWhy.', 'it has no subject')

    def test_what_is_named_outside_of_the_repository(self):
        for name in ('issue 77', 'section 3.2', '#12', 'B7', 'finding S6', '§'):
            self.holds(f'Keep the routes\n\nBy {name} it was slow.', f'it names what isn\'t in the repository: {name}')
        self.holds('Keep the routes\n\nSee REVIEW.md.', 'it names a page that isn\'t in the repository: REVIEW.md')

    def test_what_may_be_named(self):
        self.holds('Keep the routes\n\nHTTP/1.0, UTF-8, Python 3.11, README.md, `B7`, and Debian Policy 5.6.12.')

    def test_a_file_as_a_hook(self):
        with tempfile.TemporaryDirectory() as folder:
            path = os.path.join(folder, 'COMMIT_EDITMSG')
            for text, status in ((GOOD + '# a comment\n', 0), ('Keep\n# all\n', 1), ('Merge branch a\n', 0)):
                with open(path, 'w', encoding='utf-8') as file:
                    file.write(text)
                done = subprocess.run([os.path.join(HERE, 'check.py'), path], cwd=HERE, capture_output=True)
                self.assertEqual((text, done.returncode), (text, status))

    def test_a_range(self):
        with tempfile.TemporaryDirectory() as folder:
            def git(*words):
                subprocess.run(['git', '-C', folder, '-c', 'user.name=a', '-c', 'user.email=a@b', *words], check=True)
            git('init', '-q')
            for message in ('First', GOOD, 'Keep it'):
                git('commit', '-q', '--allow-empty', '-m', message)
            done = subprocess.run([os.path.join(HERE, 'check.py'), 'HEAD~2..HEAD'], cwd=folder, capture_output=True,
                                  text=True)
        self.assertEqual(done.returncode, 1)
        self.assertRegex(done.stdout, r'\A[0-9a-f]{8}: it has no body with the reason\n1 passed, 1 failed\n\Z')


if __name__ == '__main__':
    unittest.main()
