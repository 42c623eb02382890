"""Runs the built program with a library before it, which refuses memory or fails reads and writes."""
import os
import resource
import shutil
import subprocess
import tempfile

HERE = os.path.dirname(os.path.abspath(__file__))
SECONDS = 60


class Missing(Exception):
    """Something that isn't on this machine."""


class Program:
    """The built program and the library, which stands in a temporary folder."""

    def __init__(self, path):
        self.path = os.path.abspath(path)
        if not os.access(self.path, os.X_OK):
            raise Missing(f'{path}: the program is not built')
        compiler = shutil.which('cc') or shutil.which('gcc')
        if compiler is None:
            raise Missing('no C compiler is here (cc or gcc)')
        self.folder = tempfile.TemporaryDirectory()
        self.library = os.path.join(self.folder.name, 'refuse.so')
        subprocess.run([compiler, '-O1', '-Wall', '-Wextra', '-Werror', '-shared', '-fPIC', '-o', self.library,
                        os.path.join(HERE, 'refuse.c'), '-ldl'], check=True)

    def run(self, words, text, space=None, **refusals):
        """What is written on standard output, what on standard error, and the status; hung is None.

        `space` limits the address space, in bytes. A status below 0 is a signal.
        """
        env = {name: str(value) for name, value in refusals.items()}
        if env:
            env['LD_PRELOAD'] = self.library

        def limit():
            resource.setrlimit(resource.RLIMIT_AS, (space, space))

        try:
            done = subprocess.run([self.path] + words, input=text, capture_output=True, timeout=SECONDS, env=env,
                                  preexec_fn=limit if space else None)
        except subprocess.TimeoutExpired:
            return '', 'no end', None
        return done.stdout.decode('latin-1'), done.stderr.decode('latin-1'), done.returncode

    def asks(self, words, text):
        """How often a run asks for memory."""
        here, there = os.pipe()
        os.set_blocking(here, False)
        count = 0
        process = subprocess.Popen([self.path] + words, stdin=subprocess.PIPE, stdout=subprocess.DEVNULL,
                                   pass_fds=[there], env={'LD_PRELOAD': self.library, 'REFUSE_TELL': str(there)})
        os.close(there)
        os.set_blocking(here, True)
        process.stdin.write(text)
        process.stdin.close()
        while True:
            told = os.read(here, 65536)
            if not told:
                break
            count += len(told)
        process.wait()
        os.close(here)
        return count
