"""Runs of the program, beside images in a folder of their own."""
import os, pathlib, subprocess, sys, tempfile


def path_of(word):
    """The full path of the program that a word of the call names. Where that can't be run the call ends."""
    path = pathlib.Path(word).resolve()
    if not path.is_file() or not os.access(path, os.X_OK):
        print(f'{word} is no program that can be run', file=sys.stderr)
        sys.exit(2)
    return str(path)


class Program:
    def __init__(self, path):
        self.path, self.runs, self.failed = path, 0, 0

    def run(self, word, text, images=()):
        """The status, what is printed, and the images that are left. An image is its bytes, or so many zeros."""
        self.runs += 1
        with tempfile.TemporaryDirectory() as folder:
            folder = pathlib.Path(folder)
            for name, held in dict(images).items():
                (folder / f'{name}.img').write_bytes(bytes(held))
            status, printed = self.call(word, text.encode(), folder)
            left = {path.stem: path.read_bytes() for path in folder.glob('*.img')}
        return status, printed.decode(), left

    def call(self, word, data, folder):
        """The status of one run, and what is printed."""
        done = subprocess.run([self.path, word], input=data, stdout=subprocess.PIPE, cwd=folder, timeout=600)
        return done.returncode, done.stdout

    def expect(self, name, got, due):
        if got != due:
            self.failed += 1
            for one, other in zip(got, due):
                if one != other:
                    print(f'{name}: {shown(one)}, not {shown(other)}', flush=True)


def shown(value):
    """A value, where texts differ in their lines mostly."""
    text = repr(value)
    return text if len(text) < 1200 else text[:600] + ' .. ' + text[-600:]


def option(argv, name, other):
    return int(argv[argv.index(name) + 1]) if name in argv else other
