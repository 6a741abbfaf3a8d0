"""The built program: texts are handed over in files, and what it prints and its status are taken back."""

import os
import subprocess


def put_files(folder, texts):
    """Writes texts into files of a folder; their paths in the same order."""
    paths = []
    for name, text in texts:
        path = os.path.join(folder, name)
        with open(path, 'w', encoding='latin-1') as out:
            out.write(text)
        paths.append(path)
    return paths


def run(program, words):
    """Runs the program with these words: status (124 where it doesn't end), standard output, standard error."""
    try:
        done = subprocess.run([program] + words, stdout=subprocess.PIPE, stderr=subprocess.PIPE, close_fds=False,
                              timeout=60)
    except subprocess.TimeoutExpired:
        return 124, '', ''
    return done.returncode, done.stdout.decode('latin-1'), done.stderr.decode('latin-1')
