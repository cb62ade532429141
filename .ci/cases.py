#!/usr/bin/env python3
"""Runs the built program on the worked cases in cases/ and compares status, standard output and standard error.

    cases.py PROGRAM

A case is a file cases/NAME.case. It begins with lines `words: ..` (the words after the program's name) and `status: N`. Then
come parts, each behind a line `--- KIND`: `file NAME`, `out` or `err`, and their text up to the next such line. A part `out` or
`err` that is missing is empty. In a text `<<TEXT*N>>` stands for TEXT written N times.
"""
import glob, os, re, subprocess, sys, tempfile

HERE = os.path.join(os.path.dirname(os.path.abspath(__file__)), '..', 'cases')


def expanded(text):
    return re.sub(r'<<(.*?)\*(\d+)>>', lambda m: m.group(1) * int(m.group(2)), text, flags=re.S)


def read_case(path):
    with open(path, encoding='utf-8', newline='') as file:
        head, *parts = re.split(r'^--- (.*)\n', file.read(), flags=re.M)
    fields = dict(line.split(': ', 1) for line in head.splitlines() if ': ' in line)
    texts = {name: expanded(text) for name, text in zip(parts[::2], parts[1::2])}
    files = {name[5:]: text for name, text in texts.items() if name.startswith('file ')}
    return fields.get('words', '').split(), int(fields['status']), files, texts.get('out', ''), texts.get('err', '')


def main():
    program, failed = os.path.abspath(sys.argv[1]), 0
    cases = sorted(glob.glob(os.path.join(HERE, '*.case')))
    for path in cases:
        words, status, files, out, err = read_case(path)
        with tempfile.TemporaryDirectory() as folder:
            for name, text in files.items():
                # The last LF of a part ends its line in the case; a file's text ends with it unless `\` stands before it.
                text = text[:-2] if text.endswith('\\\n') else text
                with open(os.path.join(folder, name), 'w', encoding='utf-8', newline='') as file:
                    file.write(text)
            run = subprocess.run([program, *words], cwd=folder, capture_output=True, timeout=60)
        got = run.returncode, run.stdout.decode('utf-8', 'replace'), run.stderr.decode('utf-8', 'replace')
        if got != (status, out, err):
            failed += 1
            print(f'{os.path.basename(path)}: got status {got[0]} for {status}, out {got[1]!r:.300} for {out!r:.300}, '
                  f'err {got[2]!r:.300} for {err!r:.300}')
    print(f'cases: {len(cases) - failed} passed, {failed} failed')
    return 1 if failed else 0


if __name__ == '__main__':
    sys.exit(main())
