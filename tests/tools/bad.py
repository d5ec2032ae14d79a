#!/usr/bin/env python3
"""Bad inputs of tools/frames.py, each in a process of its own that is forked off this one, so that python starts once:

  bad.py FOLDER COUNT                   FOLDER/bads/cases has three texts a case, each with a zero byte behind it: the command, what
                                        is bad, what the message has to say; FOLDER/bads/N, from 1 to COUNT, the bytes of case N

Each has to end with a status other than 0, and its message has to name the file, FOLDER/bad. Exit status 0: each did.
"""
import os
import pathlib
import sys
import traceback

sys.dont_write_bytecode = True
sys.path.insert(0, str(pathlib.Path(__file__).resolve().parents[2] / "tools"))
import frames


def run(words, out, err):
    """The status of frames.py with these words, its output and messages in files."""
    child = os.fork()
    if child:
        return os.waitstatus_to_exitcode(os.waitpid(child, 0)[1])
    status = 1
    try:
        for path, number in ((out, 1), (err, 2)):
            os.dup2(os.open(path, os.O_WRONLY | os.O_CREAT | os.O_TRUNC), number)
        status = frames.main(words)
        sys.stdout.flush()
    except BaseException:
        traceback.print_exc()
    finally:
        sys.stderr.flush()
        os._exit(status)


def main(folder, count):
    bads, file, failed = pathlib.Path(folder, "bads"), pathlib.Path(folder, "bad"), 0
    texts = (bads / "cases").read_bytes().decode().split("\0")[:-1]
    assert len(texts) == 3 * int(count)
    for number, (command, text, wanted) in enumerate(zip(*[iter(texts)] * 3), 1):
        file.write_bytes((bads / str(number)).read_bytes())
        status = run([command, str(file)], f"{folder}/out", f"{folder}/err")
        said = pathlib.Path(folder, "err").read_text()
        if status == 0:
            wrong = f"taken, though it is bad: {text}"
        elif wanted not in said:
            wrong = f"{text}: it says {said} and not: {wanted}"
        elif not said.startswith(f"frames.py: {file}: "):
            wrong = f"{text}: it does not name the file: {said}"
        else:
            continue
        print(f"FAILED: {wrong}", flush=True)
        failed += 1
    return 1 if failed else 0


if __name__ == "__main__":
    sys.exit(main(*sys.argv[1:]))
