"""The program `dim` over pipes: the stored vectors of the host call, no input, bytes behind a record, and inputs longer than every record. It
must write the 26 bytes of the answer record and nothing else. `dim.py VECTORS COMMAND..`: the command runs the program."""
import subprocess
import sys
import time

LONGEST = 30607
NO_RECORD = bytes([1, 0, 0, 0, 21, 12] + [0] * 20)


def cases(path):
    """(record, answer record) of each vector whose output has room for it."""
    for line in open(path):
        if line.startswith("#"):
            continue
        words = [int(word) for word in line.split()]
        size = words[1]
        record, rest = words[2 : 2 + size], words[2 + size :]
        if rest[0] >= 26:
            yield bytes(record), bytes(rest[3 : 3 + 26])


def run(program, data):
    ran = subprocess.run(program, input=data, capture_output=True)
    return ran.stdout if ran.returncode == 0 and not ran.stderr else None


def run_slowly(program, data):
    """The input byte by byte, so that no read gets it whole."""
    ran = subprocess.Popen(program, stdin=subprocess.PIPE, stdout=subprocess.PIPE, bufsize=0)
    for byte in data:
        ran.stdin.write(bytes([byte]))
        time.sleep(0.001)
    ran.stdin.close()
    written = ran.stdout.read()
    return written if ran.wait() == 0 else None


def main(path, *program):
    stored = list(cases(path))
    asked = list(stored)
    asked += [(record + bytes([0]), NO_RECORD) for record, _ in stored[:20]]
    asked += [(b"", NO_RECORD), (b"\x01", NO_RECORD), (bytes(LONGEST), NO_RECORD)]
    longest = max((record for record, _ in stored), key=len)
    asked += [(longest + bytes(k), NO_RECORD) for k in (1, 2, 10000, 1000000)]
    wrong = [len(data) for data, answer in asked if run(program, data) != answer]
    wrong += [len(data) for data, answer in stored[:10] if run_slowly(program, data) != answer]
    asked += stored[:10]
    for size in wrong:
        print(f"failed: dim on {size} bytes")
    print(f"dim: {len(asked) - len(wrong)} passed, {len(wrong)} failed; longest record {len(longest)} bytes")
    return bool(wrong) or len(longest) != LONGEST


if __name__ == "__main__":
    sys.exit(main(*sys.argv[1:]))
