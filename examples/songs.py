"""songs.py TABLE SONG..: rewrites each song by the macros of TABLE, on all cores,
into SONG.out, and tells what was refused. Each song has a state of its own.

Where the module is: PYTHONPATH=DIR/lib/python python3 songs.py parts.m7 songs/*.txt
"""

import sys
from concurrent.futures import ThreadPoolExecutor

import m7


def run(file, name):
    """Runs one song; the answer is what was refused in it."""
    song, refused = m7.Song(file), []
    with open(name, "rb") as lines, open(name + ".out", "wb") as out:
        for number, line in enumerate(lines, 1):
            try:
                text = song.feed(line.rstrip(b"\n"))
            except m7.Refused as why:
                refused.append("%s:%d: %s" % (name, number, why))
            else:
                if text is not None:
                    out.write(text + b"\n")
    return refused


def main(table, *names):
    with open(table, "rb") as opened:
        file = opened.read()
    try:
        m7.read(file)
    except m7.Refused as why:
        sys.exit("%s: %s, at byte %d" % (table, why, why.place))
    with ThreadPoolExecutor() as threads:
        for refused in threads.map(lambda name: run(file, name), names):
            for line in refused:
                print(line)


if __name__ == "__main__":
    if len(sys.argv) < 3:
        sys.exit(__doc__)
    main(*sys.argv[1:])
