"""check.py DIR: holds the Python module that is installed in DIR against some
answers of 01, and sees that it keeps to its own words."""

import os
import sys
import threading

sys.path.insert(0, os.path.join(sys.argv[1], "lib", "python"))
import m7  # noqa: E402


def fed(file, line, budget=m7.BUDGET):
    song = m7.Song(file, budget=budget)
    out = song.feed(line)
    return out, song.passes


def refused(call, *given, **named):
    try:
        call(*given, **named)
    except m7.Refused as why:
        return why.number, why.place, why.passes
    raise AssertionError("not refused")


def answers():
    assert fed(rb"'@{-*-?6*\/?6*}'='o{1}';", b"@-1/4") == (b"o-1/4", 2)
    assert fed(b"'ab'<'abc';", b"ababab") == (b"abcabcabc", 1)
    assert fed(b"'?1*{[0-9]*}'<'{1}';", b"Mozart's 38th symphony")[0] == b"8th symphony"
    assert fed(b"'a'='b';'a'='c';", b"a") == (b"c", 3)
    assert fed(b"", b"") == (b"", 0)
    assert refused(fed, b"'int'='integer';", b"print", 262) == (31, 0, 262)
    assert refused(fed, b"'int'='integer';", b"print", 263) == (32, 0, 263)
    assert refused(fed, b"", b"a", 1000001) == (4, 0, 0)
    assert refused(fed, b"", b"a" * 1055) == (21, 0, 0)
    assert refused(fed, b"", b"a\0b") == (22, 0, 0)
    assert refused(m7.Song, b"'a**'='b';") == (14, 3, 0)
    assert refused(m7.read, b"'[z-a]'='b';") == (13, 4, 0)
    assert refused(m7.read, b"'a'='{2}';") == (16, 7, 0)
    assert refused(m7.read, b"'a\0'='b';") == (11, 2, 0)


def tables():
    table, macros = m7.read(b"'a' = 'b:' x ;")
    assert macros == 1 and len(table) == m7.TABLE_BYTES
    assert m7.write(table) == b"'a'='b\\:';\n"
    assert refused(m7.write, table[:-1]) == (3, 0, 0)
    assert refused(m7.write, b"\3" + table[1:]) == (1, 0, 0)
    song = m7.Song(b"'a'='b';")
    assert song.feed(b"$MACRO 'c'='d';") is None and song.kind == m7.CONTROL
    assert song.written() == b"'a'='b';\n'c'='d';\n" and song.feed(b"ac") == b"bd"
    assert refused(song.feed, b"$MACRO 'a**'='b';") == (14, 4, 0)
    assert song.written() == b"'a'='b';\n'c'='d';\n"


def measured():
    assert m7.measure(b"'{a}b*'='';'c'=':';") == (2, 2, 1, 22, None)
    assert m7.measure(b"") == (0, 0, 0, 0, None)
    assert refused(m7.measure, b"'a**'='b';") == (14, 3, 0)
    plan = m7.measure(b"'q'='';'{a}'='" + 503 * b":" + b"';")
    assert plan[:4] == (2, 1, 1, None)
    assert (plan.unwritten.number, plan.unwritten.place) == (18, 520)
    table, macros = m7.read(b"'{a}'='b:'#(n=2);")
    assert m7.measure(m7.write(table)).bytes == len(m7.write(table)) and macros == 1


def mended():
    whole = m7.recover(b"'a'='b';'c'='d';")
    assert whole == (m7.read(b"'a'='b';'c'='d';")[0], 2, [])
    table, macros, faults = m7.recover(b"'a'='b';'c='d';'e**'='';'f'='g';")
    assert macros == 2 and m7.write(table) == b"'a'='b';\n'f'='g';\n"
    assert [(fault.number, fault.place) for fault in faults] == [(12, 13), (14, 18)]
    assert str(faults[1]) == "14: a closure with nothing before it to repeat"
    assert len(m7.recover(b"'a;" * 256).faults) == 256
    assert refused(m7.recover, b"'a;" * 257) == (61, 0, 0)
    assert refused(m7.recover, b"'a**';" + b"'a'='';" * 97) == (19, 678, 0)
    assert refused(m7.recover, b"'a**';\0") == (11, 6, 0)


def states():
    assert len(m7.fresh()) == m7.STATE_BYTES
    song = m7.Song(b"'^'<'#(n+) ';")
    assert song.feed(b"do") == b"1 do"
    kept = song.state
    assert song.feed(b"re") == b"2 re" and song.kind == m7.OUT
    assert m7.Song(b"'^'<'#(n+) ';", kept).feed(b"re") == b"2 re"
    assert m7.Song(b"", kept).feed(b"$NFLAG 1") is None
    psalm = m7.Song(b"#(v=1)'|'<'#(v+) ';")
    assert psalm.feed(b"|a |b") == b"1 a 2 b" and psalm.feed(b"|c") == b"1 c"
    assert psalm.written() == b"#(v=1)'|'<'#(v+) ';\n"
    assert refused(m7.Song, b"", b"\2" + kept[1:]) == (2, 0, 0)
    assert refused(m7.Song, b"", kept[1:]) == (3, 0, 0)
    assert refused(m7.Song, b"", b"x") == refused(m7.Song, b"", b"") == (3, 0, 0)


def widened():
    macros = b"'{a*}'<'[&(t)]'&(1,t);"
    old = m7.narrow(m7.fresh())
    assert len(old) == m7.OLD_STATE_BYTES and m7.widen(old) == m7.fresh()
    song = m7.Song(macros)
    assert song.feed(b"$TRACE 1") is None and song.feed(b"a" * 50) == b"[]"
    old = m7.narrow(song.state)
    assert old[:1] == b"\1" and old[236 + 50 * 380:][:51] == b"a" * 50 + b"\0"
    again = m7.Song(macros, m7.widen(old))
    assert again.state == song.state and again.feed(b"aa") == b"[" + b"a" * 50 + b"]"
    assert again.feed(b"a" * 100) == b"[aa]" and refused(again.feed, b"a" * 101) == (33, 0, 1)
    assert refused(m7.narrow, again.state) == (42, 0, 0)
    assert refused(m7.narrow, b"\2" + again.state[1:]) == (2, 0, 0)
    assert refused(m7.widen, b"\2" + old[1:]) == refused(m7.widen, old[:-1] + b"x") == (2, 0, 0)
    assert refused(m7.widen, old[1:]) == refused(m7.widen, song.state) == (3, 0, 0)
    assert refused(m7.narrow, old) == refused(m7.Song, macros, old) == (3, 0, 0)


def traces():
    song = m7.Song(b"'a'='b';'c'<'d';")
    assert song.feed(b"a") == b"b" and song.trace == b""
    assert song.feed(b"$TRACE 1") is None and song.trace == b""
    assert song.feed(b"ac") == b"bd" and song.passes == 3
    wrote = b"oldline:ac\nmacro #:2\nnewline:ad\noldline:ad\nmacro #:1\nnewline:bd\n"
    assert song.trace == wrote
    assert refused(song.feed, b"$FOO") == (23, 0, 0) and song.trace == wrote
    assert song.feed(b"x") == b"x" and song.trace == b""
    grows = m7.Song(b"'int'='integer';")
    assert grows.feed(b"$TRACE 1") is None and refused(grows.feed, b"print") == (36, 0, 124)


def looked_up():
    assert m7.words(b"SCAT, CAT CART CATARACT", b"CA-T") == (3, 6)
    assert m7.words(b"SCAT CATS", b"CA-T") == (0, None)
    assert [refused(m7.words, line, b"A--") for line in (b"a" * 1055, b"a\0", b"a")] == [
        (21, 0, 0), (22, 0, 0), (41, 0, 0)]


def words():
    assert m7.meaning(14) == "a closure with nothing before it to repeat"
    assert str(m7.Refused(14, 3)) == "14: a closure with nothing before it to repeat"
    assert m7.__version__.count(".") == 1
    for given in ("text", None, 7):
        try:
            m7.Song().feed(given)
        except TypeError as why:
            assert "a line is bytes" in str(why)
        else:
            raise AssertionError(given)


def threads():
    """Songs on threads of their own give what they give alone."""
    said = {}

    def run(key):
        song = m7.Song(b"'^'<'#(n+) ';'a'<'b';")
        said[key] = [song.feed(b"a" * key) for _ in range(200)]

    started = [threading.Thread(target=run, args=(key,)) for key in range(8)]
    for thread in started:
        thread.start()
    for thread in started:
        thread.join()
    assert said == {key: [b"%d " % n + b"b" * key for n in range(1, 201)] for key in range(8)}


for check in (answers, tables, measured, mended, states, widened, traces, looked_up, words, threads):
    check()
print("Python: the module's answers are those of 01")
