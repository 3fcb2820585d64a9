"""Small inputs that are made to hurt: numbers at each bound, bytes that are no text, lone surrogates, JSON with keys twice, deep JSON.

Each is put in each place that takes such a thing, and the program must end, and report, as the model of the cluster does.
"""
import itertools

import running
import worlds_of

SCHEMA, TABLE, CLUSTER = worlds_of.HEADER.rstrip(b"\n").split(b"\n")
CONSUMED = [b'produce 0 {"k":"a","v":1}', b"consume s0 0/0 1"]
QUERY = b"query SELECT k, v, COUNT(*) FROM t GROUP BY k, v"
BOUNDS = [0, 1, 2, 3, 255, 256, 65_535, 65_536, 1_000_000, 1_000_001, 2**31 - 1, 2**31, 2**32 - 2, 2**32 - 1, 2**32, 2**63 - 1, 2**63,
          2**64 - 1, 2**64, 10**19, 10**20,
          253_402_300_799_999, 253_402_300_800_000, 10**100]
WRITTEN = [b"", b"-0", b"-1", b"+1", b"00", b"01", b" 1", b"1 ", b"1.0", b"1e2", b"0x1", "１".encode(), b"1_000", b"NaN"]
# Lines with a number's place; those that would run for long with a large number stand in FEW.
LINES = [b"produce {} {}", b"tick {}", b"lead c{} on", b"consume s{} 0/0 1", b"consume s0 {}/0 1", b"consume s0 0/{} 1",
         b"consume s0 0/0 {}", b"force s0 0/{}",
         b"stop s{} 0/0", b"build s0 {}/0", b"report s{} 0/0", b"extend s0 0/0 {}", b"deliver m{} c0", b"deliver m0 c{}", b"job c{} j0",
         b"job c0 j{}", b"reply m{}",
         b"crash s{}", b"crash c{}", b"restart s{}", b"see s{}", b"transit s0 0/{}", b"download s0 {}/0", b"repair c{} 0", b"repair c0 {}",
         b"retain c0 {}",
         b"route q{} 0", b"route q0 {}", b"piece q0 {}/0 s0", b"piece q0 0/0 s{}", b"answer q{}", b"show meta {}/0", b"show meta 0/{}",
         b"fill {} 1",
         b"exchange s0 0/{} c0", b"exchange s0 0/0 c{}", b"settle {}", b"forceStatus f{}", b"peer s{} 0/0", b"peer s0 0/{}",
         b"rehearse servers={} keep=0",
         b"rehearse servers=1 keep={}", b"rehearse loaded s{} 0/0", b"query SELECT COUNT(*) FROM t WHERE v={}",
         b"query SELECT COUNT(*) FROM t WHERE v<=-{}",
         b"query SELECT COUNT(*) FROM t LIMIT {}", b'produce 0 {"v":{}}', b'produce 0 {"v":-{}}', b'offline [{"v":{}}]']
FEW = [b"fill 0 {}"]
HEADERS = ["servers", "controllers", "partitions", "start", "grace", "retention", "format"]
SETTINGS = [b'"replication":"1"', b'"realtime.segment.flush.threshold.rows":"1000000"', b'"realtime.segment.flush.threshold.time":"1h"']
# One of each kind of bytes that are no text: a tail alone, a head alone, cut ones, overlong ones, surrogates, too large ones, and
# bytes that no text has.
BYTES = [b"\x80", b"\xbf", b"\xc3", b"\xe2\x82", b"\xf0\x9f\x98", b"\xc0\x80", b"\xc1\xbf", b"\xe0\x80\x80", b"\xe0\x9f\xbf",
         b"\xf0\x80\x80\x80", b"\xf0\x8f\xbf\xbf",
         b"\xed\xa0\x80", b"\xed\xbf\xbf", b"\xed\xa0\xbd\xed\xb8\x80", b"\xf4\x90\x80\x80", b"\xf5\x80\x80\x80", b"\xf8\x88\x80\x80\x80",
         b"\xfc\x84\x80\x80\x80\x80",
         b"\xfe", b"\xff", b"\xc3\x28", b"\xe2\x28\xa1"]
TEXTS = [b"\\ud800", b"\\udbff", b"\\udc00", b"\\udfff", b"\\ud800\\ud800", b"\\udc00\\ud800", b"\\ud800x", b"x\\udc00", b"\\ud83d\\ude00",
         b"\\ud83d\\u0041", b"\\u0000", b"\\uD83D\\uDE00",
         b"\\u12", b"\\x41", b"\\", b"\x01", "\u2028".encode(), "\ufeff".encode(), "😀".encode()]
# Where bytes or texts are put: the header's texts, messages, words, queries and what stands beside them.
PLACES_OF_HEADER = [SCHEMA.replace(b'"t"', b'"t{}"'), SCHEMA.replace(b'"k"', b'"k{}"'), SCHEMA.replace(b"STRING", b"STRING{}"),
                    SCHEMA.replace(b"}]}", b'}],"x{}":"{}"}'), SCHEMA + b"{}",
                    TABLE.replace(b'"tableName":"t"', b'"tableName":"t{}"'), TABLE.replace(b'["k"]', b'["k{}"]'),
                    TABLE.replace(b'"1h"', b'"1h{}"'), TABLE + b"{}", CLUSTER + b"{}"]
PLACES = [b'produce 0 {"k":"{}","v":1}', b'produce 0 {"k{}":"a","v":1}', b'produce 0 {"x":"{}","v":1}', b'produce 0 {"x{}":2,"v":1}',
          b'produce 0 {"v":1}{}', b"produce 0 {}",
          b"{}", b"#{}", b"tick {}", b"show {}", b"query SELECT COUNT(*) FROM t WHERE k='{}'",
          b'query SELECT COUNT(*) FROM t WHERE "k{}"=\'a\'', b"query {}", b"ask {}",
          b"latest {}", b"hybrid {}", b"offline {}", b'offline [{"k":"{}"}]']
TWICE = [b'{"v":1,"v":2}', b'{"v":1,"v":"x"}', b'{"v":"x","v":1}', b'{"v":null,"v":1}', b'{"v":1,"v":null}', b'{"k":"a","k":"b","v":1}',
         b'{"k":"a","v":1,"k":1}',
         b'{"\\u006b":"a","k":"b"}', b'{"k":"a","\\u006b":"b"}', b'{"x":1,"x":{"v":2},"v":3}', b'{"k":"a","v":1,"v":2,"v":3,"k":"c"}',
         b'{"v":1.5,"v":1}', b'{"v":1,"v":1e2}',
         b'{"x":-0,"v":1}', b'{"v":-0}', b'{"x":1e400}', b'{"x":1e-400,"v":4}', b'{"v":01}', b'{"v":1,}', b'{,"v":1}', b'{"v":[1],"v":1}']
TWICE_IN_HEADER = [
    (SCHEMA, b'"schemaName":"t"', [b'"schemaName":1,"schemaName":"t"', b'"schemaName":"t","schemaName":1',
                                   b'"schemaName":null,"schemaName":"t"']),
    (SCHEMA, b'"name":"k"', [b'"name":"k","name":"l"', b'"name":"","name":"k"', b'"dataType":"INT","name":"k"', b'"name":"v"']),
    (SCHEMA, b'"schemaName":"t"', [b'"schemaName":"t","metricFieldSpecs":[]',
                                   b'"schemaName":"t","metricFieldSpecs":[{"name":"w","dataType":"INT"}]']),
    (TABLE, b'"tableType":"REALTIME"', [b'"tableType":"OFFLINE","tableType":"REALTIME"', b'"tableType":"REALTIME","tableType":"OFFLINE"']),
    (TABLE, b'"replication":"1"', [b'"replication":"0","replication":"1"', b'"replication":"1","replication":"0"',
                                   b'"replication":"2","replicasPerPartition":"1"']),
    (TABLE, b'"tableName":"t"', [b'"tableName":"t","upsertConfig":{"mode":"FULL"},"upsertConfig":{"mode":"NONE"}',
                                 b'"tableName":"t","upsertConfig":{"mode":"NONE","mode":"FULL"}'])]
DEPTHS = [1, 63, 64, 65, 125, 126, 127, 128, 129, 1000, 20_000]


def scripts_of_lines(lines):
    """Each line behind a header and a consumed row."""
    for line in lines:
        yield b"\n".join([SCHEMA, TABLE, CLUSTER, *CONSUMED, line, QUERY, b""])


def in_header(line):
    """A script with a line of the header in the place of its own."""
    word = line.split(b" ")[0]
    three = [line if each.startswith(word) else each for each in (SCHEMA, TABLE, CLUSTER)]
    return b"\n".join([*three, *CONSUMED, QUERY, b""])


def numbers():
    written = [b"%d" % bound for bound in BOUNDS] + WRITTEN
    yield from scripts_of_lines(line.replace(b"{}", number) for line, number in itertools.product(LINES, written))
    yield from scripts_of_lines(line.replace(b"{}", number) for line,
                                number in itertools.product(FEW, [b"0", b"1", b"1000", *WRITTEN, b"%d" % 2**64]))
    for key, number in itertools.product(HEADERS, written):
        kept = [f" {each}={value}".encode() for each, value in zip(HEADERS, (1, 1, 1, 0, 0, 0, 2)) if each != key]
        kept.insert(HEADERS.index(key), f" {key}=".encode() + number)
        yield in_header(b"cluster" + b"".join(kept))
    for setting, number in itertools.product(SETTINGS, written):
        front = setting.rpartition(b":")[0]
        yield in_header(TABLE.replace(setting, front + b":" + number))
        yield in_header(TABLE.replace(setting, front + b':"' + number + b'"'))


def texts():
    for place, text in itertools.product(PLACES, [*BYTES, *TEXTS]):
        yield from scripts_of_lines([place.replace(b"{}", text)])
    for place, text in itertools.product(PLACES_OF_HEADER, [*BYTES, *TEXTS]):
        yield in_header(place.replace(b"{}", text))


def twice():
    yield from scripts_of_lines(b"produce 0 " + message + b"\nconsume s0 0/0 9" for message in TWICE)
    yield from scripts_of_lines(b"offline [" + message + b"]" for message in TWICE)
    for line, kept, others in TWICE_IN_HEADER:
        for other in others:
            yield in_header(line.replace(kept, other))


def deep():
    for depth, (opens, closes) in itertools.product(DEPTHS, [(b"[", b"]"), (b'{"x":', b"}"), (b'[{"x":', b"}]")]):
        value = opens * depth + b"1" + closes * depth
        for message in (b'{"x":' + value + b',"v":5}', b'{"v":' + value + b"}", value, b'{"x":' + opens * depth + b"}"):
            if len(message) <= 65_536:
                yield from scripts_of_lines([b"produce 0 " + message + b"\nconsume s0 0/0 9"])
        yield in_header(SCHEMA.replace(b'"schemaName":"t"', b'"schemaName":"t","x":' + value))
        yield in_header(TABLE.replace(b'"tableName":"t"', b'"tableName":"t","x":' + value))


KINDS = {"numbers at their bounds": numbers, "bytes and surrogates": texts, "keys twice": twice, "deep JSON": deep}
# In a quick run every 41st of them is tried.
QUICK = 41


def wrong(program, script):
    ended, (report, said) = running.run(program, script), worlds_of.played(script)
    wanted = worlds_of.status_of(said), report, f"{said}\n".encode() if said else b""
    if (ended.status, ended.wrote, ended.said) == wanted:
        return None
    return f"{ended.shown()}; by the model {said!r} behind {len(report)} bytes; {shown(script)}"


def shown(script):
    """The line that isn't one of every such script."""
    usual = {SCHEMA, TABLE, CLUSTER, *CONSUMED, QUERY, b""}
    return " | ".join(repr(line[:160]) for line in script.split(b"\n") if line not in usual)


def run(given, count):
    for kind, listed in KINDS.items():
        tried = 0
        for number, script in enumerate(listed()):
            if not given.quick or number % QUICK == 0:
                tried += 1
                count.case(kind, wrong(given.program, script))
        print(f"  {kind}: {tried} scripts beside the model", flush=True)
