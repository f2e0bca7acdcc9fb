"""Commands for a Redis server with replies of each kind, and random commands."""
# Commands in order, as words between spaces.
COMMANDS = """\
PING|ECHO hello|SET word value|GET word|GET nothing|APPEND word more|STRLEN word|INCR word
SET number 41|INCR number|DECRBY number 100|INCRBYFLOAT number 2.5|SETRANGE word 20 x|GET word
MSET a 1 b 2 c 3|MGET a none b c word|EXISTS a b none|TTL a|TTL none|OBJECT ENCODING a|TYPE a
RPUSH list a bb ccc dddd|LRANGE list 0 -1|LRANGE none 0 -1|LPOP list|LPOP none|LPOP none 2
LPOS list none|BLPOP none 0.01|LMPOP 1 none LEFT|LMPOP 1 list LEFT COUNT 2|GET list
SADD set a b c d|SMEMBERS set|SISMEMBER set a|SMISMEMBER set a z|SPOP none|SRANDMEMBER none 3
HSET hash f 1 g 2|HGETALL hash|HGETALL none|HMGET hash f none|HGET hash none|HRANDFIELD hash 2
ZADD sorted 1 one 2.5 two inf most -inf least|ZRANGE sorted 0 -1 WITHSCORES|ZSCORE sorted two
ZSCORE sorted none|ZRANK sorted two|ZPOPMIN none|ZMPOP 1 none MIN|ZMPOP 1 sorted MIN COUNT 2
XADD stream 1-1 field value other more|XADD stream 2-1 f v|XRANGE stream - +|XREAD STREAMS none 0
XREAD STREAMS stream 0|XINFO STREAM stream|XINFO STREAM stream FULL|XGROUP CREATE stream group 0
XREADGROUP GROUP group me STREAMS stream >|XPENDING stream group|XPENDING stream group - + 9
XAUTOCLAIM stream group me 0 0|XINFO GROUPS stream|XINFO CONSUMERS stream group
SCAN 0|SCAN 0 COUNT 1|HSCAN hash 0|SSCAN set 0|ZSCAN sorted 0|KEYS *|DBSIZE|RANDOMKEY
GEOADD places 13.361389 38.115556 Palermo 15.087269 37.502669 Catania|GEOPOS places Palermo none
GEOSEARCH places FROMLONLAT 15 37 BYRADIUS 200 km ASC WITHCOORD WITHDIST WITHHASH
GEODIST places Palermo Catania|GEODIST places Palermo none|PFADD log a b c|PFCOUNT log|BITCOUNT word
BITFIELD word GET u8 0 OVERFLOW FAIL INCRBY u2 100 3|LCS word a IDX|SLOWLOG GET|LATENCY LATEST
MULTI|SET a 5|GET a|INCR list|EXEC|MULTI|GET a|DISCARD|MULTI|NOSUCH|EXEC|WATCH a|MULTI|EXEC
COMMAND COUNT|COMMAND INFO get nosuch set|COMMAND DOCS get|COMMAND GETKEYS MSET a b c d
COMMAND|CONFIG GET max*|CLIENT INFO|CLIENT LIST|CLIENT GETNAME|CLIENT ID|INFO server|MEMORY STATS
MEMORY USAGE none|MEMORY DOCTOR|ROLE|ACL WHOAMI|ACL GETUSER default|ACL LIST|ACL GETUSER none
TIME|LASTSAVE|LOLWUT|WAIT 0 0|NOSUCH command|GET|SET a|INCR|FUNCTION LIST|FUNCTION STATS
MODULE LIST|CLUSTER INFO|DEBUG PROTOCOL string|DEBUG PROTOCOL integer|DEBUG PROTOCOL double
DEBUG PROTOCOL null|DEBUG PROTOCOL array|DEBUG PROTOCOL set|DEBUG PROTOCOL map
DEBUG PROTOCOL attrib|DEBUG PROTOCOL verbatim|DEBUG PROTOCOL true|DEBUG PROTOCOL false
DEBUG PROTOCOL bignum
""".replace("\n", "|").strip("|").split("|")

# Commands in order that are sent only in RESP3; the server responds to some with pushes.
PUSHED = """\
HELLO 3 SETNAME me|DEBUG PROTOCOL push|ZMSCORE sorted one none|ZINCRBY sorted 1e300 one
ZADD sorted INCR 0.1 two|ZRANDMEMBER sorted 2 WITHSCORES|HRANDFIELD hash 2 WITHVALUES|SINTER set set
SUNION set none|SPOP set 2|GEOPOS places Palermo|CLIENT TRACKING ON|GET word|MGET a b|SET word other
MSET a 7 b 8|GET word|DEL word|CLIENT TRACKINGINFO|CLIENT TRACKING OFF|FLUSHDB|SUBSCRIBE news
PUBLISH news hello|SUBSCRIBE more others|PSUBSCRIBE n*|PUBLISH news twice|PUBLISH more once
UNSUBSCRIBE news|PUNSUBSCRIBE n*|UNSUBSCRIBE more others|PUBLISH news none|LATENCY DOCTOR|PING
CLIENT KILL TYPE pubsub|HELLO|ZADD sorted -inf least inf most 1e-9 little|ZRANGE sorted 0 -1
ZRANGE sorted 0 -1 WITHSCORES|ZPOPMAX sorted|XADD stream 9-1 f v|XREAD COUNT 1 STREAMS stream 0
""".replace("\n", "|").strip("|").split("|")
# Those of them whose only response is a push for each of their words.
ONLY_PUSHED = (b"SUBSCRIBE", b"UNSUBSCRIBE", b"PSUBSCRIBE", b"PUNSUBSCRIBE")

# The programs that the server runs.
PROGRAMS = [
    "return 1", "return -9007199254740992", "return 'text'", "return {1, {2, {3, {}}}, 'x'}",
    "return nil", "return false", "return true", "return {1, nil, 3}", "return {false, 1}",
    "return redis.status_reply('FINE')", "return redis.error_reply('NO such')",
    "return {err = 'ERR bare'}", "return {ok = 'ok'}", "error('thrown')", "return {}",
    "local t = 7 for i = 1, 40 do t = {t, i} end return t",
    "local t = {} for i = 1, 500 do t[i] = i end return t", "return redis.call('get', 'none')",
    "return redis.pcall('nosuch')", "return redis.call('nosuch')", "return 3.99",
    "redis.setresp(3) return {double = 3.5}", "redis.setresp(3) return {map = {a = 1}}",
    "redis.setresp(3) return {set = {x = true}}", "redis.setresp(3) return true",
    "redis.setresp(3) return redis.call('hgetall', 'hash')",
    "redis.setresp(3) return {big_number = '123456789012345678901234567890'}",
    "redis.setresp(3) return {verbatim_string = {format = 'txt', string = 'a\\r\\nb'}}",
    "redis.setresp(3) return {double = 0 / 0}", "redis.setresp(3) return {double = 1 / 0}",
    "redis.setresp(3) return {double = -1 / 0}",
]


def random_commands(rng, count):
    """Returns commands with random bytes."""
    for _ in range(count):
        key = rng.choice((b"k1", b"k2", b"k3", b"h", b"l", b"s"))
        value = bytes(rng.choices(b"\r\n\0:$*+-1ab\xff", k=rng.choice((0, 1, 2, 5, 40))))
        number = str(rng.choice((0, 1, -1, 2**63 - 1, -2**63, rng.randrange(10**6)))).encode()
        other = str(rng.randrange(-10**9, 10**9)).encode()
        nested = b"return {ARGV[1], {tonumber(ARGV[2]), {ARGV[1]}}}"
        yield rng.choice((
            [b"SET", key, value], [b"GET", key], [b"ECHO", value], [b"RPUSH", b"l", value, value],
            [b"LRANGE", b"l", b"-5", b"-1"], [b"HSET", b"h", value, number], [b"HGETALL", b"h"],
            [b"SADD", b"s", value], [b"SRANDMEMBER", b"s", b"3"], [b"SET", key, number],
            [b"DEL", key], [b"INCRBY", key, number], [b"EVAL", b"return ARGV", b"0", value, number],
            [b"EVAL", nested, b"0", value, other], [b"ECHO" + value],
        ))


def commands(rng, version, count):
    """Returns commands of all kinds, as their parts."""
    yield [b"HELLO", str(version).encode()]
    yield [b"FLUSHALL"]
    for line in COMMANDS:
        yield line.encode().split(b" ")
    for program in PROGRAMS:
        yield [b"EVAL", program.encode(), b"0"]
    for size in (0, 1, 63, 4096, 30000):
        yield [b"SET", b"big", rng.randbytes(size)]
        yield [b"GET", b"big"]
    yield from random_commands(rng, count)
    for line in PUSHED if version == 3 else []:
        yield line.encode().split(b" ")
