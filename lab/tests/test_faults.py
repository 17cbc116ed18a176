"""What is said of good and bad traces, and that tests/hostile.py expects the program to say the same of them."""
import json
import re
import unittest

from support import TRACES, U32, Case, fail, loaded, read
from numalab.faults import verdict

U64 = "expected a whole number from 0 to 18,446,744,073,709,551,615, in digits only"
NODE = "expected a whole number from 0 to 63, in digits only"
LIMIT = "expected a whole number from 1 to 16,384, in digits only"
DISTANCE = "expected a whole number from 10 to 255, in digits only"
FLAG = "expected true or false"
HEX = "expected a text with an even number of hexadecimal digits"
BATCH = "expected a list of at most 16,384 elements"
MOST_NODES = "expected a list of at most 64 elements"
OPS = (
    "expected one of spawn, map, attach, unmap, exit, pin, unpin, read, write, move_pages, migrate_pages, mbind, offline, "
    "online, query, free, "
    "pagemap, numa_maps, vmstat"
)

ACCESS = "expected one of read, write"

# The first example with one place changed, and what is said of it.
CHANGED = [
    ('"version":1', '"version":2,"version":1', "good"),
    ('"version":1', '"version":1,"run_limit":"none","note":[{}]', "good"),
    ('"version":1', '"version":2,"run_limit":1', "good"),
    ('"version":1', '"version":2,"run_limit":16384', "good"),
    ('"version":1', '"version":1,"note":"\\ud83d\\ude00 \\\\ud800 [[[ NaN 1e999"', "good"),
    ('"version":1', '"version":1,"note":[-0,1e308,-1.5e-999,0e999]', "good"),
    ('"steps"', ' "st\\u0065ps"\t\r\n', "good"),
    ('"allowed":[0,1]', '"allowed":[1,63,1,0],"privileged":true', "good"),
    ('"allowed":[0,1]', '"allowed":[]', "good"),
    ('"pages":3', '"pages":18446744073709551615,"shared":false,"shard":7', "good"),
    ('"data":"61"', '"data":""', "good"),
    ('"data":"61"', '"data":"aF"', "good"),
    ('"uid":100', '"uid":4294967295', "good"),
    ('"uid":100', '"uid":1.5,"uid":0', "good"),
    ('"op":"free","node":0', '"op":"vmstat"', "good"),
    ('"nodes":[4,4]', '"nodes":[16383,1]', "good"),
    ('[10,20],[20,10]', '[10,11],[255,10]', "good"),
    # Not JSON.
    ('"version":1', '"version":01', "not JSON: line 1, column 13: expecting ',' delimiter"),
    ('"version":1', '"version":+1', "not JSON: line 1, column 12: expecting value"),
    ('"version":1', '"version":NaN', "not JSON: line 1, column 12: NaN is not JSON"),
    ('"version":1', '"version":-Infinity', "not JSON: line 1, column 12: -Infinity is not JSON"),
    ('"version":1', '"version":1,"n":[Infinity]', "not JSON: line 1, column 19: Infinity is not JSON"),
    ('"version":1', '"version":1e999,"version":1', "not JSON: line 1, column 12: a number outside the range of 64-bit floating point"),
    ('"version":1', '"version":1,"n":-1%s' % ("0" * 309), "not JSON: line 1, column 18: a number outside the range of 64-bit floating point"),
    ('"version":1', '"version":1,"n":"\\ud800"', "not JSON: line 1, column 18: half of a surrogate pair"),
    ('"version":1', '"version":1,"\\uDFFF\\uD800":0', "not JSON: line 1, column 14: half of a surrogate pair"),
    ('"version":1', '"version":1,"n":"a\tb"', "not JSON: line 1, column 20: invalid control character at"),
    ('"version":1', '"version":True', "not JSON: line 1, column 12: expecting value"),
    ('"version"', "'version'", "not JSON: line 1, column 2: expecting property name enclosed in double quotes"),
    ('"op":"map"', '"op":"map" NaN', "not JSON: line 3, column 13: NaN is not JSON"),
    # Not a machine.
    ('"version":1', '"other":1', "bad machine: version is missing: expected a whole number from 1 to 2, in digits only"),
    ('"version":1', '"version":0', "bad machine: version is 0: expected a whole number from 1 to 2, in digits only"),
    ('"version":1', '"version":3', "bad machine: version is 3: expected a whole number from 1 to 2, in digits only"),
    ('"version":1', '"version":1.0', "bad machine: version is 1.0: expected a whole number from 1 to 2, in digits only"),
    ('"version":1', '"version":1e0', "bad machine: version is 1e0: expected a whole number from 1 to 2, in digits only"),
    ('"version":1', '"version":true', "bad machine: version is true: expected a whole number from 1 to 2, in digits only"),
    ('"version":1', '"version":"1"', 'bad machine: version is "1": expected a whole number from 1 to 2, in digits only'),
    ('"version":1', '"version":2', "bad machine: run_limit is missing: " + LIMIT),
    ('"version":1', '"version":2,"run_limit":0', "bad machine: run_limit is 0: " + LIMIT),
    ('"version":1', '"version":2,"run_limit":16385', "bad machine: run_limit is 16385: " + LIMIT),
    ('"version":1', '"version":2,"run_limit":null', "bad machine: run_limit is null: " + LIMIT),
    ('"machine"', '"engine"', "bad machine: machine is missing: expected an object"),
    ('"nodes":[4,4]', '"nods":[4,4]', "bad machine: machine.nodes is missing: " + MOST_NODES),
    ('"nodes":[4,4]', '"nodes":8', "bad machine: machine.nodes is 8: " + MOST_NODES),
    ('"nodes":[4,4]', '"nodes":[]', "bad machine: machine.nodes has 0 elements: expected at least one"),
    ('"nodes":[4,4]', '"nodes":[4,0]', "bad machine: machine.nodes[1] is 0: " + LIMIT),
    ('"nodes":[4,4]', '"nodes":[4,16385]', "bad machine: machine.nodes[1] is 16385: " + LIMIT),
    ('"nodes":[4,4]', '"nodes":[16384,1]', "bad machine: machine.nodes has 16,385 frames in total: expected at most 16,384"),
    ('"nodes":[4,4]', '"nodes":[4,4,4]', "bad machine: machine.distance has 2 rows: expected one for each of 3 nodes"),
    ('"distance":', '"distances":', "bad machine: machine.distance is missing: " + MOST_NODES),
    ('[10,20],[20,10]', '[10,20],20', "bad machine: machine.distance[1] is 20: " + MOST_NODES),
    ('[10,20],[20,10]', '[10,20],[]', "bad machine: machine.distance[1] has 0 elements: expected at least one"),
    ('[10,20],[20,10]', '[10,20],[20]', "bad machine: machine.distance[1] has 1 element: expected one for each of 2 nodes"),
    ('[10,20],[20,10]', '[10,256],[20,10]', "bad machine: machine.distance[0][1] is 256: " + DISTANCE),
    ('[10,20],[20,10]', '[10,10],[20,10]',
     "bad machine: machine.distance[0][1] is 10: expected 11 to 255, the distance to another node"),
    ('[10,20],[20,10]', '[10,20],[20,11]',
     "bad machine: machine.distance[1][1] is 11: expected 10, the distance of a node to itself"),
    ('"steps"', '"step"', "bad machine: steps is missing: expected a list"),
    ('"steps":[', '"steps":{},"other":[', "bad machine: steps is an object: expected a list"),
    # Not a step.
    ('"op":"spawn"', '"op":"fork"', "bad step 0: op is \"fork\": the model leaves out fork and copy on write: docs/LINUX.md, 'Left out'"),
    ('"op":"spawn"', '"op":"u32"', 'bad step 0: op is "u32": ' + OPS),
    ('"op":"spawn"', '"op":["spawn"]', "bad step 0: op is a list: " + OPS),
    ('"op":"spawn",', "", "bad step 0: op is missing: " + OPS),
    ('"uid":100', '"uid":4294967296', "bad step 0: spawn: uid is 4294967296: " + U32),
    ('"uid":100', '"uid":-0', "bad step 0: spawn: uid is -0: " + U32),
    ('"uid":100', '"uid":1e2', "bad step 0: spawn: uid is 1e2: " + U32),
    ('"uid":100', '"uid":null', "bad step 0: spawn: uid is null: " + U32),
    ('"home":0', '"home":"0"', 'bad step 0: spawn: home is "0": ' + U32),
    ('"allowed":[0,1]', '"allowed":[0,64]', "bad step 0: spawn: allowed[1] is 64: " + NODE),
    ('"allowed":[0,1]', '"allowed":3', "bad step 0: spawn: allowed is 3: expected a list"),
    ('"allowed":[0,1]', '"allowed":[0,1],"privileged":null', "bad step 0: spawn: privileged is null: " + FLAG),
    ('"pages":3', '"pages":[3]', "bad step 1: map: pages is a list: " + U64),
    ('"pages":3', '"page":3', "bad step 1: map: pages is missing: " + U64),
    ('"pages":3', '"pages":3,"shared":1', "bad step 1: map: shared is 1: " + FLAG),
    ('"addr":65536,"pages"', '"addr":"0x10000","pages"', 'bad step 1: map: addr is "0x10000": ' + U64),
    ('"data":"61"', '"data":"6"', 'bad step 2: write: data is "6": ' + HEX),
    ('"data":"62"', '"data":"6g"', 'bad step 3: write: data is "6g": ' + HEX),
    ('"data":"62"', '"data":"62\\n"', 'bad step 3: write: data is "62\\n": ' + HEX),
    ('"data":"62"', '"data":62', "bad step 3: write: data is 62: " + HEX),
    ('"nodes":[1,1,1]', '"nodes":[1,1]', "bad step 5: move_pages: nodes has 2 elements: expected 3, as many as pages has"),
    ('"nodes":[1,1,1]', '"nodes":[1,4294967296,1]', "bad step 5: move_pages: nodes[1] is 4294967296: " + U32),
    ('"nodes":[1,1,1]', '"node":[1,1,1]', "bad step 5: move_pages: nodes is missing: " + BATCH),
    ('"pages":[65536', '"pages":[6.5e4', "bad step 5: move_pages: pages[0] is 6.5e4: " + U64),
    ('"flags":2', '"flags":-2', "bad step 5: move_pages: flags is -2: " + U32),
    ('"caller":1', '"caller":false', "bad step 5: move_pages: caller is false: " + U32),
    ('"flags":2', '"flags":2,"during":[]', "good"),
    ('"flags":2', '"flags":2,"during":[{"run":0,"op":"read","pid":1,"addr":65536,"len":1}]', "good"),
    ('"flags":2', '"flags":2,"during":[{"run":1,"op":"read","pid":1,"addr":65536,"len":1}]',
     "bad step 5: move_pages: during[0].run is 1: expected a number below 1, the number of runs"),
    ('"flags":2', '"flags":2,"during":null', "bad step 5: move_pages: during is null: expected a list"),
    ('"op":"free","node":0', '"op":"free","node":0,"during":null', "good"),
    ('"op":"write"', '"op":"write","during":[7]', "good"),
    ('"op":"free","node":0', '"op":"free"', "bad step 6: free: node is missing: " + U32),
    ('"op":"free","node":0', '"op":"Free","node":0', 'bad step 6: op is "Free": ' + OPS),
    ('"len":2', '"len":18446744073709551616', "bad step 9: read: len is 18446744073709551616: " + U64),
    ('"len":2', '"len":%s' % ("9" * 300), "bad step 9: read: len is %s..: " % ("9" * 40) + U64),
]

# A step by itself, and what is said of it after "bad step 0: ".
STEPS = [
    ("7", "the step is 7: expected an object"),
    ('["op","vmstat"]', "the step is a list: expected an object"),
    ("null", "the step is null: expected an object"),
    ('{"op":"attach","pid":1,"addr":0,"segment":0,"pages":1}', "attach: offset is missing: " + U64),
    ('{"op":"attach","pid":1,"addr":0,"segment":-1,"offset":0,"pages":1}', "attach: segment is -1: " + U64),
    ('{"op":"unmap","pid":1,"addr":0}', "unmap: pages is missing: " + U64),
    ('{"op":"unmap","pid":1,"addr":0.0,"pages":1}', "unmap: addr is 0.0: " + U64),
    ('{"op":"exit"}', "exit: pid is missing: " + U32),
    ('{"op":"exit","pid":4294967296}', "exit: pid is 4294967296: " + U32),
    ('{"op":"pin","pid":1}', "pin: addr is missing: " + U64),
    ('{"op":"pin","pid":{},"addr":0}', "pin: pid is an object: " + U32),
    ('{"op":"unpin","addr":0}', "unpin: pid is missing: " + U32),
    ('{"op":"unpin","pid":1,"addr":18446744073709551616}', "unpin: addr is 18446744073709551616: " + U64),
    ('{"op":"read","pid":1,"addr":0}', "read: len is missing: " + U64),
    ('{"op":"write","pid":1,"addr":0}', "write: data is missing: " + HEX),
    ('{"op":"write","pid":1,"addr":0,"data":"0x61"}', 'write: data is "0x61": ' + HEX),
    ('{"op":"write","pid":1,"addr":0,"data":"\u0661\u0661"}', 'write: data is "\\u0661\\u0661": ' + HEX),
    ('{"op":"move_pages","caller":1,"pid":0,"pages":65536,"nodes":[1],"flags":2}', "move_pages: pages is 65536: " + BATCH),
    ('{"op":"move_pages","caller":1,"pid":0,"pages":[],"nodes":[1],"flags":2}',
     "move_pages: nodes has 1 element: expected 0, as many as pages has"),
    ('{"op":"migrate_pages","caller":1,"pid":0,"old":[0]}', "migrate_pages: new is missing: expected a list"),
    ('{"op":"migrate_pages","caller":1,"pid":0,"old":[64],"new":[1]}', "migrate_pages: old[0] is 64: " + NODE),
    ('{"op":"migrate_pages","caller":1,"pid":0,"old":"0","new":[1]}', 'migrate_pages: old is "0": expected a list'),
    ('{"op":"migrate_pages","pid":0,"old":[0],"new":[1]}', "migrate_pages: caller is missing: " + U32),
    ('{"op":"mbind","caller":1,"addr":0,"len":4096,"mode":"bind","nodes":[],"flags":0}', 'mbind: mode is "bind": ' + U32),
    ('{"op":"mbind","caller":1,"addr":0,"len":4096,"mode":2,"nodes":[true],"flags":0}', "mbind: nodes[0] is true: " + NODE),
    ('{"op":"mbind","caller":1,"addr":0,"len":4096,"mode":2,"nodes":[0]}', "mbind: flags is missing: " + U32),
    ('{"op":"mbind","caller":1,"addr":0,"len":-4096,"mode":2,"nodes":[0],"flags":0}', "mbind: len is -4096: " + U64),
    ('{"op":"mbind","caller":1,"addr":0,"mode":4294967296,"nodes":[0],"flags":0}', "mbind: len is missing: " + U64),
    ('{"op":"query","caller":1,"pid":0,"pages":[0]}', "query: flags is missing: " + U32),
    ('{"op":"query","caller":1,"pid":0,"pages":["0"],"flags":0}', 'query: pages[0] is "0": ' + U64),
    ('{"op":"query","caller":1,"pid":0,"flags":0}', "query: pages is missing: " + BATCH),
    ('{"op":"free","node":4294967296}', "free: node is 4294967296: " + U32),
    ('{"op":"offline"}', "offline: node is missing: " + U32),
    ('{"op":"online","node":-1}', "online: node is -1: " + U32),
    ('{"op":"pagemap"}', "pagemap: pid is missing: " + U32),
    ('{"op":"pagemap","pid":[1]}', "pagemap: pid is a list: " + U32),
    ('{"op":"numa_maps"}', "numa_maps: pid is missing: " + U32),
    ('{"op":"numa_maps","pid":1.0}', "numa_maps: pid is 1.0: " + U32),
    ('{"op":"vm_stat"}', 'op is "vm_stat": ' + OPS),
    ('{"op":null}', "op is null: " + OPS),
]

# What is in `during` of a step with two runs, and what is said of it after "bad step 0: move_pages: ".
DURING = [
    ("[]", None),
    ('[{"op":"read","pid":1,"addr":0,"len":1,"run":0}]', None),
    ('[{"op":"read","pid":1,"addr":0,"len":1,"run":1},{"op":"write","pid":0,"addr":1,"data":"","run":0}]', None),
    ('[{"op":"read","pid":4294967295,"addr":18446744073709551615,"len":18446744073709551615,"run":1,"data":null,"note":[]}]', None),
    ('[{"op":"write","pid":1,"addr":0,"data":"aF00","run":0,"len":-1}]', None),
    ('[{"op":"read","pid":1,"addr":0,"len":1,"run":2,"run":1}]', None),
    ("null", "during is null: expected a list"),
    ("false", "during is false: expected a list"),
    ("0", "during is 0: expected a list"),
    ('"read"', 'during is "read": expected a list'),
    ('{"op":"read","pid":1,"addr":0,"len":1,"run":0}', "during is an object: expected a list"),
    ("[null]", "during[0] is null: expected an object"),
    ("[7]", "during[0] is 7: expected an object"),
    ("[[]]", "during[0] is a list: expected an object"),
    ('["read"]', 'during[0] is "read": expected an object'),
    ("[{}]", "during[0].op is missing: " + ACCESS),
    ('[{"pid":1,"addr":0,"len":1,"run":0}]', "during[0].op is missing: " + ACCESS),
    ('[{"op":null,"pid":1,"addr":0,"len":1,"run":0}]', "during[0].op is null: " + ACCESS),
    ('[{"op":["read"],"pid":1,"addr":0,"len":1,"run":0}]', "during[0].op is a list: " + ACCESS),
    ('[{"op":"Read","pid":1,"addr":0,"len":1,"run":0}]', 'during[0].op is "Read": ' + ACCESS),
    ('[{"op":"vmstat","run":0}]', 'during[0].op is "vmstat": ' + ACCESS),
    ('[{"op":"pin","pid":1,"addr":0,"run":0}]', 'during[0].op is "pin": ' + ACCESS),
    ('[{"op":"read","addr":0,"len":1,"run":0}]', "during[0].pid is missing: " + U32),
    ('[{"op":"read","pid":1,"len":1,"run":0}]', "during[0].addr is missing: " + U64),
    ('[{"op":"read","pid":1,"addr":0,"run":0}]', "during[0].len is missing: " + U64),
    ('[{"op":"read","pid":1,"addr":0,"data":"61","run":0}]', "during[0].len is missing: " + U64),
    ('[{"op":"write","pid":1,"addr":0,"run":0}]', "during[0].data is missing: " + HEX),
    ('[{"op":"write","pid":1,"addr":0,"len":1,"run":0}]', "during[0].data is missing: " + HEX),
    ('[{"op":"read","pid":1,"addr":0,"len":1}]', "during[0].run is missing: " + U64),
    ('[{"op":"write","pid":1,"addr":0,"data":"61"}]', "during[0].run is missing: " + U64),
    ('[{"op":"read","pid":4294967296,"addr":0,"len":1,"run":0}]', "during[0].pid is 4294967296: " + U32),
    ('[{"op":"read","pid":1,"addr":"0x0","len":1,"run":0}]', 'during[0].addr is "0x0": ' + U64),
    ('[{"op":"read","pid":1,"addr":0,"len":18446744073709551616,"run":0}]', "during[0].len is 18446744073709551616: " + U64),
    ('[{"op":"write","pid":1,"addr":0,"data":"6","run":0}]', 'during[0].data is "6": ' + HEX),
    ('[{"op":"write","pid":1,"addr":0,"data":"6g","run":0}]', 'during[0].data is "6g": ' + HEX),
    ('[{"op":"write","pid":1,"addr":0,"data":"0x61","run":0}]', 'during[0].data is "0x61": ' + HEX),
    ('[{"op":"write","pid":1,"addr":0,"data":[97],"run":0}]', "during[0].data is a list: " + HEX),
    ('[{"op":"write","pid":1,"addr":0,"data":null,"run":0}]', "during[0].data is null: " + HEX),
    ('[{"op":"read","pid":1,"addr":0,"len":1,"run":-1}]', "during[0].run is -1: " + U64),
    ('[{"op":"read","pid":1,"addr":0,"len":1,"run":-0}]', "during[0].run is -0: " + U64),
    ('[{"op":"read","pid":1,"addr":0,"len":1,"run":0.0}]', "during[0].run is 0.0: " + U64),
    ('[{"op":"read","pid":1,"addr":0,"len":1,"run":0.5}]', "during[0].run is 0.5: " + U64),
    ('[{"op":"read","pid":1,"addr":0,"len":1,"run":1e0}]', "during[0].run is 1e0: " + U64),
    ('[{"op":"read","pid":1,"addr":0,"len":1,"run":"0"}]', 'during[0].run is "0": ' + U64),
    ('[{"op":"read","pid":1,"addr":0,"len":1,"run":null}]', "during[0].run is null: " + U64),
    ('[{"op":"read","pid":1,"addr":0,"len":1,"run":true}]', "during[0].run is true: " + U64),
    ('[{"op":"read","pid":1,"addr":0,"len":1,"run":[0]}]', "during[0].run is a list: " + U64),
    ('[{"op":"read","pid":1,"addr":0,"len":1,"run":18446744073709551616}]', "during[0].run is 18446744073709551616: " + U64),
    ('[{"op":"read","pid":1,"addr":0,"len":1,"run":2}]', "during[0].run is 2: expected a number below 2, the number of runs"),
    ('[{"op":"read","pid":1,"addr":0,"len":1,"run":4294967296}]',
     "during[0].run is 4294967296: expected a number below 2, the number of runs"),
    ('[{"op":"write","pid":1,"addr":0,"data":"61","run":18446744073709551615}]',
     "during[0].run is 18446744073709551615: expected a number below 2, the number of runs"),
    ('[{"op":"read","pid":1,"addr":0,"len":1,"run":1},{"op":"read","pid":1,"addr":0,"len":1,"run":2},7]',
     "during[2] is 7: expected an object"),
    ('[{"op":"read","pid":1,"addr":0,"len":1,"run":1},{"op":"read","pid":1,"addr":0,"len":1,"run":2}]',
     "during[1].run is 2: expected a number below 2, the number of runs"),
]

# The nodes of a batch, the limit on runs where there is one, and how many runs that makes.
RUNS = [
    ([], None, 0), ([], 1, 0), ([1], None, 1), ([1, 1, 0, 1, 1], None, 3), ([1, 1, 1], 2, 2), ([1, 1, 0, 1, 1], 1, 5), ([1] * 4, 2, 2),
    ([1] * 5, 2, 3), ([0, 1, 0], 16384, 3), ([64, 4294967295, 4294967295], None, 2), ([0] * 16384, None, 1), ([0] * 16384, 16383, 2),
    ([0, 1] * 8192, None, 16384), ([0] * 16384, 1, 16384),
]

# Other bytes, and what is said of them.
WHOLE = [
    (b"", "not JSON: line 1, column 1: expecting value"),
    (b"\xef\xbb\xbf[]", "not JSON: line 1, column 1: unexpected UTF-8 BOM (decode using utf-8-sig)"),
    (b'\n["\xc3\xa4\xff"]', "not JSON: line 2, column 4: not UTF-8"),
    (b'["\xed\xa0\x80"]', "not JSON: line 1, column 3: not UTF-8"),
    (b'["\xc0\x80"]', "not JSON: line 1, column 3: not UTF-8"),
    (b"\xff\xfe[\x00]\x00", "not JSON: line 1, column 1: not UTF-8"),
    (b"[NaN,]", "not JSON: line 1, column 2: NaN is not JSON"),
    (b"[.5,NaN]", "not JSON: line 1, column 2: expecting value"),
    (b"[" + b"9" * 5000 + b"]", "not JSON: line 1, column 2: a number outside the range of 64-bit floating point"),
    (b"[] .", "not JSON: line 1, column 4: extra data"),
    (b"[]\x00", "not JSON: line 1, column 3: extra data"),
    (b"\xc2\xa0[]", "not JSON: line 1, column 1: expecting value"),
    (b"[" * 127 + b"]" * 127, "bad machine: the top level is a list: expected an object"),
    (b"[" * 127 + b"0" + b"]" * 127, "bad machine: the top level is a list: expected an object"),
    (b"[" * 128 + b"]" * 128, "not JSON: line 1, column 128: more than 127 levels of nesting"),
    (b"[" * 100000, "not JSON: line 1, column 128: more than 127 levels of nesting"),
    (b'{"a":' * 127 + b"0" + b"}" * 127, "bad machine: version is missing: expected a whole number from 1 to 2, in digits only"),
    (b'{"a":' * 128 + b"0" + b"}" * 128, "not JSON: line 1, column 636: more than 127 levels of nesting"),
    (b'["' + b"[" * 128 + b'"]', "bad machine: the top level is a list: expected an object"),
    (b"7", "bad machine: the top level is 7: expected an object"),
    (b"null", "bad machine: the top level is null: expected an object"),
    (b'"' + b"a" * 50 + b'"', 'bad machine: the top level is "%s..: expected an object' % ("a" * 39)),
    (b" " * 16777216, "not JSON: line 1, column 16777217: expecting value"),
    (b" " * 16777217, "read fault: the trace has more than 16,777,216 bytes"),
]


def changed(text, old, new):
    if old not in text:
        fail(f"{old} is not in the trace")
    return text.replace(old, new, 1)


def expect(trace, line, what=None):
    """Fails where something else is said of a trace, given as text or bytes."""
    told = verdict(trace if isinstance(trace, bytes) else trace.encode())
    if told != line:
        fail(f"the verdict on {what or trace[:200]} is\n  {told}\nand not\n  {line}")


def trace_of(sizes, rows, steps):
    return json.dumps({"version": 1, "machine": {"nodes": sizes, "distance": rows}, "steps": steps})


def square(count):
    return [[10 if own == to else 20 for to in range(count)] for own in range(count)]


def batch(op, pages, nodes):
    """A step with this many pages, and this many nodes where it takes nodes."""
    step = {"op": op, "caller": 1, "pid": 0, "pages": [0] * pages, "flags": 0}
    return {**step, "nodes": [0] * nodes} if op == "move_pages" else step


def check_limits():
    """The numbers that bound machines and batches, on both sides."""
    expect(trace_of([256] * 64, square(64), []), "good")
    expect(trace_of([1] * 65, square(65), []), "bad machine: machine.nodes has 65 elements: " + MOST_NODES)
    expect(trace_of([1] * 64, square(65), []), "bad machine: machine.distance has 65 elements: " + MOST_NODES)
    expect(trace_of([1] * 64, square(64)[:63], []), "bad machine: machine.distance has 63 rows: expected one for each of 64 nodes")
    expect(trace_of([257] + [256] * 63, square(64), []),
           "bad machine: machine.nodes has 16,385 frames in total: expected at most 16,384")
    expect(trace_of([16384], [[10]], [batch("move_pages", 16384, 16384), batch("query", 16384, 0)]), "good")
    expect(trace_of([1], [[10]], [batch("move_pages", 16385, 16385)]), "bad step 0: move_pages: pages has 16,385 elements: " + BATCH)
    expect(trace_of([1], [[10]], [batch("move_pages", 16384, 16385)]), "bad step 0: move_pages: nodes has 16,385 elements: " + BATCH)
    expect(trace_of([1], [[10]], [batch("move_pages", 16384, 16383)]),
           "bad step 0: move_pages: nodes has 16,383 elements: expected 16,384, as many as pages has")
    expect(trace_of([1], [[10]], [{"op": "vmstat"}, batch("query", 16385, 0)]), "bad step 1: query: pages has 16,385 elements: " + BATCH)


def check_runs():
    """The run of an access in flight is one of the step's, which depends only on the nodes and the limit, whoever calls."""
    for nodes, limit, runs in RUNS:
        access = {"op": "read", "pid": 1, "addr": 0, "len": 1}
        for run in (0, runs - 1, runs, 2**64 - 1):
            step = {"op": "move_pages", "caller": 0, "pid": 0, "pages": [0] * len(nodes), "nodes": nodes, "flags": 1,
                    "during": [{**access, "run": max(run, 0)}]}
            version = {"version": 1, "run_limit": 1} if limit is None else {"version": 2, "run_limit": limit}
            most = f"a number below {runs:,}, the number of runs" if runs else "no access, as the step has no run"
            expect(json.dumps({**version, "machine": {"nodes": [1], "distance": [[10]]}, "steps": [step]}),
                   "good" if 0 <= run < runs else f"bad step 0: move_pages: during[0].run is {max(run, 0)}: expected {most}")


def check_order():
    """A bad machine is reported before bad steps, and the first bad step before others."""
    text = changed(read("examples/three_pages.json"), '"data":"62"', '"data":"6"')
    text = changed(text, '"op":"free"', '"op":"unplug"')
    expect(text, 'bad step 3: write: data is "6": ' + HEX)
    expect(changed(text, "[4,4]", "[4,0]"), "bad machine: machine.nodes[1] is 0: " + LIMIT)
    expect(changed(changed(text, "[4,4]", "[4,0]"), '"version":1', '"version":1,"n":1e999'),
           "not JSON: line 1, column 18: a number outside the range of 64-bit floating point")


def check_program():
    """Each line begins with what the built program has to say."""
    text, hostile = read("examples/three_pages.json"), loaded("tests/hostile.py")
    told = [(changed(text, old, new).encode(), fault) for old, new, fault in hostile.BAD]
    told += [(data, fault) for data, fault in hostile.WHOLE if len(data) < 1 << 20]  # The longest are in WHOLE here.
    for during in hostile.DURING:
        told.append((changed(text, '"flags":2', '"flags":2,"during":' + during).encode(), "bad step 5"))
    for data, fault in told:
        line = verdict(data)
        if not line.startswith(fault + ": "):
            fail(f"the verdict on {data[:1000]} is\n  {line}\nand the program's\n  {fault}")
    for old, new in hostile.SAME:
        expect(changed(text, old, new), "good", new)


def check_schema():
    """What the schema's test lists as good is good, and what it lists as bad is a bad machine or a bad step."""
    text, schema = read("examples/three_pages.json"), loaded("tests/schema.py")
    for old, new in schema.SAME + schema.MORE:
        expect(changed(text, old, new), "good", new)
    for old, new in schema.FAULTS:
        line = verdict(changed(text, old, new).encode())
        if not re.match(r"bad (machine|step \d+): ", line):
            fail(f"the verdict on {new} for {old} is\n  {line}")


def check_tables():
    """Each row of the tables."""
    text = read("examples/three_pages.json")
    for old, new, line in CHANGED:
        expect(changed(text, old, new), line, f"{new} for {old}")
    for step, line in STEPS:
        expect('{"version":1,"machine":{"nodes":[1],"distance":[[10]]},"steps":[%s]}' % step, "bad step 0: " + line)
    batch_of_two = '{"op":"move_pages","caller":1,"pid":0,"pages":[0,0],"nodes":[1,0],"flags":2,"during":%s}'
    for during, line in DURING:
        expect('{"version":1,"machine":{"nodes":[1],"distance":[[10]]},"steps":[%s]}' % (batch_of_two % during),
               f"bad step 0: move_pages: {line}" if line else "good")
    for data, line in WHOLE:
        expect(data, line)


class Verdicts(Case):
    """The first fault of a trace."""

    def test_tables(self):
        check_tables()

    def test_good(self):
        for path in TRACES:
            with open(path, "rb") as file:
                expect(file.read(), "good", path)

    def test_limits(self):
        check_limits()

    def test_runs(self):
        check_runs()

    def test_order(self):
        check_order()

    def test_program(self):
        check_program()

    def test_schema(self):
        check_schema()


if __name__ == "__main__":
    unittest.main()
