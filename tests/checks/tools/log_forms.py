"""Logs for tests/batteries.py, written from the documented forms of herd7's and litmus7's, and what tools/compare says of two of them."""

HERD = """Test SB Allowed
States 4
0:rax=0; 1:rax=0;
0:rax=0; 1:rax=1;
0:rax=1; 1:rax=0;
0:rax=1; 1:rax=1;
Ok
Witnesses
Positive: 1 Negative: 3
Condition exists (0:rax=0 /\\ 1:rax=0)
Observation SB Sometimes 1 3
Time SB 0.00
Hash=2d53e83cd627ba17ab11c875525e078b

Test 2+2W Allowed
States 3
[x]=1; [y]=2;
[x]=2; [y]=1;
[x]=2; [y]=2;
No
Witnesses
Positive: 0 Negative: 3
Condition exists ([x]=1 /\\ [y]=1)
Observation 2+2W Never 0 3
"""

LITMUS = """%%%%%%%%%%%%%%%%%%%%%%%%%
% Results for SB.litmus %
%%%%%%%%%%%%%%%%%%%%%%%%%
X86_64 SB
{}
 P0            | P1            ;
 movl $1,(x)   | movl $1,(y)   ;
 movl (y),%eax | movl (x),%eax ;

exists (0:rax=0 /\\ 1:rax=0)
Generated assembler
\t#START _litmus_P0
\tmovl $1,(%r9)

Test SB Allowed
Histogram (3 states)
5     *>0:rax=0; 1:rax=0;
499996:>0:rax=1; 1:rax=0;
499999:>0:rax=0; 1:rax=1;
Ok

Witnesses
Positive: 5, Negative: 999995
Condition exists (0:rax=0 /\\ 1:rax=0) is validated
Hash=2d53e83cd627ba17ab11c875525e078b
Observation SB Sometimes 5 999995
Time SB 0.24
"""

FORBIDDEN_SEEN = LITMUS.replace("Test SB Allowed", "Test 2+2W Allowed").replace("0:rax=0; 1:rax=0;", "x=1; y=1;") \
    .replace("0:rax=1; 1:rax=0;", "x=2; y=1;").replace("0:rax=0; 1:rax=1;", "x=0x1; y=2;").replace("Observation SB", "Observation 2+2W")

SWEPT = """Test SB
Machine msi depth=4 sets=1 ways=2 words=1
Sweep from=0 seeds=1000 length=1000 ended=1000 unfinished=0
State 171 0:EAX=0 1:EAX=0
State 347 0:EAX=0 1:EAX=1
State 326 0:EAX=1 1:EAX=0
State 156 0:EAX=1 1:EAX=1
Observation SB Sometimes 171 829
"""

OUTCOMES = """Test SB
Outcomes depth=32 states=4 against=0
State 0:EAX=0 1:EAX=0 against=no
By 0s 0s 1s 1s 0d 1d
State 0:EAX=0 1:EAX=1 against=yes
By 0s 0s 0d 1s 1s 1d
State 0:EAX=1 1:EAX=0 against=yes
By 1s 1s 1d 0s 0s 0d
State 0:EAX=1 1:EAX=1 against=yes
By 0s 0d 1s 1d 0s 1s
Observation SB Sometimes 1 3
True 1
Verdict Ok
"""

# Each: a name, whether the first is to be within the second, the two logs, the lines that are printed, and the status.
COMPARED = [
    ("a log and itself", False, HERD, HERD, ["2 tests in both logs, 0 differences"], 0),
    ("herd's and this project's", False, SWEPT, HERD, ["2+2W: only in the second log", "1 tests in both logs, 1 differences"], 1),
    ("all that is allowed, and what a sweep found", False, OUTCOMES, SWEPT, ["1 tests in both logs, 0 differences"], 0),
    ("all without a depth beside it", False, OUTCOMES.replace(" against=no", "").replace(" against=yes", ""), OUTCOMES,
     ["1 tests in both logs, 0 differences"], 0),
    ("a search that found no end", False, "Test SB\nUnfinished states=10\n", OUTCOMES, [], 2),
    ("what was seen is within what is allowed", True, LITMUS, SWEPT,
     ["SB: only in the second log: 0:EAX=1 1:EAX=1", "1 tests in both logs, 0 differences that count"], 0),
    ("what was seen isn't all", False, LITMUS, SWEPT,
     ["SB: only in the second log: 0:EAX=1 1:EAX=1", "1 tests in both logs, 1 differences"], 1),
    ("a forbidden state was seen", True, FORBIDDEN_SEEN, HERD,
     ["2+2W: only in the first log: x=1 y=1", "2+2W: only in the second log: x=2 y=2",
      "2+2W: Sometimes in the first log, Never in the second", "SB: only in the second log",
      "1 tests in both logs, 1 differences that count"], 1),
    ("a log without a test", False, "Generated assembler\n", HERD, [], 2),
]

SHOWN_MORE = """Test SB Allowed
States 4
0:rax=0; 1:rax=0; [x]=1;
0:rax=0; 1:rax=1; [x]=1;
0:rax=1; 1:rax=0; [x]=1;
0:rax=1; 1:rax=1; [x]=1;
Ok
Observation SB Sometimes 1 3
"""

RECORDS = """{"false": 3, "options": "--depth 32", "states": [{"0:EAX": 0, "1:EAX": 0}, {"0:EAX": 0, "1:EAX": 1}, {"0:EAX": 1, "1:EAX": 0}, \
{"0:EAX": 1, "1:EAX": 1}], "task": "a", "test": "SB", "true": 1}
""".replace("\\\n", "")

SWEEPS = """{"false": 100, "options": "", "seeds": "0+100", "states": {"0:EAX=0 1:EAX=1": 60, "0:EAX=1 1:EAX=0": 40}, "task": "a", \
"test": "SB", "true": 0, "unfinished": 0}
{"false": 90, "options": "", "seeds": "100+100", "states": {"0:EAX=0 1:EAX=0": 10, "0:EAX=1 1:EAX=0": 90}, "task": "b", "test": "SB", \
"true": 10, "unfinished": 0}
""".replace("\\\n", "")

DEPTHS = RECORDS + RECORDS.replace("--depth 32", "--depth 0").replace('"task": "a"', '"task": "b"').replace(
    '{"0:EAX": 0, "1:EAX": 0}, ', "").replace('"true": 1', '"true": 0')

ARRAYS = """Test A Allowed
States 2
0:rsi=x; x={1,0x2}; 0:rax=-1;
0:rsi=x; x={1,3}; 0:rax=0;
Ok
Observation A Sometimes 1 1
"""

ELEMENTS = """Test A
Outcomes depth=32 states=2
State 0:EAX=0 x[0]=1 x[1]=3
State 0:EAX=4294967295 x[0]=1 x[1]=2
Observation A Sometimes 1 1
True 2
Verdict Ok
"""

JSON_ANSWER = '{"depth":32,"observation":{"false":3,"true":1,"word":"Sometimes"},"states":[%s],"test":"SB","verdict":"Ok"}\n' % ",".join(
    '{"choices":"0s","holds":%s,"values":{"0:EAX":%d,"1:EAX":%d}}' % ("false" if first or second else "true", first, second)
    for first in (0, 1) for second in (0, 1))

BOTH, ALL = "1 tests in both logs, %d differences", "1 tests in all logs, %d differences"

# Each: a name, further words, the logs, the lines that are printed, and the status.
LAID_SIDE_BY_SIDE = [
    ("what only one log shows", [], [OUTCOMES, SHOWN_MORE], ["SB: x is shown in the second log alone", BOTH % 0], 0),
    ("what each shows alone", [], [OUTCOMES.replace("1:EAX", "1:EBX"), SHOWN_MORE],
     ["SB: 1:EAX is shown in the second log alone", "SB: 1:EBX is shown in the first log alone", "SB: x is shown in the second log alone",
      BOTH % 3], 1),
    ("a log that was cut", [], [OUTCOMES, SHOWN_MORE.replace("0:rax=1; 1:rax=1; [x]=1;\n", "")],
     ["SB: the second log is to have 4 states and has 3", "SB: x is shown in the second log alone", "SB: only in the first log: 0:EAX=1 1:EAX=1",
      BOTH % 2], 1),
    ("two logs that were cut alike", [], [SHOWN_MORE[:80], SHOWN_MORE[:80]],
     ["SB: the first log is to have 4 states and has 2", "SB: the second log is to have 4 states and has 2", BOTH % 2], 1),
    ("logs that were cut before a state", [], ["Test SB Allowed\n", "Test SB Allowed\n"],
     ["SB: the first log has no table of states", "SB: the second log has no table of states", BOTH % 2], 1),
    ("a sweep that was cut", [], [SWEPT.replace("State 156 0:EAX=1 1:EAX=1\n", ""), SWEPT],
     ["SB: the first log is to have 1000 runs and has 844", "SB: only in the second log: 0:EAX=1 1:EAX=1", BOTH % 2], 1),
    ("a campaign's results", [], [RECORDS, OUTCOMES], [BOTH % 0], 0),
    ("a campaign of sweeps", ["--within"], [SWEEPS, OUTCOMES], ["SB: only in the second log: 0:EAX=1 1:EAX=1", (BOTH % 0) + " that count"], 0),
    ("a campaign at two depths", [], [DEPTHS, DEPTHS.replace('"true": 0', '"true": 3').replace('"false": 3', '"false": 0', 2)],
     ["SB --depth 0: Never in the first log, Always in the second", "SB --depth 32: Sometimes in the first log, Always in the second",
      "2 tests in both logs, 2 differences"], 1),
    ("an answer in JSON", [], [JSON_ANSWER, OUTCOMES], [BOTH % 0], 0),
    ("two answers of one test", [], [RECORDS + RECORDS.replace('"task": "a"', '"task": "b"').replace("{\"0:EAX\": 0, \"1:EAX\": 0}, ", ""), OUTCOMES],
     [], 2),
    ("arrays, addresses and negative numbers", [], [ARRAYS, ELEMENTS], ["A: 0:ESI is shown in the first log alone", BOTH % 0], 0),
    ("a state that isn't read", [], [OUTCOMES.replace("1:EAX=1 against=yes", "1:EAX against=yes"), OUTCOMES], [], 2),
    ("three logs", [], [OUTCOMES, LITMUS, SWEPT],
     ["SB: only in logs 1, 3: 0:EAX=1 1:EAX=1", ALL % 1], 1),
    ("three logs, and a verdict", [], [OUTCOMES, SWEPT, SWEPT.replace("Sometimes", "Never")],
     ["SB: Sometimes in log 1, Sometimes in log 2, Never in log 3", ALL % 1], 1),
    ("how often", ["--table"], [LITMUS, SWEPT],
     ["SB: only in the second log: 0:EAX=1 1:EAX=1", "SB                      log1       log2",
      "  0:EAX=0 1:EAX=0          5        171", "  0:EAX=0 1:EAX=1     499999        347",
      "  0:EAX=1 1:EAX=0     499996        326", "  0:EAX=1 1:EAX=1          -        156",
      "  Observation      Sometimes  Sometimes", BOTH % 1], 1),
]

# herd's log of a file with registers of the upper eight and a list of locations.
IRIW = """X86_64 IRIW
"Rfe PodRR Fre Rfe PodRR Fre"
{ }
 P0          | P1            | P2          | P3             ;
 movl $1,(x) | movl (x),%r8d | movl $1,(y) | movl (y),%r14d ;
             | movl (y),%r9d |             | movl (x),%r15d ;
locations [x; y;]
exists (1:r8=1 /\\ 1:r9=0 /\\ 3:r14=1 /\\ 3:r15=0)
"""

IRIW_STATES = [(first, second, third, last) for first in (0, 1) for second in (0, 1) for third in (0, 1) for last in (0, 1)
               if (first, second, third, last) != (1, 0, 1, 0)]

IRIW_LOG = "Test IRIW Allowed\nStates %d\n%sNo\nWitnesses\nPositive: 0 Negative: 15\nObservation IRIW Never 0 15\n" % (
    len(IRIW_STATES), "".join("1:r8=%d; 1:r9=%d; 3:r14=%d; 3:r15=%d; [x]=1; [y]=1;\n" % state for state in IRIW_STATES))

# A test with a register that has another name here, and herd's log of it.
OTHER_NAME = """X86_64 SB
{ }
 P0            | P1            ;
 movl $1,(x)   | movl $1,(y)   ;
 movl (y),%r8d | movl (x),%eax ;
exists (0:r8=0 /\\ 1:rax=0)
"""

OTHER_NAME_LOG = SHOWN_MORE.replace("0:rax", "0:r8")

# Tests with a list of locations, and what a program that knows --show is asked.
SHOWN = [
    ("a location of a list", IRIW, "outcomes --json --show all\n"),
    ("a register of a list", IRIW.replace("locations [x; y;]", "locations [0:rax; 1:r8;]"), "outcomes --json --show registers\n"),
    ("what the condition names", IRIW.replace("locations [x; y;]", "locations [1:r8; 3:r15;]"), "outcomes --json\n"),
    ("no list", IRIW.replace("locations [x; y;]\n", ""), "outcomes --json\n"),
]
