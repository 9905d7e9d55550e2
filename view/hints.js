'use strict';

// Hints in the page's words: it has fields and buttons, and no command line. And listings as tests.

const IN_WORDS_OF_THE_PAGE = [
  [/no test: give one on standard input, as in: tso [a-z]+ < FILE/, 'there is no test yet: write one, or take one of the examples'],
  [/^hint: no choices: give some .*/, ''], // the machine has its buttons
  [/the choices end before the test.*/, all => (countChoices(choicesText()) > MOST_STEPS ? all : 'the run isn\'t finished: step on in the machine')],
  ['no order: give one after a line ====, as run prints it; --help says more', 'there is no order yet: write one, as the answer of run has it as text'],
  ['put a line ==== between the test and the choices', 'choices stand in their own field'],
  ['put a line ==== between the test and the order', 'an order stands in its own field'],
  ['tso why needs no states', '“Why” needs no states'],
  ['name fewer atoms', 'name fewer registers and locations'],
  ['the proposition', 'the condition'],
  ['lower --depth', 'lower --depth (then it is less than TSO)'],
  [/(?='LOCK (?:XADD|CMPXCHG) \w+,\[)('.*?': )/i, '$1the location comes first: '],
  [/no ; ends (?:this row .*|(the row .*): a row.*)/, '$1 needs a ; at its end'],
  [/; leave out the ; behind it.*/, ', and leave out the ; behind it'],
  [/(\w+) is no instruction: write (exists|forall)/, '“$1” isn\'t read: write $2'],
  [/there is no stack.*/, '$&. Or compile with -O1'],
  [/ ?[(;] ?the tool import .*|: it is written \[x\]$/m, ''],
  ['give tso the text of a test: ', 'write '],
  [/X86_64 tests.*/, 'this is a test of X86_64: write X86, EAX for rax, and [x] for a register with x in it'],
  [/(C is a language|this is C): .*/, 'this is C: write one line for each thread, as x=1; r0=y'],
  [/(; stands behind )?\bfence( isn't read|:).*/i, 'fence: write MFENCE'],
  [/'[^']*\[(\w+)\][^']*' is one too many: .* (\d+) locations/, (all, name, most) => `${name} is the ${Number(most) + 1}th location: at most ${most}`],
  [', and items have no types here', ', and items of { } have none'],
  [/: an input has only one, so.*/, ': one test at a time'],
  [' after ====: ', ' of it: '],
  [/(\d+) stalled: /, '$1 did nothing: '],
  [/(\d[sd]) \w+ \((\dd) first\)/g, '$1 (it waits for $2)'],
  [/(\d[sd]) \w+ (\((?:no store|at end|held)\))/g, '$1 $2'],
];

/** Why a word of the choices is refused, by the program's name for it. */
const CHOICE_FAULTS = {
  NoSuchCore: word => `there is no core ${parseInt(word)}`, BadWord: () => 'this is no choice', TooMany: () => 'more choices than this aren\'t taken',
};

/** The last notice: of which test, and what it says. */
const notice = { test: null, said: '' };

/** What is said of a condition's registers that no instruction of their core writes. */
function unwrittenSaid(test) {
  const { programs, proposition, start } = readTest(test), named = [...(proposition ?? '').matchAll(/(\d)\s*:\s*([A-Z]{3})/g)];
  const unwritten = named.filter(([, core, register]) => !programs[core].flatMap(writtenBy).includes(register));
  const words = new Map(unwritten.map(([, core, register]) => [`${core}:${register}`, { core, word: start.cores[core].registers[register] }]));
  return [...words].map(([name, { core, word }]) => `the condition names ${name}, which no instruction of P${core} writes: it stays ${word}.`);
}

/** The locations that the condition of a test alone names: they stay 0. */
function strayNames(test) {
  const { programs, proposition } = readTest(test), others = `${programs}${/\{[^}]*/.exec(test)}`;
  return [...new Set((proposition ?? '').match(/(?<![\w:])[a-z_]\w*(?=\]?\s*=)/gi))].filter(name => !new RegExp(`\\b${name}\\b`).test(others));
}

const straySaid = test => strayNames(test).map(name => `${name} is no location of this test, so it stays 0.`).join(' ');

/** The same before an answer. */
const strayPart = test => [straySaid(test)].filter(Boolean).map(said => html('p', 'stray', said));

/** What is said of a location that is only read, or only written, where another's name differs by case or a letter. */
function nearSaid(test) {
  const { programs, proposition } = readTest(test), all = programs.flat(), named = texts => `${texts}`.match(/\b(?!E..\b)[a-z_]\w*/gi) ?? [], without = (name, at) => name.slice(0, at) + name.slice(at + 1);
  const read = named([...all.filter(text => !/^MOV \[/i.test(text)), proposition]), written = named([...all.filter(text => !/^MOV E/i.test(text)), /\{[^}]*/.exec(test)]);
  const isNear = (one, other) => one !== other && (one.toLowerCase() === other.toLowerCase() || [...one].some((sign, at) => [other, one[2] && /\D/.test(sign) && without(other, at)].includes(without(one, at))));
  const said = (names, others, how) => names.filter(name => !others.includes(name)).flatMap(name => others.filter(other => isNear(name, other)).map(other => `Note: ${name} is ${how}: is ${other} meant? `));
  return [...said(read, written, 'read and never written'), ...said(written, read, 'written and never read')][0] ?? '';
}

const lineOfCondition = test => test.split('\n').findIndex(text => quantifierOf(text) !== null) + 1;

/** What is said of a location's name, and of a condition that names what nothing writes. */
function noticeOf(test) {
  if (notice.test === test) return notice.said;
  const [found = ''] = /the condition names .*, which no instruction [^]*stays \d+/.exec(asked({ command: 'sweep', seeds: 1 }, test).hint) ?? [];
  const isNew = said => !found.includes(said.slice(0, said.indexOf(',')));
  const said = [straySaid(test), found && `${found.replace(/core (?=\d)/g, 'P')}.`, ...unwrittenSaid(test).filter(isNew)].filter(Boolean);
  Object.assign(notice, { test, said: nearSaid(test) + (said.length === 0 ? '' : `Note, line ${lineOfCondition(test)}: ${said.join(' And ')}`) });
  return notice.said;
}

/** The refusal of a condition with a register without its core, as r0, that nothing before it names. */
function refusalOfBare(test) {
  const at = lineOfCondition(test), lines = test.split('\n'), before = lines.splice(0, at - 1).join();
  const name = at > 0 && lines.join().match(/(?<![\w:])r\d+(?=\]?\s*=)/gi)?.find(each => !new RegExp(`\\b${each}\\b`).test(before));
  return name ? { status: REFUSED, text: `Refused test line ${at} BadCondition`, hint: `hint: line ${at}: ${name} is no location of this test: write the register with its core, as 0:EAX` } : undefined;
}

/** A hint of a limit, a sentence a line; of many choices the first twelve. */
const linesOfLimit = said => said.replace(/((?: \d[sd]){12}) \d[sd][ \dsd]*/, '$1 …').replace(/\d{5,}/g, each => grouped(Number(each))).replace(/^hint: /gm, '').split(/; |\n/).map(each => `${each[0].toUpperCase()}${each.slice(1)}.`.replace('….', '…')).join('\n');

/** A hint of the module, in words of the page; an option of the command line goes by its field's name. */
function pageHint(hint) {
  const said = IN_WORDS_OF_THE_PAGE.reduce((said, [theirs, ours]) => said.replace(theirs, ours), hint);
  const named = said.replace(/--([a-z]+)/g, (word, name) => (SET_NAMES.includes(name) ? `“${labelText(name)}”` : word)).trim();
  return /more than \d+ (?:states|cases)/.test(named) ? linesOfLimit(named) : named;
}

const LONGEST_ASKED = 20000; // letters of a test that is asked for each cell of a row

/** The first cell that is refused alone as its line is, or what stands for it in a row of too many or too few. */
function cellsRefused(test, number, hint) {
  const lines = test.split('\n'), line = lines[number - 1], cells = cellsIn(line.replace(/;\s*$/, ''));
  if (hint.includes(': this row has')) return barsOf(lines, number - 1).marked;
  const isAlone = ({ core, from, text }) => asked({ command: 'run' }, lines.with(number - 1, `${'|'.repeat(core)}${line.slice(from, from + text.length)}${'|'.repeat(cells.length - 1 - core)};`).join('\n')).hint === hint;
  return test.length > LONGEST_ASKED ? [] : [cells.find(each => each.text !== '' && isAlone(each)) ?? []].flat();
}

/** What stands before a second instruction of a cell; bars around none. */
const SECOND = /(?<=[^\s|])(?<!\bLOCK)\s+(?:[,;!/\\lI]\s+)?(?=LOCK\s|MFENCE\b|(?:MOV|XCHG|XADD|CMPXCHG|ADD|SUB|INC|DEC|AND|OR|XOR|NEG|NOT)\s)/gi, BARS = /\|\s*(?:\||(?=;?\s*$))/g;

/** A row with too few cells, and empty ones: before a single cell those above whose right it begins. */
function withBars(lines, at) {
  const row = lines[at].replace(/;?\s*$/, ''), heads = cellsOf(lines[spanOf(lines)[0]] ?? ''), cells = cellsIn(row);
  const before = cells[1] ? 0 : Math.max(0, heads.findLastIndex(({ from }) => from <= cells[0].from)), after = heads.length - cells.length - before;
  return row.includes(';') || after < 0 || /^[\s|]*$/.test(row) ? '' : `${' |'.repeat(before)}${row}${' |'.repeat(after)} ;`;
}

/** Of a row with too many or too few cells what is marked, and the test with the right bars, or null where these aren't certain. */
function barsOf(lines, at) {
  const line = lines[at], cells = cellsOf(line), cores = cellsOf(lines[spanOf(lines)[0]] ?? '').length, isMore = cells.length > cores;
  const places = isMore ? BARS : /;.*;/.test(line) ? /;(?=.*;)/g : SECOND, [place] = line.matchAll(places);
  const text = line.replace(places, bars => (isMore ? bars.slice(1).trim() : bars === ';' ? '|' : ' | '));
  const short = !isMore && text === line && withBars(lines, at);
  const last = isMore ? { ...cells.at(-1), core: undefined } : short ? cells[0] : [], marked = places === SECOND ? cells.filter(each => each.text.search(SECOND) > 0) : place ? { from: place.index, text: place[0] } : last;
  if (short) return { marked: [marked].flat(), mended: { text: lines.with(at, short).join('\n'), isOther: true, line: at + 1, said: '| added' } };
  return { marked: [marked].flat(), mended: text !== line && cellsOf(text).length === cores ? { text: lines.with(at, text).join('\n'), isOther: true, line: at + 1, said: isMore ? 'one | left out' : '| between cells' } : null };
}

/** A test whose condition has cores and registers for names in C, as r0; null where it has others, or not all. */
function withCores(test) {
  const lines = test.split('\n'), at = lineOfCondition(test) - 1, names = inC(readTest(`${lines.slice(0, at).join('\n')}\n`).programs)?.names ?? [], changed = new Map();
  const places = new Map(names.flatMap((each, core) => Object.entries(each).map(([register, name]) => [name, `${core}:${register}`])));
  const text = lines.map((line, row) => (row < at ? line : line.replace(/(?<![\w:[])r\d+(?=\s*=)/gi, name => {
    changed.set(name, places.get(name.toLowerCase()));
    return changed.get(name);
  }))).join('\n');
  return [...changed.values()].includes(undefined) || ![...places.values()].every(place => text.split('\n').slice(at).join().includes(place)) ? null : { text, line: at + 1, said: [...changed].map(pair => pair.join(' became ')).join(', ') };
}

/** Of the row of cores and of conditions. */
const OTHER_REPAIRS = [
  [/^no \| stands before P/, () => [/(?<=P\d) +(?=P\d)/g, ' | ']],
  [/^\| stands only between|^'\|' stands twice/, () => [BARS, bars => bars.slice(1).trim()]],
  [/^(P\d): write (P\d) in its place: cores/, ([, given, meant]) => [new RegExp(`${given}(?=\\s*;)`), meant]],
  [/^no \) closes/, () => [/\s*$/, ')']],
  [/^'([);.])' stands after the end/, ([, sign]) => [new RegExp(`\\S*\\s*\\${sign}\\s*$`), part => part.trim().slice(0, -1).trim()]],
  [/a core is its number alone/, () => [/\bP(\d\s*:\s*\w+)/gi, '$1']],
  [/stands without \$/, () => [/=\s*\$(?=\d)/g, '=']],
  [/ isn't \S+ is written ~/, () => [/((?:\d\s*:\s*)?\[?\w+\]?)\s*(?:!=|<>)\s*(\d+)/g, '~($1=$2)']],
  [/written after its core and a colon/, () => [/\b(\d)\s*[.;, ]\s*(E[A-DS][IX])\b/gi, '$1:$2']],
];

const LISTING = /^(hint: line \d+: )?(instructions alone|this is an? (dis)?assembl)/;
const FRAMELESS = /no rows stand before|before (?:its|the) initial state|no line begins a test|no header|as papers have it|C is a language|this is C\b/;
const OFFERED = [[/C is a|is C\b/, 'this is C'], [FRAMELESS, 'this isn\'t a whole test yet'], [LISTING, 'this is a listing. The button makes a test of it'], [/X86_64/, 'this is a test of X86_64. The button makes it one of X86']];
/** Says what a button without a name writes: a cell on it, or all before it. */
function offerRepairs(test, { text, changes }, name) {
  const was = test.split(/[|;\n]/), [cell, ...more] = text.split(/[|;\n]/).filter((each, at) => each !== was[at]), count = changes.length;
  const [{ said, line }] = count === 1 ? changes : [{}], isEnd = said === '; was added', isOne = isEnd || (said && cell && !more[0]);
  byId('write-so').textContent = name || (isOne ? `Write ${isEnd ? `; at the end of line ${line}` : cell.trim()}` : `Write it so${count > 1 ? `: ${count} changes` : ''}`);
  fill(byId('to-write'), ...withCode(name !== false || isOne ? '' : `Changes: ${changesSaid(changes.map(each => (each.cores?.[0] ? each : { ...each, cores: [each.line ?? []].flat() })), true).replace(/(?<!\bLOCK [^;[]*)\[[^;(]* became (LOCK|[^;]* and )[^;]*(?=;|\. $)/g, (all, how) => `${all} (${how === 'LOCK' ? 'now in one step' : 'in steps: another core can act between them'})`).replaceAll(' became', ' becomes').replaceAll(' was ', ' is ')}`));
}

/** A hint with the free register that a change took. */
function withFree(hint, change) {
  const [all, named] = /, with a free register for (E..)$/.exec(hint.trim()) ?? [], [free] = /\bE[A-DS][IX]\b/.exec(change?.said.split(' became ')[1]) ?? [];
  return all && free ? hint.replace(all, '').replaceAll(named, free) : hint;
}

const ADDRESS = /^\s*[\da-f]+:\s*(?:[\da-f]{2}(?:\s+|$))*/; // and bytes
const PLACE = /-?\w+(?=\(%rip\))|\[rip ?[+-] ?\w+\]/;
const MOST_SAID = 4; // kinds of changes

/** Lines of a listing, whatever names it has. */
const OF_LISTING = /^[ \t]*(lock\s|[.#]|(c?mov|x?add|cmp|xchg|sub|xor|test|lea|push|pop|ret|j|[lms]fence)[a-z]{0,4}(?!\S))|^.*:\s*(#.*)?$/gim;
const isListing = text => !text.includes('|') && 2 * text.match(OF_LISTING)?.length > text.match(/.*\S/g).length;

/** A statement of C that has an instruction. */
const STATEMENT = new RegExp('^(?:(?:\\w+ +)*\\*?\\w+ *= *(?:\\*?\\w+|CALL)|m?fence|CALL)$'.replaceAll('CALL', '[\\w.:]*(?:store|load|exchange|fetch|fence|once|_mb|synchronize)\\w*\\([^()]*\\)'), 'i');

/** The statements of threads, each in a line, or all in one with bars between. */
const statementsIn = lines => lines.flatMap(line => line.split(lines.length === 1 ? /\|+/ : '||')).map(line => line.replace(/^[\w ]+:(?!:)/, '').split(';').map(each => each.trim()).filter(each => each && !/^u?int[\w\s,*]+$/.test(each)));

/** These as rows; else null. */
function threadsIn(lines) {
  const threads = statementsIn(lines), most = Math.max(...threads.map(({ length }) => length));
  return most > 1 && threads.flat().every(each => STATEMENT.test(each)) ? times(most, at => threads.map(each => each[at] ?? '')) : null;
}

/** A jump in C, or a call with its end; and how a C test of herd7 begins. */
const JUMPS = /(?<=^|[;{}|:)])\s*(?:(if|while|for|switch)\s*\(|((?:[\w ]+=\s*)?[\w.:]+\([^()]*\))(?=\s*[;|]))/gm, HERDS = /^C\s+(\S+)\s*\{([^}]*)\}/;

/** What is said of a jump or a call beside what is understood, or of a statement in a line of threads that isn't. */
function strangeIn(test) {
  const [line, other = 'exists'] = test.trim().split(/\s*\n\s*/);
  const strange = /;.*\||\|.*;\s*[^\s;]/.test(line) && !/[{}]/.test(test) && quantifierOf(other) !== null && statementsIn([line]).flat().find(each => !STATEMENT.test(each));
  const found = /=|store|load/.test(test) && [...test.matchAll(JUMPS)].find(([, jump, call]) => jump || !STATEMENT.test(call)), [all, jump, said = strange] = found || [''];
  const at = found ? countLines(test.slice(0, found.index + all.length)) : 1, why = jump ? `'${jump}' can't be written: a test has no jumps.` : `“${said}” isn't understood. Write x = 1, r0 = y or fence, with ; between them and | between threads.`;
  return jump || said ? { field: 'test', line: at, said: `Line ${at}: ${why}` } : undefined;
}

/** The line that a test has which was made of C or C++, and what is said with each of its answers. */
const FROM_C = 'Made from=C or C++';
const OF_C = 'This is what the processor does with these plain moves. The compiler may reorder relaxed accesses: ask tools/compiled.';
const isFromC = test => test.split('\n').some(line => line.trim() === FROM_C);

/** Whether a cell is a statement of C, and no instruction. */
const isC = cell => /[=(]/.test(cell) && STATEMENT.test(cell);

/** A text with each function, or what follows each label, in a line. */
const inThreads = test => (/^[\w ]+:\s*$/m.test(test) ? test.replace(/\n(?!\s*([\w ]+:\s*$|[~/\\(]|exists|forall|$))/gm, ';')
  : test.replace(/(?:[^{}=]|= *0|\{0?\})*\)\s*\{([^{}]+)\}/gy, (all, body) => `${body.replace(/\s+/g, ' ')}\n`));

/** Rows of instructions, or of C, as a test; null where they aren't plain rows of some cores. */
function framed(test) {
  const [, title, start = ''] = HERDS.exec(test) ?? [], plain = inThreads(test.replace(HERDS, '')), lines = plain.split('\n').filter(line => line.trim() !== ''), head = title ? `X86 ${title}` : /^X86/.test(lines[0] ?? '') && lines.shift();
  const asked = lines.findIndex(line => quantifierOf(line) !== null), last = asked < 0 ? lines.length : asked;
  const named = lines.slice(0, last).filter(line => !/^\s*(P|Thread )\d\s*[|;]/i.test(line)).map(line => line.replace(/:=/g, '=').replaceAll('std::', '')), rows = threadsIn(named) ?? named.map(line => line.replace(/;\s*$/, '').split(/\|+/).map(cell => cell.replace(/;\s*$/, '').trim()));
  if (!(rows[0]?.length > 1) || rows.some(({ length }) => length !== rows[0].length) || /[{}]/.test(plain) || strangeIn(test)) return null;
  const above = rows[0].map((_, core) => `P${core}`);
  return { text: [head || 'X86 mine', ...(title || rows.flat().some(isC) ? [FROM_C] : []), `{ ${start.trim()} }`.replace(/ +/, ' '), ...[above, ...rows].map(cells => ` ${cells.join(' | ')} ;`), ...lines.slice(last), ''].join('\n'), isOther: true, isFrame: true, said: `${head ? '' : 'a name, '}{ }${named.length < last ? '' : ' and the row of cores'} added` };
}

/** A listing with locations as in a test: N_x for N::x, x_8 for x+8. */
const withNames = text => text.replace(/(?<=\w)::(?=\w.*[^:\s]\s*$)/gm, '_').replace(/\[rip ?\+ ?([a-z_]\w*)/gi, '$1[rip').replace(/(\w)(\[rip) ?\+ ?(\d+)|(\w)\+(\d+)(?=\(%rip)/g, '$1$4_$3$5$2');

/** A listing; a disassembly without addresses and bytes, with names of comments and relocations. */
const plainListing = (text, hint) => (!hint.includes('disassembly') ? withNames(text) : withNames(text).split('\n').map((line, at, lines) => {
  const [, name] = /<(\w+)(?:@[\w.@]*)?>\s*$/.exec(line) ?? /R_X86\w+\s+(\w+)/.exec(lines.slice(at + 1, at + 3)) ?? [];
  const plain = line.replace(ADDRESS, '').replace(/\b0x[\da-f]+/g, Number);
  return name === undefined ? plain : plain.replace(PLACE, place => name + (place.startsWith('[') ? '[rip]' : ''));
}).join('\n'));

/** The first line of a listing that no test can have, and what is said of all such; else false. */
function barredIn(listing) {
  const lineAt = index => countLines(listing.slice(0, index)), placed = (index, said) => index >= 0 && { field: 'test', line: lineAt(index), said };
  const all = [...listing.matchAll(/^[ \t]*((?:j|loop|call|set|cmov)\w*|(?:test|cmp)[bwlq]?)(?!\S)/gim)], said = listed(all.slice(0, MOST_SAID).map(({ 1: word, index }) => `line ${lineAt(index)} (${word})`)).slice(1);
  return placed(listing.search(/-\d+[([]%?rbp|\[rbp ?-/), 'This listing uses a stack, and a test has none: compile with -O1.')
    || placed(listing.search(/\b\d+[([]%?rip|\[rip ?[+-] ?\d/), 'This listing has no names of locations: paste what gcc -S writes, or objdump -dr of an object file.')
    || placed(all[0]?.index, `L${said}: there are no jumps, compares, calls or flags (set) here. Without such lines this can be a test, of the one way that takes no jump.`);
}

const JUMP = /^\s*(?:j(?!mp)\w+|cmov\w+|(?:test|cmp)[bwlq]?)(?!\S)/i, LABEL = /^(?=[^\s.#].*:\s*(?:#.*)?$)/m;

/** A listing as a test of its straight way: no jumps, no function that calls others. Null where it can't be one. */
function straight(listing) {
  const left = [], lines = listing.split(LABEL).map(part => {
    if (!/^\s*call/m.test(part) || (!/^\W*main\b/.test(part) && part.includes('rip'))) return part;
    left.push(/\w.*(?=>?:)/.exec(part)[0]);
    return part.replace(/.+/g, '');
  }).join('').split('\n');
  let hasEnded = false, flag = null; // behind its return is another way; the register of set
  const found = listingAsTest(lines.map((line, at) => {
    const isEnd = LABEL.test(line), made = /^\s*set\w+\s+%?([a-d])l/.exec(line)?.[1];
    hasEnded = !isEnd && (hasEnded || /^\s*ret/.test(line));
    if (made || isEnd || hasEnded) flag = made ? new RegExp(`\\b[re]?${made}[xl]\\b`) : null;
    if (made || JUMP.test(line) || (flag?.test(line) && /^\s*movz\w+\s+%?e?(.)[xl], ?%?e?\1[xl]$/.test(line)) || (hasEnded && /^\s*(?!ret|nop|data|cs |xchg\s+%?ax)[a-z]/.test(line))) left.push(`line ${at + 1}`);
    else if (flag?.test(line)) return 'set';
    else if (!hasEnded) return line;
    return '';
  }).join('\n'));
  return found && { ...found, said: `${found.said}; left out: ${listed(left)}: the way that takes no jump or call` };
}

/** An instruction with 32 bits for 64 or 8, but for the stack and addresses. */
const inWords = line => (/\b[re]?[sb]p\b/.test(line) ? line : line.replace(/(QWORD|BYTE)(?= PTR)/i, 'DWORD').replace(/^movz(bl|x)(?=.*( PTR|\(%rip))/i, 'mov').replace(/^((?:lock )?(?!sub )[a-z]+)[bq] /i, '$1l ')
  .replace(/(?<![([]%?)\b(?:r([a-d]x|[sd]i)|([a-d])l)\b(?![([])/gi, (all, whole, letter) => `e${whole ?? `${letter}x`}`));

/** A line without comment and spaces. */
const plainLine = line => line.replace(/(#|;|\/\/).*/, '').replace(/\s+/g, ' ').trim();

/** What isn't read of a listing, by what was made of it. */
function unreadIn(listing, { text, hint, changes }) {
  const [, number, why] = /^hint: line (\d+): ([^]*)/.exec(pageHint(hint)) ?? [], row = text.split('\n')[number - 1] ?? '';
  const cell = cellAtFault(row, inFull(hint, row)), line = listing.split('\n').findIndex(each => inWords(plainLine(each)) === cell?.text) + 1;
  return changes.length > 0 && { field: 'test', line: line || 1, said: `${line ? `Line ${line} of t` : 'T'}his listing isn't read: ${why}.` };
}

/** A listing as a test: what follows each label is a core's. Null where it can't be one. */
function listingAsTest(listing) {
  const places = /\b(?:r\d+|[re]?(?:[a-d]x|[sd]i|[sb]p)|[a-d][lh])(?=\(%rip\)|\[rip\]|:\s+\.(?:long|int|quad))/gi; // named as registers are
  const other = name => (listing.includes(`_${name}`) ? other(`_${name}`) : `_${name}`), text = listing.replace(places, other);
  const cores = [[]], left = /^$|^\.|^(ret|endbr64|nop|leave|push|pop|R_X86|cs nop|data16|hlt|xchg %?ax, ?%?ax)|file format|^mov.*(bp\W.*sp|sp\W.*bp)/i;
  if (barredIn(text)) return null;
  const given = text.split('\n').map(plainLine).filter(each => !left.test(each)), lines = given.map(inWords);
  for (const line of lines) {
    if (/:$/.test(line)) cores.push([]);
    else if (cores.at(-1).push(line) && !/^[a-z]/i.test(line)) return null;
  }
  const programs = cores.filter(core => core.length > 0), most = Math.max(...programs.map(core => core.length));
  const start = [...text.matchAll(/^(\w+):\s+\.(?:long|int|quad)\s+([1-9]\d*)\s*(?:#.*)?$/gm)].map(([, name, word]) => ` ${name}=${word};`).join('');
  const row = at => ` ${programs.map((core, number) => (at < 0 ? `P${number}` : core[at] ?? '')).join(' | ')} ;\n`;
  return most > 0 ? { text: `X86 pasted\n{${start} }\n${times(most + 1, at => row(at - 1)).join('')}`, isOther: true, said: `a test of ${programs.length} core${programs.length === 1 ? '' : 's'}${[...new Set(listing.match(places))].map(name => `, location ${name} became ${other(name)}`).join('')}${`${lines}` === `${given}` ? '' : '; 64 or 8 bits became 32: a word has 32 here'}` } : null;
}

/** A test of X86_64 as one of X86, with locations for addresses; null where such a register has other uses. */
function narrowed(test) {
  const plain = untyped(test), { before, cells, after } = programsIn(plain) ?? {}, ITEM = /(\d):(\w+)\s*=\s*&?([a-z_]\w*)\s*;?[ \t]*/gi, items = [...(before?.join('\n').matchAll(ITEM) ?? [])];
  for (const row of cells ?? []) for (const [, core, name, place] of items) row[core] = row[core]?.replace(new RegExp(`([([])%?${name}([)\\]])`, 'gi'), `$1${place}$2`);
  if (items.some(([, core, name]) => new RegExp(`\\b[re]?${name.slice(1)}\\b`, 'i').test([...cells.map(row => row[core]), ...after]))) return null;
  const short = text => text.replace('X86_64', 'X86').replace(/\br([a-d]x|[sd]i)\b/gi, (all, rest) => `E${rest.toUpperCase()}`);
  const text = cells ? [before.join('\n').replace(ITEM, ''), ...cells.map(row => ` ${row.join(' | ')} ;`), ...after].join('\n') : plain;
  const was = programsIn(test)?.cells.flat() ?? [], types = [...new Set(/\{([^}]*)/.exec(test)?.[1].match(/\b[a-z_]\w*(?=\s+\*?[\w:]+\s*[;=])/gi))];
  return { text: short(text), isOther: true, quotes: new Map(cells?.flat().map((cell, at) => [short(cell), was[at]])), said: `X86_64 became X86, with registers of 32 bits${items.length > 0 ? '; addresses became locations' : ''}${types.length > 0 ? `; declarations (${listed(types)}) were left out` : ''}` };
}
