'use strict';

// The test, the choices and the order as they are written, and the mark at what is refused.

const DIVIDING_LINE = '====';

const readsOrder = command => command === 'check' || command === 'witness';

/** The texts that a command reads: the test, and after it the choices or the order. */
function inputOf(command) {
  const test = testNow(), ended = test.endsWith('\n') || test === '' ? test : test + '\n';
  if (command !== 'run' && !readsOrder(command)) return ended;
  return `${ended}${DIVIDING_LINE}\n${readsOrder(command) ? byId('given').value : choicesText()}`;
}

/** What is before the first dividing line of a whole input, and what is after it, or null. */
function partsOf(text) {
  const lines = text.split('\n'), at = lines.findIndex(line => line.replace(/\r$/, '') === DIVIDING_LINE);
  if (at < 0) return { test: text, rest: null };
  const test = lines.slice(0, at).join('\n');
  return { test: at > 0 ? test + '\n' : test, rest: lines.slice(at + 1).join('\n') };
}

/** Puts a whole input into the fields. */
function putInput(text) {
  const { test, rest } = partsOf(text.replace(/\r\n/g, '\n'));
  const isOrder = rest !== null && /^(Order|Endorder\b.*)$/m.test(rest);
  byId('test').value = test;
  putChoices(isOrder ? '' : rest ?? '');
  byId('given').value = isOrder ? rest : '';
  for (const id of ['test', 'given']) drawLines(id, null);
  return isOrder;
}

// The field of choices. Laying out a long text takes long, so it comes there when the field is in sight.

const choicesField = { unwritten: null, isInSight: true };

/** What the field of choices holds, or will hold. */
const choicesText = () => choicesField.unwritten ?? byId('choices').value;

function putChoices(text) {
  forgetUnwritten();
  byId('choices').value = text;
}

/** What is typed into the field takes the place of what was to come. */
function forgetUnwritten() {
  choicesField.unwritten = null;
}

function putChoicesLater(text) {
  choicesField.unwritten = text;
  if (choicesField.isInSight) writeChoices();
}

/** Writes what has yet to come into the field. */
function writeChoices() {
  if (choicesField.unwritten !== null) putChoices(choicesField.unwritten);
}

/** Notes whether the field is in sight. */
function seeChoices(isInSight) {
  choicesField.isInSight = isInSight;
  if (isInSight) writeChoices();
}

// A field's column of numbers, and the band under its marked line.

const ROWS = { least: 7, most: 16 }; // of the field of a test, which grows with it

/** Gives a test without room beside the settings the whole width, and folds the list. */
function showWidth() {
  const { classList, open } = byId('test-part'), field = byId('test'), key = `${Math.max(...field.value.split('\n').map(line => line.length))} ${innerWidth}`;
  if (!open || field.dataset.room === key) return;
  const wasWide = classList.contains('wide'), top = scrollY; // to ask for it lays the page out
  field.dataset.room = key;
  classList.remove('wide');
  if (classList.toggle('wide', field.scrollWidth > field.clientWidth) && !wasWide) byId('library').open = false;
  if (wasWide) scrollTo(0, top);
}

function placeAll() {
  showWidth();
  for (const id of ['test', 'given']) placeLines(id);
}

/** Draws the numbers of a field's lines, and marks this one, or none: in sight, where it wasn't typed. */
function drawLines(id, marked) {
  const field = byId(id), [gutter, band] = [byId(id + '-lines'), byId(id + '-band')];
  if (id === 'test') showWidth();
  const count = countLines(field.value), key = `${count} ${marked}`;
  const isTyped = Math.abs(field.value.length - gutter.dataset.size) < 3;
  gutter.dataset.size = field.value.length;
  if (gutter.dataset.key === key) return;
  gutter.dataset.key = key;
  if (id === 'test') field.rows = Math.min(ROWS.most, Math.max(ROWS.least, count));
  const numbers = (from, to) => times(Math.max(0, to - from + 1), at => `${from + at}\n`).join('');
  if (marked === null || marked > count) fill(gutter, numbers(1, count));
  else fill(gutter, numbers(1, marked - 1), html('span', 'refused', `▶${marked}\n`), numbers(marked + 1, count));
  band.hidden = marked === null || marked > count;
  band.dataset.line = marked ?? '';
  placeLines(id);
  const from = parseFloat(band.style.top), high = field.clientHeight;
  if (!isTyped && !band.hidden && (from < 0 || from > high - 24)) field.scrollTop += from - high / 2;
}

/** Keeps numbers and band beside their lines while the field is scrolled. */
function placeLines(id) {
  const field = byId(id), band = byId(id + '-band');
  const pitch = parseFloat(getComputedStyle(field).lineHeight), above = parseFloat(getComputedStyle(field).paddingTop);
  byId(id + '-lines').scrollTop = field.scrollTop;
  band.style.top = `${above + (Number(band.dataset.line) - 1) * pitch - field.scrollTop}px`;
  band.style.height = `${pitch}px`;
  band.style.setProperty('--left', `${-field.scrollLeft}px`);
}

/** Where a refusal is: the field, and its line or word. Of an open bracket the hint has its line. */
function placeOfRefusal(line, hint = '') {
  const found = /^Refused (test|order) line (\d+) |^Refused choices word (\d+) /.exec(line);
  if (!found) return null;
  return found[3] ? { field: 'choices', word: Number(found[3]) }
    : { field: found[1] === 'order' ? 'given' : 'test', line: Number(/closes the \( of line (\d+)/.exec(hint)?.[1] ?? found[2]) };
}

/** A cell's text as hints quote it: with a space for each tab. */
const plainCell = text => text.trim().replaceAll('\t', ' ');

/** The cells of a row of programs, each with its text and where that begins. */
const cellsOf = line => cellsIn(line.replace(/;.*$/, ''));

/** The same of a row without its end. */
function cellsIn(row) {
  let from = 0;
  return row.split('|').map((text, core) => {
    const cell = { text: plainCell(text), from: from + text.length - text.trimStart().length, core };
    from += text.length + 1;
    return cell;
  });
}

/** A hint with the whole of the cell that it quotes cut off. */
const inFull = (hint, line) => hint.replace(/'([^']+?)\.\.'/, (all, cut) => `'${cellsOf(line).find(({ text }) => text.startsWith(cut))?.text ?? cut}'`);

/** The cell at fault: the hint begins with it, or `ask` finds it, or the hint begins with a word of it alone; else null. */
function cellAtFault(line, hint, ask = () => []) {
  if (/^X86|^\s*\{|\}\s*$/.test(line) || !/[|;]/.test(line) || quantifierOf(line) !== null) return null; // no row of programs
  const said = hint.replace(/^hint: (line \d+: )?'?/, ''), [word] = said.split(/[\s:,]/), cells = cellsOf(line).filter(({ text }) => text !== '');
  const quoted = cells.filter(({ text }) => said.startsWith(text) && !/\w/.test(said[text.length] ?? ''));
  const commaless = said.startsWith('no comma') ? cells.filter(({ text }) => /^\S+\s+[^\s,]+\s+[^,]+$/.test(text)) : [];
  const having = cells.filter(({ text }) => text.toLowerCase().split(/\W+/).includes(word.toLowerCase()));
  return [said.includes('too many') ? quoted.slice(0, 1) : quoted, commaless].find(found => found.length === 1)?.[0] ?? [ask(), having].find(found => found.length === 1)?.[0] ?? null;
}

/** Underlines the cell at fault in the band of its line. */
function markCell(cell) {
  const band = byId('test-band');
  band.dataset.from = cell?.from ?? 0;
  fill(band, ...(cell === null ? [] : [html('span', {})]));
  if (cell === null) return;
  const [mark] = band.children;
  mark.style.left = `${cell.from}ch`;
  mark.style.width = `${cell.text.length}ch`;
}

/** The refused word of the choices, as it is written. */
function wordAt(text, number) {
  return text.split(/[ \t\n\r]+/).filter(word => word !== '')[number - 1];
}

/** What is refused of the choices, in plain words. */
function plainChoice(number, name) {
  const word = wordAt(choicesText(), number)?.slice(0, 40) ?? '', why = CHOICE_FAULTS[name]?.(word);
  return why ? `${choicesText().includes('seed') ? 'Word' : 'Choice'} ${number}, ${word}: ${why}.` : '';
}

/** What is refused, in plain words: line, core, and why. */
function plainRefusal(place, cell, line, hint) {
  const name = line.trim().split(' ').at(-1), why = pageHint(hint).replace(/^hint: (line \d+: )?/, '') || 'this can\'t be read';
  if (place?.word) return plainChoice(place.word, name);
  if (place?.line === undefined) return '';
  return `${place.field === 'given' ? 'Order, line' : 'Line'} ${place.line}${cell?.core === undefined ? '' : `, P${cell.core}`}${/^ ?needs/.test(why) ? '' : ':'} ${why.trim().replace(/\bas 0:E/, `as ${cell?.core ?? 0}:E`)}.`;
}

/** Puts the caret where a line is marked, and brings it into sight. */
function focusRefusal() {
  const field = byId(byId('given-band').hidden ? 'test' : 'given'), band = byId(field.id + '-band'), { line, from = 0 } = band.dataset;
  const at = field.value.split('\n', line - 1).join('\n').length + (line > 1) + Number(from);
  field.setSelectionRange(at, at);
  field.blur(); // focus shows the caret
  field.focus();
  for (const part of [byId('told'), band]) bringNear(part);
}

/** Hints that name what is certain to be meant, with what is changed, and to what. */
const CELL = /^'?(.+?)'?(?=: | is).*(?:: write|one step:|word write) ((?:LOCK )?[A-Z]+(?: [^\s;]+)?)(; leave out the ;.*)?\s*$/, SIGNS = { '&': '/\\', a: '/\\', '|': '\\/', o: '\\/', '=': '=' };
const STEPS = /(?:three cells: (MOV \S+) {2}(.+?) {2}(MOV \S+), with a free|: write (MOV \S+), and in the next cell (MOV \S+|MFENCE),)/;
const REPAIRS = [
  [/^(\w+) (?:is no register|has 64 bits).*write (\w+)\s*$/, ([, word, other]) => [new RegExp(`\\b${word}\\b`, 'gi'), other]],
  [/^([\w ]+?)(?: is no instruction| isn't read)?: write (~?exists|forall|[A-Z]+)\s*$/, ([, word, other]) => [new RegExp(`\\b${word}\\b`, 'gi'), other]],
  [/^(; stands behind )?fence\b/i, () => [/(?<=(^|\|)\s*)fence(\s*;(?=.*[|;]))?(?=\s*([|;]|$))/gi, 'MFENCE']],
  [/^(no comma|an operand is missing|(; ends a row|'[.:]'): a comma)/, () => [/(?<=(?:^|\|)\s*)((?:LOCK +)?(?!LOCK)[A-Z]+ +(?:\[\w+\]|\w+))(?: *[.:;] *| +|(?=[[$])|(?<=\]))(\[\w+\]|\$?-?\w+)(?=\s*(?:[|;]|$))/gi, '$1,$2']],
  [/^(?!e..\b|r|[a-d][xhl]\b)([a-z_]\w*) is none of/, ([, word]) => [new RegExp(`(?<=(?:^|\\|)\\s*)(MOV +\\w+) +(${word})(?=\\s*(?:[|;]|$))`, 'gi'), '$1,[$2]']],
  [/^no [[\]] (closes|stands before)/, () => [/\[+(\w+)[)}]?(?=\s*(?:[,|;]|$))|(?<![\w[])\(?(\w+)\]|(\[\w+\])\]+/g, (all, open, name, whole) => whole ?? `[${open ?? name}]`]],
  [/^a comma stands behind/, () => [/([^\s|]+),\s*(?=[|;]|$)/g, '$1 ']],
  [/^'([^\w\s])' can't stand here/, ([, sign]) => [new RegExp(`(?<=^[^\\${sign}]*)[^\\s|]*\\${sign}(?=[^\\${sign}]*$)`), part => part.slice(0, -1)]],
  [/^an instruction has two operands and one comma/, () => [/([^\s|]+),(?:\s*,)+\s*([^\s|]+)/g, '$1,$2']],
  [/^(\w+): write a space behind (\w+)/, ([, word, name]) => [new RegExp(`\\b${word}\\b`, 'gi'), `${name} ${word.slice(name.length)}`]],
  [/^; stands twice/, () => [/;(?:\s*;)+/, ';']],
  [/^no ; ends th(is|e) row/, () => [/\s*$/, ' ;']],
  [/^('[&|=]'|and|or): in a condition/, () => [/&&?|\|\|?|==|\b(?:and|or)\b/g, ([first]) => SIGNS[first]]],
];
const MOST_REPAIRED = 256; // as many cells as a test has

/** A test without types in its initial state. */
const untyped = test => test.replace(/\{[^}]*\}/, block => block.replace(/(?:\b[a-z_]\w*\s+)+([\w:]+\s*;[ \t]*\n?|(?=\[?[\w:]+\]?\s*=))/gi, ''));

const PLAIN_REGISTERS = ['EAX', 'EBX', 'ECX', 'EDX', 'ESI', 'EDI'];

/** The first and the last line of the programs of a test. */
const spanOf = lines => [lines.findIndex(line => /^\s*P\d+\s*[|;]/.test(line)), lines.findLastIndex(line => /;\s*$/.test(line))];

const freeRegister = used => PLAIN_REGISTERS.find(each => !new RegExp(`\\b[ER]?${each.slice(1)}\\b`, 'i').test(used));

/** A test with a free register for one as R8D, or null. In the condition its bare name is meant, too, where `written` has it in no other core or location. */
function renamed(given, at, name, written) {
  const [first, last] = spanOf(given);
  const named = new RegExp(`\\b${name.replace(/^(r\d+)d?$/i, '$1d?')}\\b`, 'gi'), core = cellsOf(given[at]).findIndex(({ text }) => text.search(named) >= 0), places = new RegExp(`\\b${core}:\\w+`, 'g');
  const asked = given.findIndex(line => quantifierOf(line) !== null), bare = new RegExp(`(?<![\\w:[])${name}\\b`, 'gi');
  const isMeant = asked >= 0 && !new RegExp(`[[{;] *${name}\\b`, 'i').test(written) && written.split('\n').slice(first + 1, asked).flatMap(cellsOf).every(each => each.core === core || each.text.search(named) < 0);
  const lines = given.map((line, row) => (isMeant && row >= asked ? line.replace(bare, `${core}:$&`) : line));
  let changed = '';
  const write = become => lines.map((line, row) => (row > first && row <= last ? line.split('|').map((part, column) => (column === core ? become(part) : part)).join('|') : line.replace(places, become))).join('\n');
  write(part => { changed += part; return part; });
  const free = freeRegister(changed);
  return free && core >= 0 ? { text: write(part => part.replace(named, free)), isOther: true, said: `P${core}: ${name} became ${free}` } : null;
}

/** A hint, or one of the line that it means, where that is a row which lacks its ; alone; or that of a listing. */
function rowHint(test, hint) {
  if (/line \d+: (no line begins|this is (?!an as|a dis))/.test(hint) && isListing(test)) return 'hint: line 1: instructions alone';
  const [said, number] = /^hint: line (\d+): (?:no ; (?:or \||ends the row of cores)|a condition begins with|'\|' begins this row|\w+ begins a row as in C)/.exec(hint) ?? [], lines = test.split('\n');
  const head = lines.findIndex(line => /^\s*P0\b/.test(line)), at = said?.includes('cores') ? head : number - 1, line = lines[at] ?? '';
  const isRow = head >= 0 && at >= head && cellsOf(line).length === cellsOf(lines[head]).length && /^[\s|]*[a-z][\w\s|$[\],=]*$/i.test(line);
  return isRow ? `hint: line ${at + 1}: no ; ends this row ` : hint;
}

/** A test with a cell as several instructions in as many rows, by a free register of the core; else null. */
function spread(test, at, [, ...steps], named, cell) {
  const { before, cells, after } = programsIn(test) ?? {}, place = at - before?.length, core = cells?.[place]?.indexOf(cell) ?? -1;
  const column = cells?.map(row => row[core]) ?? [], free = freeRegister([...column, ...test.match(new RegExp(`\\b${core}:\\w+`, 'g')) ?? []].join(' '));
  if (core < 0 || !free) return null;
  const become = steps.filter(Boolean).map(text => text.replace(named, free)), now = [...column.slice(0, place), ...become, ...column.slice(place + 1).filter(text => text !== '')];
  const rows = times(Math.max(cells.length, now.length), row => (cells[row] ?? cells[0].map(() => '')).with(core, now[row] ?? ''));
  return { text: [...before, ...rows.map(row => ` ${row.join(' | ')} ;`), ...after].join('\n'), isOther: true, said: `P${core}: ${cell} became ${listed(become)}` };
}

/** A test with what its hint says, and what became of what; else null. */
function repaired(test, told = '', written = test) {
  const hint = rowHint(test, told);
  const [, number, said = ''] = /^hint: line (\d+): (.*)/.exec(hint) ?? [], at = number - (said.includes('cores in the line before') ? 2 : said.startsWith('no ) closes') ? number - test.trimEnd().split('\n').length + 1 : 1), lines = test.split('\n'), line = lines[at] ?? '';
  const listing = LISTING.test(said) && plainListing(test, said);
  if (listing) return barredIn(listing) ? straight(listing) : listingAsTest(listing);
  if (FRAMELESS.test(said)) return framed(test);
  if (/^X86_64 tests|X86 in place of X86_64/.test(said)) return narrowed(test);
  if (said.includes('is a type') && untyped(test) !== test) return { text: untyped(test), said: 'items without types' };
  const [, foreign] = / is for (\w+): take/.exec(said) ?? [];
  if (foreign) return renamed(lines, at, foreign, written);
  const steps = STEPS.exec(said), [, quoted] = /^'(.+?)':/.exec(inFull(said, line)) ?? [];
  if (steps) return spread(test, at, steps, steps[1] ? said.slice(-3) : steps[5] === 'MFENCE' ? 'none' : 'EAX', quoted);
  const second = /begins a second instruction/.test(said) && cellsRefused(test, number, told)[0]?.text;
  if (second) return spread(test, at, [, ...second.split(SECOND)], 'none', second);
  if (/^this row has/.test(said)) return barsOf(lines, at).mended;
  if (said.includes('is no location of this test: write')) return withCores(test);
  const [, cell, other, isEnded] = CELL.exec(inFull(said, line)) ?? [], cells = cellsOf(line).filter(({ text }) => text === cell), [pattern, change] = [...REPAIRS, ...OTHER_REPAIRS].find(each => each[0].test(said)) ?? [];
  const inCell = part => (plainCell(part) === cell ? part.replace(part.trim(), () => other) : part), [from, to] = cells.length > 0 || !pattern ? [/[^|;]+/g, inCell] : change(pattern.exec(said));
  if (cells.length === 0 && !(pattern && from.test(line))) return null;
  const parts = cells.length > 0 ? [cell] : [...new Set(line.match(from))], isOther = !parts[0].toUpperCase().startsWith(other?.split(' ')[0]);
  const become = cells.length > 0 ? () => other : to, becomes = part => (typeof become === 'string' && !become.includes('$') ? become : part.replace(from, become)).trim();
  const became = part => (part.trim() === '' ? `${to.trim()} was added` : `${part.replace(/ +/g, ' ').trim()} ${becomes(part) ? `became ${becomes(part)}` : 'was left out'}`);
  lines[at] = (isEnded ? line.replace(/;(?=.*[|;])/, '') : line).replace(from, to);
  return { text: lines.join('\n'), isOther, line: at + 1, cores: cells.map(({ core }) => `P${core}`), said: parts.map(became).join(', ') };
}

/** What places became, each kind once, by lines: of many those with another instruction; of a listing by cores. */
function changesSaid(found, isListing) {
  const kinds = new Map();
  for (const { said, line, cores = [] } of found.toSorted((one, other) => Boolean(other.isOther) - Boolean(one.isOther))) kinds.set(said, [...(kinds.get(said) ?? (line ? [line] : [])), ...(isListing ? cores : line ? [line] : [])]);
  const all = [...kinds], more = all.splice(MOST_SAID).length;
  return `${all.sort(([, [one = 0]], [, [other = 0]]) => one - other).map(([said, [, ...places]]) => (places.length === 0 ? said : `${isNaN(places[0]) ? '' : places.length > 1 ? 'lines ' : 'line '}${listed([...new Set(places)])}: ${said}`)).join('; ')}${more > 0 ? `; and ${more} more` : ''}. `;
}

/** A test's programs as cells, and the lines around them; null where a row isn't plain. */
function programsIn(test) {
  const lines = test.split('\n'), [first, last] = spanOf(lines), rows = lines.slice(first, last + 1), cells = rows.map(line => cellsOf(line).map(each => each.text));
  if (first < 0 || last < first || rows.some((line, at) => /\(\*|;.*;|^[^;]*$/.test(line) || cells[at].length !== cells[0].length)) return null;
  return { before: lines.slice(0, first), cells, after: lines.slice(last + 1) };
}

/** A test whose programs have their columns aligned; as it is where a row isn't plain. */
function aligned(text) {
  const { before, cells, after } = programsIn(text) ?? {}, widths = cells?.[0].map((_, core) => Math.max(...cells.map(row => row[core].length)));
  return cells ? [...before, ...cells.map(row => ` ${row.map((cell, core) => cell.padEnd(widths[core])).join(' | ')} ;`), ...after].join('\n') : text;
}

/** Programs in capitals, but for locations, which stand in brackets; numbers with a `$`. */
const inOneForm = text => text.replace(/^.*;$/gm, row => row.replace(/(?<!\[)\b\w+|, /g, part => part.trim().toUpperCase()).replace(/,(?=[-\d])/g, ',$$'));

/** A condition over what a test loads and keeps, each 0; else what it changes, each 1; else none. */
function conditionOver(test) {
  const ends = readTest(test).programs.flatMap((program, core) => [...new Map(program.flatMap(text => writtenBy(text).map(name => [`${core}:${name}=0`, text])))]);
  const loaded = ends.filter(([, text]) => text.includes('[')).map(([asks]) => asks), changed = [...new Set(test.match(/\w+(?=\],E)/g))].map(name => `${name}=1`);
  const asks = loaded.length > 0 ? loaded : changed;
  return asks.length > 0 ? `exists (${asks.join(' /\\ ')})\n` : '';
}

/** A test with all that is certain, and its answer's status. */
function allRepaired(text, hint, options = { command: 'run' }) {
  const changes = [];
  let written = text; // with its frame
  let quotes = new Map(); // of cells that were changed before they are quoted
  let status = REFUSED;
  for (let found = repaired(text, hint, written); found !== null && changes.length < MOST_REPAIRED; found = repaired(text, hint, written)) {
    ({ text } = found);
    if (found.isFrame) written = text;
    found.said = found.said.replace(/^.*?(?= became )/, cell => quotes.get(cell) ?? cell);
    quotes = found.quotes ?? quotes;
    changes.push(found);
    ({ hint, status } = asked(options, text));
  }
  return { text, changes, status, hint };
}

/** Writes what is certain to be meant, up to a mistake that leaves a choice: one edit. */
function writeRepairs() {
  const field = byId('test'), { options } = readSettings('run');
  notice.test = null; // what was said of it goes
  const isListing = LISTING.test(rowHint(field.value, bench.answer.hint)), { text, changes, status } = allRepaired(field.value, bench.answer.hint, options);
  const isTest = status !== REFUSED && (isListing || (changes[0].isFrame && quantifierOf(text) === null)), askedFor = isTest ? conditionOver(text) : '';
  const isLoose = aligned(field.value) !== field.value, isOne = isLoose && changes.length === 1 && changes[0].line;
  undoing.field = null;
  field.focus();
  field.select();
  document.execCommand('insertText', false, (isOne ? text : aligned(isTest ? inOneForm(text) : text)) + askedFor); // the field can undo it
  const said = `Written: ${isLoose && !isOne ? 'columns lined up; ' : ''}${changesSaid(changes, isListing)}Ctrl+Z takes it back. ${askedFor && `The last line asks: ${conditionAsked(inputOf('sweep')).replace(/^C/, 'c')} Change it if you ask something else. `}`, isRefused = bench.answer?.status === REFUSED;
  if (isRefused) focusRefusal();
  else notice.said = said + noticeOf(inputOf('sweep')); // while the test is the same
  putText(query('.noticed'), isRefused ? said : notice.said);
}

/** A sentence with its code as code. */
const withCode = said => said === '' ? [] : said.split(/(\B'[^']+'(?=:| )|(?:\bLOCK )?\b[A-Z]{2,7} (?=\S*[[$,])\S*[^\s.:;,]|\bMFENCE\b|\d:E[A-Z]{2}(?:=\d+)?|\B;(?= at| behind|\.))/)
  .map((part, at) => (at % 2 ? html('code', {}, part.replace(/^'(.*)'$/, '$1')) : part));

/** Marks what is refused, or nothing, and says it in plain words. */
function markRefusal({ text, hint: given }) {
  const test = testNow(), told = given ?? '', hint = rowHint(test, told), line = hint === told ? text : text.replace(/line \d+/, /line \d+/.exec(hint));
  const listing = LISTING.test(hint) && plainListing(test, hint), made = allRepaired(test, hint), isMade = made.status !== REFUSED;
  const place = (FRAMELESS.test(hint) && strangeIn(test)) || (listing && ((!isMade && unreadIn(listing, made)) || barredIn(listing))) || placeOfRefusal(line, hint), written = test.split('\n')[place?.line - 1] ?? '';
  const said = withFree(inFull(hint, written), made.changes[0]), head = spanOf(test.split('\n'))[0], cell = place?.field === 'test' && head >= 0 && place.line > head ? cellAtFault(written, said, () => cellsRefused(test, place.line, told)) : null;
  const before = place?.field === 'test' ? query('.writing .noticed') : byId('given-part');
  if (before.nextElementSibling !== byId('told')) before.after(byId('told')); // next by Tab
  const isOffered = place?.field === 'test' && (!place.said || listing) && made.changes.length > 0 && (isMade || !listing);
  const [, offered] = (isOffered && OFFERED.find(([theirs]) => theirs.test(hint))) || [];
  const plain = place?.said ?? (offered ? `Line ${place.line}: ${offered}.` : plainRefusal(place, cell, line, said)), [named] = /^(Order, l|L)ine \d+|/.exec(plain);
  fill(byId('plain'), ...(named && [html('button', {}, named)]), ...withCode(plain.slice(named.length)));
  putClass(byId('told'), 'by-hint', place?.line !== undefined);
  for (const id of ['test', 'given']) drawLines(id, place?.field === id && place.line ? place.line : null);
  markCell(cell);
  for (const id of ['test', 'choices', 'given']) byId(id).ariaInvalid = place?.field === id;
  byId('remove-choices').hidden = !place?.word;
  showAskable(place?.field !== 'test');
  byId('write-so').hidden = !isOffered;
  offerRepairs(test, made, !isOffered ? '' : place.said ? 'Leave these lines out' : listing && 'Write it as a test');
}

/** Of a test with an error nothing can be asked, as each button says. */
function showAskable(canBe) {
  for (const button of queryAll('#asks-here button, #driving > .main, #begin')) {
    button.disabled = !canBe;
    button.title = canBe ? '' : 'First mend the error in the test';
  }
  byId('way-back').hidden ||= !canBe;
}

/** Removes choices that are refused, which shows the machine again. */
function removeChoices() {
  putChoices('');
  answerNow(true);
  focusOn(byId('choices'));
}

on(byId('plain'), 'click', ({ target }) => target.matches('button') && focusRefusal());
