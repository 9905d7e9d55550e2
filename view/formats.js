'use strict';

// The answer as it is printed, and as JSON. A search was asked for JSON: the other form when somebody wants it.

/** The commands that answer in both forms. */
const IN_BOTH = ['run', 'outcomes', 'counts', 'why'];

/** The forms of the answer that is shown, as far as they are known, and the task that asks for one. */
const formats = { texts: { printed: null, json: null, herd: null }, task: null };

const formatNow = () => (byId('as-json').checked ? 'json' : byId('as-herd').checked ? 'herd' : 'printed');

/** Forgets the forms of another answer; `known` is what the module has said. */
function putFormats(known) {
  formats.task?.stop();
  Object.assign(formats, { texts: { printed: null, json: null, herd: null, ...known }, task: null });
  byId('formats').hidden = !IN_BOTH.includes(currentCommand());
  const isHerds = /^\{"depth":\d+,"observation":\{/.test(known.json);
  byId('as-herd').parentElement.hidden = !isHerds;
  byId('to-report').hidden = byId('report-part').hidden || byId('formats').hidden;
  putText(byId('to-report'), `As text, JSON${isHerds ? ', herd7' : ''}`);
  if (byId('formats').hidden || (!isHerds && byId('as-herd').checked)) byId('as-printed').checked = true;
  byId('report-copied').textContent = '';
  showWordsLine(currentCommand());
}

/** Up to how many states an unended search is known: less than its limit where somebody stopped it. */
const limitMet = () => JSON.parse(formats.texts.json ?? '{}').unfinished?.states;

/** Asks for a form that isn't known: of a run at once, of a search in a worker. */
async function askFormat(name) {
  if (name === 'herd') return inFormOfHerd(JSON.parse(formats.texts.json), inputOf('outcomes'));
  const command = currentCommand(), { options } = readSettings(command), input = searchedInput(command);
  const question = { ...options, states: limitMet() ?? options.states ?? Tso.DEFAULTS.states, json: name === 'json' };
  if (command === 'run') return asked(question, drive.isOn ? driveInput() : input).text;
  const task = formats.task = beginTask(bench.bytes, [question], input), [{ text }] = await task.answers;
  return text;
}

/** What herd7 calls a condition. */
const ASKED_OF_HERD = { exists: 'Allowed', '~exists': 'Forbidden', forall: 'Required' };

/** All outcomes in the form of herd7, of which tools read the lines of states. */
function inFormOfHerd({ test, states, observation: { word, true: yes, false: no }, verdict }, input) {
  const [asks, proposition] = conditionOf(input), quantifier = asks.replace(' ', '');
  const lines = states.map(({ values }) => Object.entries(values).map(([name, value]) => `${name.includes(':') ? name : `[${name}]`}=${value};`).join(' '));
  return `${[`Test ${test} ${ASKED_OF_HERD[quantifier]}`, `States ${states.length}`, ...lines, verdict, 'Witnesses', `Positive: ${yes} Negative: ${no}`,
    `Condition ${quantifier} ${proposition}`, `Observation ${test} ${word} ${yes} ${no}`].join('\n')}\n`;
}

/** JSON in lines, one for each member and for each part of a list of objects. */
function inLines(text) {
  const isLong = value => Array.isArray(value) && value.some(part => typeof part === 'object');
  const lineOf = value => (isLong(value) ? `[\n${value.map(part => `    ${JSON.stringify(part)}`).join(',\n')}\n  ]` : JSON.stringify(value));
  const members = Object.entries(JSON.parse(text)).map(([name, value]) => `  ${JSON.stringify(name)}: ${lineOf(value)}`);
  return `{\n${members.join(',\n')}\n}\n`;
}

/** A form as the page shows it: an object of JSON in lines. */
const laidOut = (text, name) => (name === 'json' && text.startsWith('{') && text.trimEnd().indexOf('\n') < 0 ? inLines(text) : text);

/** The form that is shown, as the program prints it. */
const textShown = () => formats.texts[formatNow()] ?? byId('report').textContent;

/** Shows the answer in the form that is wanted. */
async function showFormat() {
  const { texts } = formats, name = formatNow();
  if (texts[name] === null) {
    if (currentCommand() !== 'run') byId('report').textContent = 'Working …';
    texts[name] = await askFormat(name);
  }
  if (formats.texts !== texts || formatNow() !== name) return;
  byId('report').textContent = laidOut(texts[name], name);
  fill(byId('report-note'), besideNote(name), ...whyNote());
}

/** What the page adds to an answer, which no text of it has; and what is counted in the form of herd7. */
function besideNote(name) {
  if (name === 'herd') return 'It counts outcomes, where herd7 counts executions.';
  const added = byId('states').querySelector('.alone-said, .sequential') ? ['What the page says of sequential consistency, and of cycles, isn\'t in this text.'] : [];
  return [...added, ...(byId('of-c').hidden ? [] : [OF_C]), ...[...queryAll('#states .ways-said')].map(said => said.textContent), currentCommand() === 'why' && textShown().includes('implied') ? '“implied” is “lock” in the picture.' : ''].join(' ').trim();
}

/** Beside a search that met its limit: that the answer to the condition is that of `why`, which no text of the search has. */
function whyNote() {
  const { met = [], unfinished } = JSON.parse(formats.texts.json ?? '{}'), can = currentCommand() === 'outcomes' && unfinished && !isDecided(met) ? knownByWhy() : null;
  if (can === null) return [];
  return [` This is the search alone. That ${endSaid(inputOf('why'), can)} is the answer of “Why”: `, html('button', { class: 'quiet', 'data-ask': 'why' }, `its text has the ${can ? 'run' : 'proof'}`), '.'];
}

/** What stands in the field of the report, as a file. */
function saveFormat() {
  const isJson = formatNow() === 'json';
  saveText(fileName(testName(), isJson ? '.json' : '.txt'), textShown(), isJson ? 'application/json' : 'text/plain');
}

on(byId('to-report'), 'click', () => {
  byId('report-part').open = true;
  byId('report-part').scrollIntoView();
  focusOn(query('#formats :checked'));
});
on(byId('formats'), 'change', () => {
  byId('report-copied').textContent = '';
  showReport();
  showWordsLine(currentCommand());
});
on(byId('copy-report'), 'click', () => copyText(textShown(), '#report-copied', 'Copied.', 'mark the text, and copy it'));
