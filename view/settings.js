'use strict';

// What is set: the command, the machine, and what a sweep, counts or a search go by.

const OF_MACHINE = ['protocol', 'bus', 'depth', 'sets', 'ways', 'words'], OF_SEEDS = [...OF_MACHINE, 'from', 'seeds', 'length'];

/** Which settings each command looks at; the others are out of sight. */
const SETTINGS = {
  run: OF_MACHINE,
  outcomes: ['searched', 'states'],
  sweep: OF_SEEDS,
  counts: OF_SEEDS,
  check: [],
  witness: ['depth'],
  tables: ['protocol'],
  why: ['model', 'cases'],
};
const CHOSEN = ['protocol', 'bus', 'model'];
/** What the button says that begins a long command. */
const BEGINS = { outcomes: 'Find all outcomes', sweep: 'Run the seeds', counts: 'Count the runs', why: 'Why can or can\'t it be?' };
/** The settings by the page's names: `searched` is the depth of a search, with a default of its own. */
const SET_AT_FIRST = { ...Tso.DEFAULTS, searched: 32 };
const SET_NAMES = [...OF_SEEDS, 'searched', 'states', 'model', 'cases'];

/** The command of a name, or `run` where there is none, or none that this module answers. */
const commandOf = name => (Object.hasOwn(SETTINGS, name) && query(`#commands input[value=${name}]`) ? name : 'run');

const settingOf = name => byId('set-' + name);

function currentCommand() {
  return commandOf(query('#commands input:checked')?.value);
}

/** Whether a setting's field holds a value within its limits. */
function isSet(name) {
  return CHOSEN.includes(name) || (settingOf(name).value !== '' && settingOf(name).validity.valid);
}

const valueOf = name => (CHOSEN.includes(name) ? settingOf(name).value : Number(settingOf(name).value));

/** The module's options, or a sentence where a number is outside its limits. */
function readSettings(command) {
  const wrong = SETTINGS[command].find(name => !isSet(name));
  if (wrong) return { wrong: `${labelText(wrong)}: this has to be a whole number from ${settingOf(wrong).min} to ${settingOf(wrong).max}.` };
  const options = { command };
  for (const name of SETTINGS[command]) options[name === 'searched' ? 'depth' : name] = valueOf(name);
  if (command === 'outcomes' && quantifierOf(inputOf(command)) === null) options.show = 'registers'; // not locations alone
  if (command === 'witness' && options.depth === 0) return { wrong: `${labelText('depth')}: a witness needs at least 1.` };
  return { options };
}

const labelText = name => query(`label[for=set-${name}]`).textContent;

/** Shows the settings of a command, and the text that it reads after the test. */
function showSettings(command) {
  const { options } = readSettings(command), isPlain = ['run', 'sweep'].includes(command) && options && !showsCaches([options]);
  for (const name of SET_NAMES) settingOf(name).closest('.setting').hidden = !SETTINGS[command].includes(name) || (isPlain && SETTINGS_OF_CACHES.includes(name));
  byId('caches-note').hidden = !isPlain;
  byId('settings').hidden = SETTINGS[command].length === 0;
  byId('choices-part').hidden = command !== 'run';
  byId('given-part').hidden = !readsOrder(command);
  byId('begin').hidden = !Object.hasOwn(BEGINS, command);
  byId('begin').textContent = BEGINS[command] ?? '';
}

/** The settings that aren't the defaults, for an address or a command line. */
function changedSettings() {
  return SET_NAMES.filter(name => isSet(name) && valueOf(name) !== SET_AT_FIRST[name]).map(name => [name, String(valueOf(name))]);
}

/** Puts settings into the fields, and the default of each other or where no field takes a value. */
function putSettings(pairs) {
  const given = new Map(pairs);
  for (const name of SET_NAMES) {
    const field = settingOf(name);
    field.value = given.get(name) ?? SET_AT_FIRST[name];
    if (field.value === '' || !field.validity.valid) field.value = SET_AT_FIRST[name];
  }
}

/** What an example or an answer's run set: each value, and the one that comes back with another test. */
const lent = new Map();

function lendSetting(name, value, own) {
  lent.set(name, { value: String(value), own: lent.get(name)?.own ?? String(own) });
  settingOf(name).value = value;
}

/** Takes settings back that the reader's hand didn't set. */
function takeBackLent() {
  for (const [name, { value, own }] of lent) if (settingOf(name).value === value) settingOf(name).value = own;
  lent.clear();
}

const ASKED_BY_BUTTONS = ['run', 'outcomes', 'why'];

/** Chooses a command, with the fold open where no button asks the same. */
function putCommand(name) {
  const choice = query(`#commands input[value=${commandOf(name)}]`);
  choice.checked = true;
  if (!ASKED_BY_BUTTONS.includes(choice.value)) byId('rarer').open = true;
  showSettings(commandOf(name));
}

/** The line that stands for the folded test: its name; where another command is chosen than run, that with its machine. */
function showTestLine(command) {
  const { options = Tso.DEFAULTS } = readSettings(command);
  const on = !SETTINGS[command].includes('bus') ? '' : showsCaches([options]) ? machineTitle(options) : plainMachineName(options);
  putText(byId('test-line'), testName() + (isLecture() || command === 'run' ? '' : ` · ${[command, on].filter(Boolean).join(', ')}`));
}

/** The words of the command line that asks the same. */
function commandWords(command) {
  const { options = { command } } = readSettings(command);
  const changed = Object.entries(options).filter(([name, value]) => {
    const usual = command === 'outcomes' && name === 'depth' ? SET_AT_FIRST.searched : Tso.DEFAULTS[name];
    return name !== 'command' && value !== usual;
  });
  const instructions = bench.hasLargerSet && command !== 'tables' ? ['--instructions', 'all'] : [];
  const form = byId('as-json').checked && !byId('formats').hidden ? ['--json'] : [];
  return ['./tso', command, ...form, ...instructions, ...changed.flatMap(([name, value]) => ['--' + name, String(value)])].join(' ');
}

/** The whole line for a shell, with the file that *Save the input* makes. */
function commandLine(command) {
  if (command === 'tables') return commandWords(command);
  const file = inputName(command), { places } = command === 'outcomes' ? withPlaces(inputOf(command)) : {};
  const note = places?.length > 0 ? ` # with ${listed(places)} named in the condition` : '';
  return `${commandWords(command)} < ${/^[\w.+-]+$/.test(file) ? file : `'${file.replaceAll('\'', '\'\\\'\'')}'`}${note}`;
}
