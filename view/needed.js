'use strict';

// Which fences a test needs that can't be, and which would forbid one that can be.

const MOST_FENCES = 16; // a search each
const MOST_ROUNDS = 4; // of fences that are added
const offers = new Map(); // those that were taken, by their tests

/** A test's fences by core, with their names and places. */
function fencesOf(test, programs) {
  const places = [...test.matchAll(/\bMFENCE(?=\s*[|;])/gi)].map(({ index }) => index), coreAt = place => test.slice(test.lastIndexOf('\n', place), place).split('|').length - 1;
  return programs.flatMap((_, core) => places.filter(place => coreAt(place) === core).map((place, at, { length }) => ({ place, name: `P${core}'s ${length > 1 ? `${ORDINALS[at]} ` : ''}MFENCE` })));
}

/** A button that asks of a test, with what came of it. */
function offerOf(test, words, ask) {
  const button = html('button', 'quiet', words), part = html('div', 'passing', button, ' ', html('strong', { role: 'status' }), html('ul', 'cases'));
  on(button, 'click', () => ask(offers.set(test, part).get(test)));
  return offers.get(test) ?? part;
}

/** The offer to ask it of the sheet's test. */
function neededPart({ told, test, programs }) {
  const fences = fencesOf(test, programs), { length } = programs.flat().filter(text => text === 'MFENCE');
  if (length === 0 || length > MOST_FENCES || length !== fences.length || told.model !== 'tso' || isLesson()) return []; // none in a comment
  return [offerOf(test, 'Which fences does it need?', part => askNeeded(part, test, fences))];
}

/** Asks why of another test, aside: whether it can be (null: it isn't finished), and what was told. What is `said` tells that it was stopped. */
async function askAside(input, said) {
  const search = beginTask(bench.bytes, [{ command: 'why', ...readSettings('why').options, json: true }], input);
  bench.task = { isAside: true, stop: () => putText(said, 'Stopped.', search.stop()) };
  const [{ status, text }] = await search.answers.catch(() => [{}]), told = status === GOOD ? JSON.parse(text) : null;
  return { told, can: told && told.answer !== 'never' };
}

/** A button that makes another test the bench's. */
function openButton(input) {
  const open = html('button', 'quiet', 'Open this test');
  on(open, 'click', () => {
    byId('test').value = input;
    writeOn({ target: byId('test') });
    begin();
  });
  return open;
}

/** What becomes of what a test asks for. */
const endSaid = (test, can, still = '') => (isClaim(test) ? lowered(claimWords(!can)) : can ? 'it can be' : `${still}it can't be`);

/** Before the searches of an offer. */
function beginAside(said, list) {
  stopTask();
  beginWorking();
  byId('states').className = ''; // the answer isn't old
  fill(list);
  putText(said, '');
}

/** After them. */
function endAside() {
  bench.task = null;
  endWorking();
}

/** Asks why of a test without each fence, and without all that can go so. */
async function askNeeded({ children: [, said, list] }, test, fences) {
  const answers = [], ask = async (words, left) => {
    const input = left.reduce((text, { place }) => `${text.slice(0, place)}      ${text.slice(place + 6)}`, test).replace(/^[ \t|]*;\n/gm, '');
    const { can } = await askAside(input, said);
    list.append(html('li', {}, `${words}: ${can === null ? 'not finished' : endSaid(test, can, 'still ')}. `, openButton(input)));
    answers.push(can);
  };
  beginAside(said, list);
  for (const fence of fences) await ask(`Without ${fence.name}`, [fence]);
  const needed = fences.filter((_, at) => answers[at]), spare = fences.filter(fence => !needed.includes(fence)), names = listed(needed.map(({ name }) => name));
  if (spare.length > 1) await ask(names ? `With ${names} alone` : 'Without any MFENCE', spare);
  endAside();
  const isShort = spare.length > 1 && answers.at(-1), are = needed.length > 1 ? 'are' : 'is';
  putText(said, answers.includes(null) ? 'Not all is known.'
    : names === '' ? (isShort ? 'Each can go, but not all of them.' : 'None is needed.')
      : spare.length > 0 ? `${names} ${are} ${isShort ? 'needed, and some of the others' : 'enough'}.` : `${['', names, 'Both'][fences.length] ?? 'All'} ${are} needed.`);
}

/** The offer to ask which fences would forbid what the sheet's test can do, by the arrows of a `cycle` that TSO doesn't keep. */
function forbidPart({ told, test }, cycle) {
  const fences = fencesAt(cycle, []);
  if (fences.length === 0 || told.model !== 'tso' || isLesson() || withFences(test, fences) === null) return [];
  return [offerOf(test, 'Which fence would forbid it?', part => askForbid(part, test, fences))];
}

/** Where fences go for a cycle of a test that has some `added`: each before the load of a dashed arrow, by its place in the first test. */
function fencesAt(cycle, added) {
  const found = cycle.filter(({ relation }) => relation === 'unkept').map(edge => {
    const [store, load] = eventsOf([edge]), { core } = load, before = added.filter(fence => fence.core === core).map(({ place }) => place).sort((one, other) => one - other);
    const place = before.reduce((at, own) => (own < at ? at - 1 : at), load.place);
    return { core, place, name: `on P${core}, after its store of ${store.location} and before its load of ${load.location} (P${core}:${place})` };
  });
  return found.filter(({ core, place }, at) => found.findIndex(each => each.core === core && each.place === place) === at);
}

/** A test with an MFENCE before each of some loads; null where its rows aren't plain. */
function withFences(test, fences) {
  const { before, cells: [head, ...rows], after } = programsIn(test) ?? { cells: [] }, passed = [];
  const isHere = (text, core) => text !== '' && fences.some(fence => fence.core === core && fence.place === passed[core]);
  const fenced = rows.flatMap(row => {
    const added = row.map((text, core) => {
      passed[core] = (passed[core] ?? -1) + (text !== '');
      return isHere(text, core) ? 'MFENCE' : '';
    });
    return added.some(Boolean) ? [added, row] : [row];
  });
  return head ? aligned([...before, ...[head, ...fenced].map(row => `${row.join(' | ')} ;`), ...after].join('\n')) : null;
}

/** Asks why of a test with fences, with those of its answer's cycle too while it still can be; then leaves out each that isn't needed. */
async function askForbid({ children: [, said, list] }, test, first) {
  const { proposition } = readTest(test), isSame = one => other => one.core === other.core && one.place === other.place;
  let fences = [], answer = null, questions = 0;
  const ask = some => {
    questions += 1;
    return askAside(withFences(test, some), said);
  };
  beginAside(said, list);
  for (let round = 0, more = first; round < MOST_ROUNDS && more.length > 0; round += 1) {
    fences = [...fences, ...more];
    answer = await ask(fences);
    more = answer.can ? fencesAt(cycleTold(answer.told, withFences(test, fences), proposition), fences).filter(fence => !fences.some(isSame(fence))) : [];
  }
  let isAll = true; // that was to be left out
  for (const fence of answer.can === false && fences.length > 1 ? [...fences] : []) {
    const fewer = fences.filter(each => each !== fence), { can } = questions < MOST_FENCES ? await ask(fewer) : { can: null };
    if (can === false) fences = fewer;
    isAll &&= can !== null;
  }
  endAside();
  if (answer.can !== false) return putText(said, answer.can === null ? 'Not finished: it isn\'t known.' : 'No such fence was found.');
  const input = withFences(test, fences), end = `${endSaid(test, false)}.${isAll ? '' : ' Fewer may be enough.'} `;
  if (fences.length === 1) return fill(said, html('span', {}, `With an MFENCE ${fences[0].name}: ${end}`), openButton(input));
  fill(said, html('span', {}, `With ${fences.length} MFENCEs: ${end}`), openButton(input));
  fill(list, ...fences.map(({ name }) => html('li', {}, `One ${name}.`)));
}

/** The cycle of an answer that can be, which store buffers alone allow. */
function cycleTold(told, test, proposition) {
  const { programs } = readTest(test), places = proposition === null ? null : wantedWords(proposition);
  return forbiddenCycle(edgesOf(told), programs, [], places === null ? [] : askedPlaces(programs, places, told.coherence));
}
