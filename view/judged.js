'use strict';

// What check and tables answer, in words: the order with what breaks an axiom marked, and a protocol's table.

/** What an order has to be, by the letter of the axiom that it breaks. */
const BROKEN = {
  C1: 'each memory action of the programs has to stand in the order exactly once',
  C2: 'a write has to have the value that its program gives it',
  C3: 'entries of one core have to stand in program order; only a plain load may stand before an earlier plain store',
  C4: 'the two parts of a locked instruction have to stand together',
  C5: 'a read has to return the last of the writes to its location that are before it in the order or in its own program. Without such a write, it has to return the initial value',
};

const NAMED_ENTRY = /P\d+:\d+ (?:F|(?:R|W|LR|LW) \S+)/g;

/** What `check` answers: letter, named entries, the value that was due; null where the order isn't refused. */
function readCheck(text) {
  const found = /^Check invalid (C\d) (?:(missing|extra|twice) )?(.*)$/m.exec(text);
  if (!found) return null;
  const [, letter, fault, rest] = found;
  return { letter, fault, named: rest.match(NAMED_ENTRY) ?? [], due: /due=(\d+)/.exec(rest)?.[1] };
}

function checkSentence({ letter, fault, named: [first, second], due }) {
  const said = {
    C1: () => ({ missing: `${first} is missing`, extra: `no program has ${first}`, twice: `${first} stands in it twice` })[fault],
    C2: () => `${first} should write ${due}`,
    C3: () => `${first} stands too late, after ${second}`,
    C4: () => `${first} isn't followed at once by its store part`,
    C5: () => `${first} should return ${due}`,
  };
  return `TSO doesn't allow this order: ${said[letter]()}. The axiom that it breaks (${letter}): ${BROKEN[letter]}.`;
}

/** An order that was refused: a sentence, and the order with the named entries marked. */
function refusedOrder(check, order) {
  const entries = order.split('\n').map(line => line.trim()).filter(line => /^P\d+:\d+ /.test(line));
  const items = entries.map(entry => (check.named.includes(entry) ? html('li', 'named', html('mark', {}, entry), ' ◀ this one') : html('li', {}, entry)));
  return [html('p', { role: 'status' }, checkSentence(check)), html('ol', { class: 'order', 'aria-label': 'The order, with what breaks the axiom marked' }, ...items)];
}

/** A protocol's table, of the lines that `tables` prints. */
function protocolTable(text) {
  const [, protocol] = /^Protocol (\S+)/m.exec(text), [, alone, shared] = /^Fill alone=(\S+) shared=(\S+)/m.exec(text);
  const lines = [...text.matchAll(/^([MOESI]) GetS=(\S+) supplies=(\S+) memory=(\S+) GetM=(\S+) supplies=(\S+) memory=(\S+) write=(\S+) evict=(\S+)$/gm)];
  const seen = (next, supplies, memory) => [`becomes ${next}`, supplies === 'yes' ? 'supplies the words' : '', memory === 'yes' ? 'sends them to memory' : ''].filter(Boolean).join(', ');
  const rows = lines.map(([, state, onRead, supplies, memory, onWrite, supplies2, memory2, write, evict]) => html('tr', {},
    html('th', { scope: 'row' }, withMeaning({ class: `state state-${state}` }, state, state)),
    ...[seen(onRead, supplies, memory), seen(onWrite, supplies2, memory2), write === 'bus' ? 'asks for the bus (GetM)' : `becomes ${write}, without the bus`,
      evict === 'dirty' ? 'is written back to memory' : 'leaves without a write-back'].map(words => html('td', 'prose', words))));
  const fills = `A line that no other cache has comes in as ${alone}. A line that another cache has comes in as ${shared}.`;
  const titles = ['A copy in', 'when another core reads (GetS)', 'when another core writes (GetM)', 'when its own core writes', 'when it has to leave'];
  return [html('p', {}, fills), tableOf(`The protocol ${protocol.toUpperCase()}`, titles, rows)];
}

/** Shows beside a report what it says, where it is one of these. */
function showJudged(command, { status, text }) {
  const check = command === 'check' || command === 'witness' ? readCheck(text) : null;
  if (check) fill(byId('states'), ...refusedOrder(check, byId('given').value));
  else if (command === 'tables' && status === GOOD) fill(byId('states'), ...protocolTable(text));
}
