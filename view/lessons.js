'use strict';

// The lessons, as plain data: docs/PAGE.md says how one writes others. A file with such a list as JSON, dropped on the page, adds them.

const LESSONS = [{
  name: 'store-buffering', title: 'Can both loads read 0?', text: 'store-buffering.litmus',
  steps: [
    { say: 'P0 and P1 are two cores. P0 stores 1 to x, then loads y into its register EAX. P1 stores 1 to y, then loads x. At first x and y are 0. Beside each instruction is the same in C.' },
    { ask: 'Can both loads read 0 in one run? What do you think?', answers: ['Yes', 'No'], because: 'We try it, step by step.' },
    { do: '0s', say: 'Let P0 take its first step.', look: 'picture', then: 'The store x=1 waits in P0\'s store buffer. Memory still has x=0. Under “Memory order” it is the bar. Its name P0:0 says: instruction 0 of P0. Programs count from 0.' },
    { do: '1s', say: 'Now P1\'s first step.', then: 'The store y=1 waits in P1\'s buffer until it drains: then it goes to memory. Memory still has 0 for both.' },
    { ask: 'P0\'s next step loads y. What will this load read?', answers: ['0', '1'], right: '0', because: 'Only P1 can see what is in its buffer. Memory has y=0.' },
    { do: '0s', say: 'Let P0 load y.', then: 'P0 read y=0. Its store still waits, so the load passed it.' },
    { look: 'picture', say: 'The picture shows what memory has seen, from top to bottom. R is a load, and the circle is the 0 that y had at first. P0:1 names the load: instruction 1 of P0.' },
    { ask: 'P1\'s next step loads x. What will it read?', answers: ['0', '1'], right: '0', because: 'The store x=1 has not left P0\'s buffer. Memory has x=0.' },
    { do: '1s', then: 'P1 read x=0. So both loads have read 0.' },
    { ask: 'Two stores still wait. When they drain, can EAX of P0 or of P1 still change?', answers: ['Yes', 'No'], right: 'No', because: 'A load reads once. A drain changes only memory.' },
    { do: '0d', look: 'picture', then: 'Memory has x=1 now. W is the store, and the bar says how long it had waited.' },
    { do: '1d', say: 'And P1\'s store. Here you choose when: a processor drains a store when it likes.', look: 'picture', then: 'The memory order has both loads above both stores, although each program has its store first.' },
    { show: 'outcomes', say: 'So yes, both loads can read 0. What else can come out? Press “Find all outcomes”: proved code finds them all, whatever the order of steps and drains.' },
    { say: 'There are four. The one marked “TSO alone” needs store buffers. Without them each store is in memory at once. That is sequential consistency (SC): at least one load reads 1.' },
    { say: 'What you can say now\n• Both loads can read 0: each store waits in its core\'s buffer, and the load passes it.\n• TSO, the memory order of x86 processors (Intel, AMD), lets a later load pass a store, and nothing else.\n• Without store buffers (SC) it can\'t be.', also: { to: 'fences', says: 'Skip to lesson 2: The same with fences' } },
    { test: 'X86 OWN\n{ x=0; }\n P0          | P1          ;\n MOV [x],$1  | MOV EAX,[x] ;\n MOV [x],$2  |             ;\n MOV EAX,[x] |             ;\n', title: 'What does a core see of its own stores?', say: 'Another test: P0 stores 1 to x, then 2, and then loads x. What if these stores still wait in its own buffer?' },
    { do: '0s', say: 'P0\'s first store.', then: 'x=1 waits in P0\'s buffer. Memory still has x=0.' },
    { do: '0s', say: 'And its second.', then: 'x=2 waits behind x=1.' },
    { ask: 'P0 loads x now. What will it read?', answers: ['0', '1', '2'], right: '2', because: 'A load takes the newest store to x in its own core\'s buffer, if there is one.' },
    { do: '0s', then: 'P0 read x=2 from its own buffer, though memory has x=0: this is forwarding.' },
    { ask: 'And P1, which loads x too?', answers: ['0', '1', '2'], right: '0', because: 'P1 can\'t look into P0\'s buffer. It reads memory, and that has 0.' },
    { do: '1s', then: 'P1 read x=0. So for a while the two cores see different values at x.' },
    { ask: 'Both stores of P0 still wait. Which one can reach memory first?', answers: ['x=1', 'x=2', 'either'], right: 'x=1', because: 'The buffer is a queue: first in, first out.' },
    { do: '0d', then: 'Memory has x=1. The store x=2 is the oldest one now.' },
    { say: 'What you can say now\n• A load takes the newest store to its location from its own buffer. If there is none, it reads memory.\n• The stores of a core reach memory in the order of its program.\n• That is all of TSO. ARM (phones, new Macs) has another model, weaker than TSO.' },
  ],
}, {
  name: 'fences', title: 'The same with fences: can it still be?', text: 'store-buffering-fenced.litmus',
  steps: [
    { say: 'The first test again, with a fence between store and load: MFENCE, in C atomic_thread_fence(\u200bmemory_order_seq_cst). What does it do, and can both loads still read 0?' },
    { do: '0s', say: 'P0\'s store first.', then: 'The store waits in the buffer, as before.' },
    { do: '1s', say: 'Then P1\'s store.', then: 'Both stores wait. Each core comes to its fence next.' },
    { ask: 'P0\'s next instruction is MFENCE, and x=1 is in its buffer. What if P0 steps now?', answers: ['It goes on', 'It waits'], right: 'It waits', because: 'A fence waits until its core\'s store buffer is empty.' },
    { do: '0d', say: 'So P0 drains first.', then: 'Memory has x=1. P0\'s buffer is empty.' },
    { do: '0s', say: 'Now the fence lets P0 pass.', then: 'What P0 does from here on comes after its store in memory.' },
    { ask: 'P0 loads y next, and P1\'s store still waits in its buffer. What will P0 read?', answers: ['0', '1'], right: '0', because: 'P1\'s store has not reached memory yet.' },
    { do: '0s', then: 'P0 read y=0. For two zeros P1 would have to read 0 too.' },
    { ask: 'P1 must drain, pass its fence, and load x. What will P1 read?', answers: ['0', '1'], right: '1', because: 'Memory got x=1 before P0\'s fence. P1 loads later.' },
    { do: '1d', then: 'Memory has y=1 too, too late for P0\'s load.' },
    { do: '1s', say: 'P1\'s fence.', then: 'P1 may load now.' },
    { do: '1s', say: 'And its load.', then: 'P1 read x=1. This run does not end with two zeros.' },
    { show: 'why', say: 'One run can\'t show that it never happens. Press “Why can or can\'t it be?”: proved code looks at every case.' },
    { say: 'It can never be. Each load would come before the other core\'s store, since it read the older value (fr, from read). Each store comes before its core\'s load, since a fence stands between (mfence). “Next arrow” shows it arrow by arrow.' },
    { say: 'What you can say now\n• With a fence between store and load on both cores, one load at least reads 1.\n• The reason is a cycle: else a store would come before itself in memory order.' },
    { test: 'X86 SB1F\n{ x=0; y=0; }\n P0          | P1          ;\n MOV [x],$1  | MOV [y],$1  ;\n MFENCE      | MOV EAX,[x] ;\n MOV EAX,[y] |             ;\nexists (0:EAX=0 /\\ 1:EAX=0)\n', title: 'Is one fence enough?', ask: 'Now only P0 has a fence. Can both loads still read 0?', answers: ['Yes', 'No'], right: 'Yes', because: 'It takes only one load that passes its store.' },
    { do: '1s', say: 'P1\'s store.', then: 'The store waits in P1\'s buffer.' },
    { do: '1s', say: 'P1 has no fence, so it loads at once.', then: 'P1 read x=0. Its load passed its store.' },
    { do: '0s', say: 'P0\'s store.', then: 'It waits in P0\'s buffer.' },
    { do: '0d', say: 'P0\'s fence needs it in memory.', then: 'Memory has x=1, too late for P1\'s load.' },
    { do: '0s', say: 'P0\'s fence.', then: 'P0 may load now.' },
    { do: '0s', say: 'And its load.', then: 'P0 read y=0, since P1\'s store still waits. So both loads read 0.' },
    { do: '1d', say: 'P1\'s store drains last.', then: 'Both loads have read 0. A fence in P1 alone is no better, since the cores are alike. So both need one.' },
    { show: 'why', say: 'Where does the other fence belong? Press “Why can or can\'t it be?”.' },
    { say: 'Solid arrows say what must come before what; dashed ones TSO doesn\'t keep. Here it is the one from P1\'s store to its load. A fence there would keep it, as P0\'s does. “Next arrow” shows it arrow by arrow.' },
    { say: 'In C and C++ this fence is atomic_thread_fence(\u200bmemory_order_seq_cst). And x and y have to be atomic (memory_order_relaxed will do), else the compiler may change the order too.' },
    { say: 'What you can say now\n• Both zeros: without fences yes, with one fence yes, with two no.\n• A fence costs the wait for the buffer. So put it only where a load must not pass a store, as in a lock that works by flags.', also: { to: 'from-c', says: 'From C and C++' } },
  ],
}, {
  name: 'false-sharing', title: 'False sharing: one line, two cores', text: 'false-sharing.litmus', caches: true,
  steps: [
    { say: 'Memory is slow. So each core has a cache between its buffer and memory, with copies of parts of it, called lines. Here one line has two words, x and y.' },
    { say: 'If a core\'s cache has what it needs, that is a hit, and fast. If not, it is a miss: the core asks for the line on the bus, which connects all caches, and waits.' },
    { say: 'Each copy has a state. M, modified: the only copy, and newer than memory. S, shared: others may have copies too. I, invalid: no copy. A core may write a line only if it has the only copy. These are the rules of the protocol MSI.' },
    { say: 'P0 only uses x here, and P1 only uses y. But x and y lie in one line. Do the two cores disturb each other?' },
    { do: '0s', say: 'P0 stores x.', then: 'The store waits in the buffer, as before. The caches have nothing yet.' },
    { do: '0d', then: 'A miss: P0 asked on the bus for the line, to write it (GetM). Now P0 has it in state M.' },
    { say: 'Memory still has x=0, with “newest 1” beside it: with caches a drain writes the cache\'s copy, and memory gets the word later. But each core sees the 1 now, since the caches ask one another.' },
    { do: '1s', say: 'P1 stores y.', then: 'This store waits in P1\'s buffer.' },
    { ask: 'P1\'s drain will write y. What happens to P0\'s copy of the line x, y?', answers: ['It stays', 'It is lost'], right: 'It is lost', because: 'P1 needs the only copy.' },
    { do: '1d', then: 'A miss of P1: the line went to P1, and P0\'s x went along. P0\'s copy is invalid now (I).' },
    { do: '0s', say: 'P0 stores x again.', then: 'It waits in the buffer.' },
    { ask: 'P0 had the line before. Will its drain be a hit or a miss?', answers: ['A hit', 'A miss'], right: 'A miss', because: 'P1 took the line. This is false sharing.' },
    { do: '0d', then: 'A miss again: the cores share no variable, but they share the line.' },
    { do: '1s', say: 'P1 loads its own y.', then: 'Another miss, for a word that only P1 uses.' },
    { show: 'abreast', say: 'Press “All four protocols”: the same choices under three more. MESI and MOESI have a state E, exclusive, too: the only copy, as memory has it. What differs from MSI is marked with ≠.' },
    { say: 'MSI and MESI send the line to memory when P1 reads it (a flush). MOESI and MOSI don\'t: P0 keeps it as O, owned, and supplies the words. No protocol takes the false sharing away.' },
    { show: 'apart', say: 'What if each word has its own line? Press “One word in a line”.', then: 'Under each protocol there are 2 misses now, not 4: each core has its own line, and keeps it.' },
    { say: 'What you can say now\n• False sharing: two cores use different words of one line, and each takes the line from the other.\n• No protocol helps. Put words that different cores use into different lines.' },
  ],
}, {
  name: 'compare-and-exchange', title: 'Who gets the lock?', text: 'CASLOCK.litmus',
  steps: [
    { say: 'l is a lock: 0 is free, 1 is taken. Both cores want it. LOCK CMPXCHG [l],EBX reads l and compares it with EAX. If they are the same, it writes EBX to l. EAX gets what was read. All that is one step.' },
    { ask: 'EAX is 0 and EBX is 1 in each core. So each says: if l is 0, make it 1. Can both get the lock?', answers: ['Yes', 'No'], because: 'We try it.' },
    { ask: 'P0 goes first. It will read l=0. What will l be then?', answers: ['0', '1'], right: '1', because: 'The word is the same as EAX, so P0 writes EBX, which is 1.' },
    { do: '0s', then: 'P0 read l=0 and wrote l=1 in one step, in memory at once. Its EAX is 0: it has the lock.' },
    { ask: 'Now P1 tries. What will its EAX be?', answers: ['0', '1'], right: '1', because: 'P1 reads l=1, which is not what EAX has. So P1 leaves l as it is, and EAX gets the 1.' },
    { do: '1s', then: 'P1 read l=1. By the 1 in EAX it knows that it hasn\'t got the lock.' },
    { show: 'why', say: 'Is there a run in which both get it? Press “Why can or can\'t it be?”: proved code looks at every case.' },
    { say: 'No. Both cores would have to read l=0. But no other write comes between the read and the write of a locked instruction: the second one reads what the first one wrote.' },
    { say: 'What you can say now\n• A locked instruction reads and writes in one step, and nothing of it waits in the buffer.\n• So one core alone gets the lock.\n• Locks, stacks and queues are made so: see CMPXCHG in the gallery.' },
  ],
}];

/** The keys of an answer: itself, where all are digits; else the number of its place, and before it y or n. */
function keysOf(answers, at) {
  const isAll = form => answers.every(answer => form.test(answer));
  return isAll(/^\d$/) ? [answers[at]] : [...(isAll(/^(Yes|No)$/) ? answers[at][0].toLowerCase() : ''), `${at + 1}`];
}

const keyOf = (answers, at) => keysOf(answers, at)[0]; // stands at it
