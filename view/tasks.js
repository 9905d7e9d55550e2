'use strict';

// Long work: in a worker, which can be stopped.

/** The numbers by which these commands limit their work: a search is asked with low ones first, so that it tells how far it came. */
const LIMIT_OF = { outcomes: 'states', why: 'cases' };
const CLIMB = { by: 8, from: 2000 };

/** A question with ever higher limits, the last of them its own. Up to an answer that is whole they all give the same. */
function climbed(options) {
  const name = LIMIT_OF[options.command], most = options[name] ?? Tso.DEFAULTS[name];
  if (name === undefined) return [options];
  const rungs = [{ ...options, [name]: most }];
  for (let at = Math.floor(most / CLIMB.by); at >= CLIMB.from; at = Math.floor(at / CLIMB.by)) rungs.unshift({ ...options, [name]: at });
  return rungs;
}

/** The worker's whole script. */
const WORK = `'use strict';
${Tso}
const LIMIT_OF = ${JSON.stringify(LIMIT_OF)};
function climb(tso, rungs, input, before) {
  const limits = rungs.map(options => options[LIMIT_OF[options.command]]), [{ command }] = rungs, most = limits.at(-1), pass = before.length;
  if (pass > 0 && rungs.length > 1) postMessage({ progress: { command, pass, before, count: 0, next: limits[0], most } });
  for (const [at, options] of rungs.slice(0, -1).entries()) {
    const answer = tso.answer(options, input);
    if (answer.status !== Tso.STATUS.unended) return answer;
    postMessage({ progress: { command, pass, before, count: limits[at], next: limits[at + 1], most, answer } });
  }
  return tso.answer(rungs.at(-1), input);
}
onmessage = async ({ data: { bytes, questions, input } }) => {
  try {
    const tso = await Tso.of(bytes);
    const answers = [];
    for (const rungs of questions) {
      const { after } = rungs[0];
      answers.push(after === undefined || after === answers[0].status ? climb(tso, rungs, input, answers) : null);
    }
    postMessage({ answers });
  } catch (fault) {
    postMessage({ fault: String(fault) });
  }
};
`;

/** The one address that is ever made into a script: that of a blob of this page, with the text above. */
const workerPolicy = window.trustedTypes?.createPolicy('worker', {
  createScriptURL(address) {
    if (!address.startsWith('blob:')) throw new TypeError('only a blob is a worker here');
    return address;
  },
});

/** Begins to answer questions (options) on an input: `answers` is a promise, never kept after `stop`. One with a status as its `after` is asked where
 * the first answer has that, else answered by null. `tell` is told how far the work came, with the last answer and those `before` it. */
function beginTask(bytes, questions, input, tell = () => {}) {
  const address = URL.createObjectURL(new Blob([WORK], { type: 'text/javascript' }));
  const worker = new Worker(workerPolicy?.createScriptURL(address) ?? address);
  const stop = () => {
    worker.terminate();
    URL.revokeObjectURL(address);
  };
  const answers = new Promise((done, failed) => {
    worker.onmessage = ({ data }) => {
      if (data.progress) return tell(data.progress);
      stop();
      if (data.fault) failed(new Error(data.fault));
      else done(data.answers);
    };
    worker.onerror = event => {
      stop();
      failed(new Error(event.message || 'the worker failed'));
    };
    worker.postMessage({ bytes, questions: questions.map(climbed), input });
  });
  return { answers, stop };
}
