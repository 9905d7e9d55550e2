'use strict';

// Ways that were left: where a choice in the middle of a run is another than the next one, the rest is kept, and can be taken again.

const MOST_BRANCHES = 6;
const SAID_OF_BRANCH = 8; // choices of a way that its button says

/** The ways of a test on a machine (`key`), each its choices, after how many of them it was left, and whose it is. */
const branches = { key: null, kept: [] };

const keyOfBranches = () => JSON.stringify([drive.test, firstHistory()?.options]);

/** Whether choices begin with all of others. */
const beginWith = (words, others) => others.every((word, at) => words[at] === word);

/** Keeps a way that is left. One that is the beginning of another isn't kept beside it. */
function keepBranch({ words, count }) {
  const key = keyOfBranches(), others = branches.key === key ? branches.kept.filter(other => !beginWith(words, other.words)) : [];
  Object.assign(branches, { key, kept: [{ words, count, whose: words === fromExample.words ? 'the example\'s, ' : '' }, ...others].slice(0, MOST_BRANCHES) });
}

/** The ways that are others than the one that is shown. */
const otherBranches = () => (branches.key === keyOfBranches() ? branches.kept.filter(({ words }) => !beginWith(drive.words, words)) : []);

/** Takes a way again, at the place where it was left; the one that is shown is kept in its place. */
function takeBranch({ words, count }) {
  const { words: left, count: place } = drive, { history } = historyOf(firstHistory().options, inputOfWords(words));
  if (!history) return;
  branches.kept = branches.kept.filter(branch => branch.words !== words);
  keepBranch({ words: left, count: Math.min(place, left.length) });
  beginDrive(history, { test: drive.test, given: null }, count);
  putWords();
}

function branchButton({ words, count, whose }, at) {
  const rest = words.slice(count), said = rest.slice(0, SAID_OF_BRANCH).join(' ') + (rest.length > SAID_OF_BRANCH ? ' …' : '');
  return html('button', { 'data-branch': at, class: 'quiet' }, `${whose}${count === 0 ? 'from the start' : `after choice ${count}`}${said && `: ${said}`}`);
}

function showBranches() {
  const others = branches.kept.length === 0 ? [] : otherBranches();
  byId('branches').hidden = others.length === 0;
  if (others.length > 0) putChildren(byId('branches'), [html('span', {}, 'Earlier run'), ...others.map(branchButton)]);
}

on(document, 'click', ({ target }) => {
  if (target.dataset?.branch !== undefined) takeBranch(otherBranches()[target.dataset.branch]);
});
