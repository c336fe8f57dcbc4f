// The comments at the head of a scenario that the page reads: what must hold, the faults of its run, and the kinds of
// faults that it is to survive. So a link, a file and Undo carry them.

export const [EXPECT, FAULT, KINDS] = ['# expect: ', '# fault: ', '# faults: '];

/** The comments and blank rows at the head of a text. */
const headOf = text => (/^([ \t]*(#.*)?\n)*/.exec(text) || [''])[0];

/** The comments of a text with a mark, without it. */
export const commentsIn = (text, mark) =>
  headOf(text).split('\n').flatMap(row => row.startsWith(mark) ? row.slice(mark.length).trim() : []);

/** The text with what a function makes of its comments with a mark, each once. */
export function withComments(text, mark, change) {
  const head = headOf(text), rows = head.split('\n'), others = rows.filter(row => !row.startsWith(mark));
  const first = rows.findIndex(row => row.startsWith(mark)), behind = others.findIndex(row => !row.startsWith('#'));
  const made = [...new Set(change(commentsIn(text, mark)))].map(it => mark + it);
  others.splice(first < 0 ? behind : first, 0, ...made);
  return others.join('\n') + text.slice(head.length);
}

export const withComment = (text, mark, words) => withComments(text, mark, its => [...its, words]);
export const withoutComment = (text, mark, words) => withComments(text, mark, its => its.filter(it => it !== words));

/** The text whose faults name the motes by their numbers without one; its own faults are gone. */
export const faultsWithoutMote = (text, mote) => withComments(text, FAULT, its => its.flatMap(it => {
  const motes = /\bmote (\d+)|\blink (\d+) to (\d+)/g, isIts = found => found.slice(1).includes(String(mote));
  return [...it.matchAll(motes)].some(isIts) ? [] :
    it.replace(motes, words => words.replace(/\d+/g,
      number => String(Number(number) - Number(Number(number) > mote))));
}));

/** The first sentence of the comment at the head of a text. */
export function firstSentence(text) {
  const rows = headOf(text).split('\n').filter(row => ![EXPECT, FAULT, KINDS].some(mark => row.startsWith(mark)));
  const words = rows.map(row => row.replace(/^#+ ?/, '')).join(' ').replace(/`/g, '').trim();
  return (/^.*?[.](?= |$)/.exec(words) || [''])[0];
}
