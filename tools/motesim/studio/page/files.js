// Files of the studio: opening, saving, and the page of the run as one file.
import {byId, handOut, makeButton, onClick} from '../../timeline/page/dom.js';
import {page} from '../../timeline/page/stage.js';
import {keepDraft} from '../../web/page/keeping.js';
import {attempt, setOutcome} from '../../web/page/outcome.js';
import {open, runNow, setOpened} from '../../web/page/web.js';

const {web} = page;

const isDirty = () => web.document && web.history.text !== web.saved;

/** Shows the name of the document, and whether it is saved. */
function nameDocument() {
  document.title = `${isDirty() ? '• ' : ''}${web.document.name} – motesim studio`;
  byId('save').disabled = web.document.maySave && !isDirty() && web.document.stamp !== '';
}

function openFile(name) {
  return attempt(async () => {
    const {document, example} = await page.backend.ask('open', {where: 'folder', name});
    await open(document, {example});
  });
}

/** Writes the text into its file; also `over` a file that was changed elsewhere, or into a `named` one. */
async function save(over = false, named = '') {
  if (!web.document.maySave && !named) return saveAs();
  const {text} = web.history, file = {returns: false, mark: false, stamp: '', ...web.document};
  const said = await attempt(() => page.backend.ask('save', {...file, text, over, ...(named ? {new: named} : {})}));
  if (!said) return;
  // (what a run that is still to come shows would hide the answer)
  if (web.shown !== text) await runNow();
  if (said.changed) {
    return setOutcome(`${said.changed}.`, 'bad', named ? [] : [['Overwrite it with mine', () => save(true)],
      ['Load the other', () => openFile(web.document.name)]]);
  }
  setOpened({document: {...file, ...said, maySave: true}, saved: text});
  keepDraft(text);
  nameDocument();
  const {place} = web.fault || {};
  setOutcome(`It is saved as ${said.name}${place ? `, with an error in line ${place[0] + 1}` : ''}.`);
}

function saveAs() {
  const {name, maySave} = web.document, wish = maySave ? name.replace(/\.toml$/, '_2.toml') : `my_${name}`;
  const named = prompt(`A new file, in ${web.folder}:`, wish)?.trim();
  if (named) return save(false, named);
}

async function exportPage() {
  const {name} = web.document;
  const made = await attempt(() => page.backend.ask('export', {...web.document, text: web.shown, title: name}));
  if (made) handOut(name.replace(/\.toml$/, '.html'), [made], 'text/html');
}

export function beginFiles({files, folder}) {
  web.folder = folder;
  onClick({save: () => save(), 'save-as': saveAs, export: exportPage});
  byId('others').before(...files.map(name => makeButton(name, () => {
    byId('gallery').close();
    openFile(name);
  })));
  document.addEventListener('keydown', event => {
    if (!(event.ctrlKey || event.metaKey) || event.key.toLowerCase() !== 's') return;
    event.preventDefault();
    save();
  });
  page.reactions.outdated.push(nameDocument);
  page.reactions.opened.push(nameDocument);
}
