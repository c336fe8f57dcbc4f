// The dialogs *Examples* and *Share*, and the files that are opened.
import {byId, digits, element, handOut, makeButton, onClick} from '../../timeline/page/dom.js';
import {page} from '../../timeline/page/stage.js';
import {FAULT, commentsIn} from './comments.js';
import {HTML, LONGEST_TEXT, drafts, isServed, linkTo} from './keeping.js';

/** The page as it was delivered, before anything changed it. */
const delivered = typeof document === 'undefined' ? '' : `<!DOCTYPE html>\n${document.documentElement.outerHTML}`;

/** Fills the dialog of the examples: with cards of those that have a title. `choose` is called with the chosen one,
 * and `take` with a text of the reader's own. */
export function beginGallery(examples, choose, take) {
  const box = byId('gallery');
  const buttonOf = (it, name, does = choose) => makeButton(name, () => {
    box.close();
    does(it);
  });
  for (const it of examples) {
    const card = buttonOf(it, it.title ? '' : it.file);
    if (it.title) card.append(element('strong', it.title), element('span', it.about),
      element('span', it.question, [], {className: 'question'}));
    byId(it.title ? 'gallery-cards' : 'others').append(card);
  }
  onClick({examples() {
    const own = drafts().filter(it => it.text !== page.web.history.text);
    byId('own-texts').hidden = !own.length;
    byId('own').replaceChildren(...own.map(it => buttonOf(it, `${it.name}, ${new Date(it.opened).toLocaleString()}`,
      take)));
    box.showModal();
  }});
}

/** Hands out this page, or in the studio that without a server, with a text in it. */
async function savePage(text, name) {
  const html = isServed() ? await (await fetch(HTML)).text() : delivered;
  const inside = JSON.stringify({text, name}).replace(/</g, '\\u003c');
  const begin = html.indexOf('>', html.indexOf('<script id="saved"')) + 1;
  const end = html.indexOf('</' + 'script>', begin);
  handOut(name.replace(/(\.toml)?$/, '.html'), [html.slice(0, begin), inside, html.slice(end)], 'text/html');
}

/** What the dialog says of a link; null if the text is too long for one. */
const aboutLink = link => !link ?
  'This scenario is too long for a link in a chat or a mail: send the file, or this page saved with it.' : isServed() ?
    'Put this behind the address at which others open motesim.html, or send them that page, saved with your text.' :
    location.protocol !== 'file:' ? `The link carries the whole scenario, in ${digits(link.length)} characters.` :
      'This page was opened from a file of this machine, so others can\'t open the link: send this page, which is ' +
      'saved with your text. On a web server, its link carries the whole scenario.';

export async function showSharing(text, name) {
  const {line, mote, pane} = page.chosen, [copy, field] = [byId('copy-link'), byId('link')],
    faults = commentsIn(text, FAULT);
  const bare = await linkTo(text), link = bare && line >= 0 ? `${bare}&line=${pane.run.numberOf(line, mote)}` : bare;
  byId('sharing-said').textContent = aboutLink(link);
  field.hidden = copy.hidden = !link;
  field.value = link || '';
  copy.textContent = 'Copy the link';
  byId('download-faults').hidden = !faults.length;
  const its = {
    'copy-link'() {
      field.select();
      if (document.execCommand('copy')) copy.textContent = 'Copied';
    },
    download: () => handOut(name, [text], 'text/plain'),
    'download-faults': () => handOut(name.replace(/(\.toml)?$/, '.faults'), [`${faults.join('\n')}\n`], 'text/plain'),
    'save-page': () => savePage(text, name),
  };
  for (const [id, does] of Object.entries(its)) byId(id).onclick = does;
  byId('sharing').showModal();
}

/** Takes files that are chosen or dropped. `take` gets their texts; `refuse` gets what is wrong with one. */
export function beginOpening(take, refuse) {
  const read = async file => {
    if (!file) return;
    if (file.size > LONGEST_TEXT) return refuse(`${file.name} is longer than 1,048,576 bytes, the limit.`);
    take((await file.text()).replace(/^\ufeff/, '').replace(/\r\n/g, '\n'), file.name);
  };
  onClick({open: () => byId('file').click()});
  byId('file').addEventListener('change', ({target}) => {
    read(target.files[0]);
    target.value = '';
  });
  document.addEventListener('dragover', event => event.preventDefault());
  document.addEventListener('drop', event => {
    event.preventDefault();
    read(event.dataTransfer?.files[0]);
  });
}
