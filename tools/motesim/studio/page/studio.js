// Opens the studio: the page with a server, which also knows causes, states and expectations, and has files.
import {byId} from '../../timeline/page/dom.js';
import {page} from '../../timeline/page/stage.js';
import {beginChecks} from '../../web/page/checks.js';
import {faultsNow, setFaults} from '../../web/page/faults.js';
import {sessionHere} from '../../web/page/keeping.js';
import {begin, open, openAgain} from '../../web/page/web.js';
import {beginAnswers} from './answers.js';
import {beginFiles} from './files.js';
import {Server} from './server.js';

async function start() {
  const server = await Server.begin(), began = await server.ask('begin', {}), {faults} = began;
  server.most = began.seconds * 1000;
  begin(server, began);
  beginAnswers();
  beginChecks();
  beginFiles(began);
  const session = sessionHere();
  // (if the file was changed elsewhere meanwhile, it is shown)
  if (session?.steps[session.now].of.saved === began.document.text) return openAgain(session);
  await open(began.document, began);
  if (faults.length) setFaults([...faultsNow(), ...faults]);
}

window.motesim = page;
start().catch(fault => {
  byId('said').textContent = `This page can't be shown here: ${fault.message}`;
  console.error(fault);
});
