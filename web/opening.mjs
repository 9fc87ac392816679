// How a pattern comes in from elsewhere: by Open, by dropping a file or a text on the page, and by pasting one.
import { enable } from './element.mjs';
import { MOST, intake } from './intake.mjs';

const at = (id) => document.getElementById(id);
const isField = (it) => it.matches?.('input, textarea');

/**
 * `take(setup, says)` takes a set-up, `follow(fragment)` that of a link, `compare(log)` a log, and `notice(says)` tells
 * what can't be taken.
 */
export function wireOpening({ take, follow, compare, notice }) {
  const bring = (text, isWhole) => {
    const found = intake(text);
    if (found?.fragment) follow(found.fragment);
    else if (found?.setup) take(found.setup, found.says);
    else if (found?.log) { notice(found.says); compare(found.log); }
    else if (found) notice(found.says);
    else if (isWhole) take({ text: text.replaceAll('\r\n', '\n') }, '');
    return Boolean(found);
  };
  const open = async (file) => {
    if (!file) return;
    if (file.size > MOST) notice(`This file has more than ${MOST} bytes, and isn’t opened.`);
    else bring(await file.text(), true);
  };
  at('open').addEventListener('click', () => at('file').click());
  enable(at('open'), true);
  at('file').addEventListener('change', async () => {
    await open(at('file').files[0]);
    at('file').value = '';
  });
  const mark = (isOver) => document.querySelector('.editor').classList.toggle('dropping', isOver);
  document.addEventListener('dragover', (event) => { event.preventDefault(); mark(true); });
  document.addEventListener('dragleave', () => mark(false));
  document.addEventListener('drop', (event) => {
    event.preventDefault();
    mark(false);
    const [file] = event.dataTransfer.files;
    if (file) open(file);
    else bring(event.dataTransfer.getData('text/plain'), true);
  });
  document.addEventListener('paste', (event) => {
    if (event.target !== at('text') && isField(event.target)) return;
    const text = event.clipboardData?.getData('text/plain') ?? '';
    if (bring(text, event.target !== at('text') && /^\S+:\r?\n/.test(text))) event.preventDefault();
  });
}
