// The buttons of a run, and what comes of each.
import { encode } from './bytes.mjs';
import { enable, onPress, speak, tell } from './element.mjs';
import { keyOf, write } from './link.mjs';
import { FUNDAMENTAL } from './patterns.mjs';
import { nextStep, seenOf, turnOf } from './progress.mjs';
import { NotNow, Run, sorted } from './run.mjs';
import { Current, Log, showKeys, showWindows } from './runview.mjs';
import { sentenceOf, stateOf } from './sentences.mjs';

const at = (id) => document.getElementById(id);
const STALE = 'This run belongs to another set-up.';
const payload = () => encode(at('payload').value);

function say(text, isBad = false) {
  at('said').textContent = text;
  at('said').classList.toggle('bad', isBad);
  speak(text);
}

export class Control {
  #page;
  #shown;
  #log = new Log(at('log'), at('earlier'), (entry) => this.#pick(entry));
  #current = new Current(
    {
      box: at('current'), title: at('current-h'), acts: at('current-acts'), body: at('current-body'),
      more: at('current-more'),
    },
    {
      act: (work) => this.#act(work), whyNot: () => this.#whyNot(), looked: () => this.#draw(),
    },
  );
  #written = 0;
  #shownRun;
  #acting = Promise.resolve();

  /**
   * `page` has `setup`, `plan`, `run`, `isStale` and `isSettled`. `shown()` is called after each thing done, and
   * `back()` takes the run's set-up again.
   */
  constructor(page, shown, back) {
    this.#page = page;
    this.#shown = shown;
    this.#wire(back);
  }

  #wire(back) {
    const page = this.#page;
    const press = (it, work) => onPress(it, work, (why) => say(why, true));
    const onAct = (it, work) => press(it, () => this.#act(work));
    press(at('start'), () => this.begin());
    press(at('step'), () => this.#next());
    press(at('back'), () => { back(); at('step').focus(); });
    onAct(at('all'), () => page.run.passAll(payload));
    onAct(at('close'), () => page.run.close());
    for (const it of document.querySelectorAll('[data-write]')) {
      onAct(it, () => page.run.write(it.dataset.write, payload()));
    }
    for (const it of document.querySelectorAll('[data-end]')) onAct(it, () => page.run.write(it.dataset.end));
    at('payload').addEventListener('keydown', ({ key }) => {
      const role = key === 'Enter' ? page.run?.next : undefined;
      if (role) this.#act(() => page.run.write(role, payload()));
    });
  }

  /** Why no message can come now, or ''. */
  #whyNot() {
    const { run, isStale } = this.#page;
    if (isStale) return STALE;
    return run?.isClosed ? 'The connection is closed.' : '';
  }

  #showButtons() {
    const { run, plan, isStale, setup } = this.#page;
    const isLive = Boolean(run) && !isStale;
    const none = run ? STALE : 'No keys are drawn yet.';
    const silence = (role) => (isLive ? `It can’t write: ${run.silenceOf(role) ?? 'this isn’t a stream'}.` : none);
    const { step, label } = nextStep(run, isStale);
    enable(at('step'), step !== 'begin' || plan, 'The pattern isn’t valid.');
    tell(at('step'), label);
    enable(at('start'), plan, 'The pattern isn’t valid.');
    at('start').hidden = !run || step === 'begin';
    enable(at('all'), isLive && (run.next || run.pending), isLive ? 'No message of the handshake is left.' : none);
    for (const it of document.querySelectorAll('[data-write]')) {
      const role = it.dataset.write;
      enable(it, isLive && (run.silenceOf(role) === undefined || !run[role].sealer), silence(role));
    }
    const isStream = isLive && setup.mode === 'stream';
    at('ends').hidden = !isStream || !run.isOpen;
    for (const it of document.querySelectorAll('[data-end]')) {
      enable(it, isStream && !run.silenceOf(it.dataset.end), silence(it.dataset.end));
    }
    enable(at('close'), isStream && run.isOpen && !run.isClosed, 'The connection is closed.');
    at('write').hidden = !run;
    at('keys').hidden = !run;
  }

  /** The run in the picture, and what its next step is. */
  #draw() {
    const { run } = this.#page;
    this.#page.shape?.run(seenOf(run, this.#current.item));
    this.#showButtons();
  }

  #pick(entry) {
    this.#current.pick(this.#page.run, entry);
    this.#current.show(this.#page.run, false);
    this.#draw();
    at('current').querySelector('button').focus();
  }

  /** Does the next step. */
  #next() {
    const { run, isStale } = this.#page;
    const { step, role, item } = nextStep(run, isStale);
    if (step === 'begin') return this.begin();
    return this.#act(() =>
      (step === 'write' ? run.write(role, payload()) : run.deliver(role, item.n, sorted(item.flips))),
    );
  }

  show() {
    const { run, isStale } = this.#page;
    const written = run ? run.log.filter(({ kind }) => kind === 'wrote').length : 0;
    const isNew = this.#shownRun !== run || written !== this.#written;
    this.#written = written;
    this.#shownRun = run;
    this.#current.show(run, isNew);
    this.#draw();
    tell(at('state'), stateOf(run, run && turnOf(run)));
    this.#log.show(run);
    showWindows(at('windows'), run);
    at('stale').hidden = !isStale;
    // Its bytes and its log are beside the picture. While the page loads, early.mjs has said whether there is one.
    if (run || this.#page.isSettled) document.documentElement.classList.toggle('running', Boolean(run));
    at('ran').classList.toggle('stale', isStale);    // greyed: nothing more happens in it
  }

  /** Says what has come of a call: the newest entries. */
  #announce(entries) {
    say(
      entries.map((entry) => `${entry.at}. ${sentenceOf(this.#page.run, entry)}`).join(' '),
      entries.some(({ kind }) => ['refused', 'unwritten'].includes(kind)),
    );
  }

  async #actNow(work, isNew) {
    const page = this.#page;
    const { run } = page;
    const before = run?.log.length ?? 0;
    try {
      if (page.isStale && !isNew) throw new NotNow('This run belongs to another set-up: begin again with this one.');
      await work();
      this.#shown();
      const entries = page.run.log.slice(page.run === run ? before : 0);
      if (entries.length) this.#announce(entries.slice(-3));
    } catch (error) {
      const why = isSecureContext ? error.message : 'keys need https, or a page of this computer';
      say(error instanceof NotNow ? error.message : `This can’t be done: ${why}`, true);
      this.#shown();
    }
  }

  /** Does one thing after the other with the run, or with a new one, and shows the outcome of each. */
  #act(work, isNew = false) {
    this.#acting = this.#acting.catch(() => {}).then(() => this.#actNow(work, isNew));
    return this.#acting;
  }

  async #start() {
    const { setup, plan, run: old } = this.#page;
    const given = { ...setup };
    const run = await Run.start({
      ...given,
      prologue: encode(given.prologue),
      isOwn: !FUNDAMENTAL.includes(plan.base),
    });
    old?.dispose();
    Object.assign(this.#page, { run: Object.assign(run, { given }), isStale: keyOf(given) !== keyOf(setup) });
    showKeys(at('key-list'), run);
    say('New keys are drawn.');
  }

  begin() {
    at('notice').textContent = '';
    return this.#act(() => this.#start(), true);
  }

  /** Whether these are the steps of the run at hand, in its set-up. */
  isAtHand(steps) {
    const { run, setup, isStale } = this.#page;
    return Boolean(run) && !isStale && write(setup, steps) === write(setup, run.steps);
  }

  /** Does the steps of a run again, with new keys. */
  async repeat(steps) {
    const page = this.#page;
    let done;
    await this.#act(async () => {
      await this.#start();
      for (done = 0; done < steps.length; done += 1) await page.run.repeat(steps[done]);
    }, true);
    if (done === undefined) return;
    const what = done < steps.length ? `Of the run ${done} of ${steps.length} steps were done` : 'The run was done';
    const { length } = page.run.log;
    at('said').textContent =
      `${what} again with new keys: ${length} ${length === 1 ? 'entry' : 'entries'}. ${at('said').textContent}`;
  }
}
