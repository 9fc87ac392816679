// The runs of this tab, so that a reload and Back bring them: in the tab's own storage, which ends with it and which no
// browser syncs. An entry of the history has only the number of its run.
const PLACE = 'noise-run-';
const MOST = 200e3;
let next = Date.now();

/** The state for an entry of the history whose set-up has this address, and whose run has these steps. */
export function kept(state, setup, steps) {
  const id = state?.id ?? (next += 1);
  try {
    if (steps && steps.length <= MOST) sessionStorage.setItem(`${PLACE}${id}`, JSON.stringify({ setup, steps }));
    else sessionStorage.removeItem(`${PLACE}${id}`);
  } catch { /* nothing is kept here */ }
  return { id };
}

/** The steps of the run that was kept for an entry with this set-up, or ''. */
export function keptRun(state, setup) {
  try {
    const found = JSON.parse(sessionStorage.getItem(`${PLACE}${state?.id}`));
    return found?.setup === setup ? found.steps : '';
  } catch {
    return '';
  }
}
