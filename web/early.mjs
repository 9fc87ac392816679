// What moves the page is settled before the rest of it is read: that a link has a run, or that this tab kept one, which
// stands beside the picture. No module: it runs where it stands.
{
  const isOpened = performance.getEntriesByType('navigation')[0]?.type === 'navigate';
  const hasRun = /[#&]run=[^&]/.test(location.hash);
  const root = document.documentElement;
  const { content } = document.getElementById('has-run');
  if (isOpened && hasRun) document.getElementById('notice').append(content.cloneNode(true));
  let isKept = false;
  try { isKept = sessionStorage.getItem(`noise-run-${history.state?.id}`) !== null; } catch { /* nothing is kept */ }
  root.classList.toggle('running', hasRun || isKept);
}
