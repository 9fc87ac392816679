// What a screen reader gets from the page.
import assert from 'node:assert/strict';

const NAMED = ['button', 'checkbox', 'combobox', 'textbox', 'spinbutton', 'link', 'img'];

/**
 * What Chromium gives a screen reader: a name for each control, the verdict where it changes, and the picture in words.
 */
export async function speech(page) {
  const { browser } = page;
  await page.open('#mode=transport');
  await page.begin();
  await page.passAll();
  await browser.send('Accessibility.enable');
  const { nodes } = await browser.send('Accessibility.getFullAXTree');
  await browser.send('Accessibility.disable');
  const shown = nodes.filter(({ ignored }) => !ignored);
  const controls = shown.filter(({ role }) => NAMED.includes(role.value));
  assert.ok(controls.length > 30);
  assert.deepEqual(
    controls.filter(({ name }) => !name?.value).map(({ role }) => role.value), [], 'a control has no name',
  );
  const picture = shown.find(
    ({ role, name }) => ['image', 'img'].includes(role.value) && name?.value === 'The handshake XX',
  );
  assert.match(picture?.description?.value ?? '', /Message 1, from the initiator, 32 bytes/);
  assert.equal(shown.filter(({ role, name }) => role.value === 'region' && name?.value).length, 6);
  assert.ok(
    shown.some(({ role, name }) => role.value === 'toolbar' && name?.value.startsWith('The bytes of message 3')),
  );
  const property = ({ properties = [] }, wanted) => properties.find(({ name }) => name === wanted)?.value.value;
  const live = shown.filter((node) => property(node, 'live') && property(node, 'live') !== 'off');
  assert.deepEqual(live.map(({ role }) => role.value), ['status'], 'more than one part of the page is said by itself');
  const text = shown.find(({ name, role }) => role.value === 'textbox' && name?.value === 'Pattern text');
  assert.match(text.description.value, /^Valid: 3 messages\./);
}
