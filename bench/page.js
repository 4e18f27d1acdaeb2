// Tries the page of a film in Chromium without a screen, as a person does who has a keyboard alone: it plays, pauses, goes
// step by step, and comes to the end; it answers no request, and no error is said. It writes pictures of the page at four
// moments, NAME-page-1.png to NAME-page-4.png, the last in dark colours. It ends with 0 if all was as it should be.
//
//   node bench/page.js CHROMIUM PAGE.html FOLDER NAME
'use strict';
const { spawn } = require('child_process');
const fs = require('fs');
const os = require('os');
const path = require('path');

const [program, page, folder, name] = process.argv.slice(2);
const profile = fs.mkdtempSync(path.join(os.tmpdir(), 'page-'));
const browser = spawn(program, ['--headless=new', '--no-sandbox', '--disable-gpu', '--remote-debugging-pipe', '--no-first-run',
  '--user-data-dir=' + profile], { stdio: ['ignore', 'ignore', 'ignore', 'pipe', 'pipe'] });

// The browser reads and writes JSON, each ended by a zero byte.
const waiting = new Map();
const requests = [];
const faults = [];
let loaded = () => {};
let session;
let unread = '';
browser.stdio[4].on('data', (data) => {
  const texts = (unread + data).split('\0');
  unread = texts.pop();
  texts.map((text) => JSON.parse(text)).forEach((said) => {
    if (said.id) waiting.get(said.id)(said.result || Promise.reject(new Error(said.error.message)));
    if (said.method === 'Page.loadEventFired') loaded();
    if (said.method === 'Network.requestWillBeSent') requests.push(said.params.request.url);
    if (said.method === 'Runtime.exceptionThrown') faults.push(said.params.exceptionDetails.text);
  });
});
let last = 0;
function ask(method, params) {
  last += 1;
  browser.stdio[3].write(JSON.stringify({ id: last, method, params, sessionId: session }) + '\0');
  return new Promise((resolve) => waiting.set(last, resolve));
}

const rest = (milliseconds) => new Promise((resolve) => setTimeout(resolve, milliseconds));
const codes = { ' ': 32, End: 35, Home: 36, ArrowLeft: 37, ArrowRight: 39 };
async function press(key) {
  const what = { key, windowsVirtualKeyCode: codes[key], text: key === ' ' ? ' ' : undefined };
  await ask('Input.dispatchKeyEvent', { type: 'keyDown', ...what });
  await ask('Input.dispatchKeyEvent', { type: 'keyUp', ...what });
  await rest(100);
}
async function state() {
  const expression = `(() => { const film = document.querySelector('svg'), slider = document.getElementById('slider');
    return { step: Number(slider.value), last: Number(slider.max), rests: film.animationsPaused(), time: film.getCurrentTime(),
      said: document.getElementById('told').textContent, play: document.getElementById('play').textContent }; })()`;
  return (await ask('Runtime.evaluate', { expression, returnByValue: true })).result.value;
}
async function picture(moment) {
  const shot = await ask('Page.captureScreenshot', { format: 'png' });
  fs.writeFileSync(path.join(folder, `${name}-page-${moment}.png`), Buffer.from(shot.data, 'base64'));
}
let failed = 0;
function holds(what, is) {
  if (!is) failed += 1;
  console.log(`${is ? 'ok' : 'FAILED'}  ${name}: ${what}`);
}

async function tried() {
  const target = await ask('Target.createTarget', { url: 'about:blank' });
  session = (await ask('Target.attachToTarget', { targetId: target.targetId, flatten: true })).sessionId;
  await Promise.all(['Page.enable', 'Runtime.enable', 'Network.enable'].map((method) => ask(method)));
  await ask('Emulation.setDeviceMetricsOverride', { width: 1100, height: 1000, deviceScaleFactor: 1, mobile: false });
  const there = new Promise((resolve) => { loaded = resolve; });
  await ask('Page.navigate', { url: 'file://' + path.resolve(page) });
  await there;
  await rest(2500);
  const playing = await state();
  holds('it plays', !playing.rests && playing.time > 1 && playing.play === 'Pause');
  await press(' ');
  const paused = await state();
  await rest(500);
  holds('space pauses it', paused.rests && paused.play === 'Play' && (await state()).time === paused.time);
  await picture(1);
  await press('ArrowRight');
  const next = await state();
  holds('an arrow goes a step on', next.step === paused.step + 1 && next.said !== paused.said);
  await press('ArrowLeft');
  holds('the other goes back', (await state()).said === paused.said);
  await picture(2);
  await press('End');
  const end = await state();
  holds('End is the last step', end.step === end.last && end.said.startsWith(`Step ${end.last + 1} of ${end.last + 1}. `));
  await picture(3);
  await press('ArrowLeft');
  await press(' ');
  await rest(3000);
  const over = await state();
  holds('it plays to the end, and rests there', over.step === over.last && over.rests);
  await press(' ');
  await rest(400);
  holds('and begins again', (await state()).step < over.last && !(await state()).rests);
  await press('Home');
  holds('Home is the start', (await state()).step === 0 && (await state()).rests);
  await ask('Emulation.setEmulatedMedia', { features: [{ name: 'prefers-color-scheme', value: 'dark' }] });
  await rest(200);
  await picture(4);
  holds('no request goes out', requests.every((url) => url.startsWith('file:')));
  holds('no fault is said', faults.length === 0);
}

tried().catch((fault) => { failed += 1; console.log('FAILED  ' + fault.message); }).finally(() => {
  browser.on('exit', () => { fs.rmSync(profile, { recursive: true, force: true }); process.exit(failed ? 1 : 0); });
  browser.kill();
});
