'use strict';
/* Brings each recording of the page to life. */

const REPORT = JSON.parse(document.getElementById('data').textContent);

function lines(numbers) { return numbers.map(number => REPORT.lines[number]).join('\n'); }

function moment(seconds) {
  const date = new Date(seconds * 1000);
  return isNaN(date) ? 'a date beyond the calendar' : date.toISOString().replace('.000', '');
}

function details(root, data, index) {
  const panel = root.querySelector('.details'), number = data.number[index], turn = data.turn[index];
  panel.hidden = false;
  panel.querySelector('h3').textContent = `Call ${number}: ${data.what[data.does[index]]}`;
  const stamp = data.stamp[index];
  panel.querySelector('p').textContent = [
    `client ${data.clients[data.lanes[data.lane[index]]]}`, WORDS[data.kind[index]],
    turn ? `turn ${turn}` : 'no turn', stamp === null ? 'no Time Stamp' :
      `Time Stamp ${stamp}, ${moment(stamp)}`,
    ...(data.aside[index] < 0 ? [] : [`set aside: ${data.why[data.aside[index]]}`]),
    `marks ${data.begin[index] + 1} and ${data.end[index] < 0 ? 'none' : data.end[index] + 1}`,
  ].join(' · ');
  const [request, response] = panel.querySelectorAll('pre');
  request.textContent = lines(data.request[index]) || '(nothing that can be shown)';
  response.textContent = lines(data.response[index]) || (data.end[index] < 0 ? '(no answer was recorded)' :
    '(nothing that can be shown)');
}

for (const data of REPORT.recordings) {
  const root = document.getElementById(`recording-${data.recording}`);
  if (!data.number.length) continue;
  const timeline = new Timeline(root, data, index => details(root, data, index));
  for (const button of root.querySelectorAll('button.call')) {
    button.addEventListener('click', () => {
      timeline.show(timeline.place.get(Number(button.dataset.number)));
      root.querySelector('.timeline').scrollIntoView({ block: 'center' });
    });
  }
  if (timeline.fault >= 0) timeline.show(timeline.fault);
}
