// What the browser finds wrong in the picture of a page that picture_look.sh made.
const svg = document.querySelector('svg');
const width = svg.width.baseVal.value, height = svg.height.baseVal.value;
const wrong = [];

const lines = document.getElementById('map').textContent.split('\n').filter(line => line.startsWith('  '))
    .map(line => line.trim());
const count = new Map();
for (const line of lines) count.set(line, (count.get(line) || 0) + 1);
const boxes = [...svg.querySelectorAll('rect')].filter(rect => rect.querySelector('title'))
    .map(rect => ({title: rect.querySelector('title').textContent.split('\n')[0], at: rect.getBBox()}));
for (const [line, times] of count) {
    const found = boxes.filter(box => box.title === line).length;
    if (found !== times) wrong.push(`line ${times} times, box ${found}: ${line}`);
}

const texts = [...svg.querySelectorAll('text')].map(text => ({words: text.textContent, at: text.getBBox()}));
for (const {words, at} of texts)
    if (at.x < 0 || at.x + at.width > width || at.y < 0 || at.y + at.height > height)
        wrong.push(`text leaves the picture: ${words}`);

// the box that a text begins in, the innermost one
const placed = boxes.filter(box => count.has(box.title));
const begins = (text, box) => box.at.x <= text.at.x && text.at.x < box.at.x + box.at.width &&
    box.at.y < text.at.y + text.at.height / 2 && text.at.y + text.at.height / 2 < box.at.y + box.at.height;
for (const text of texts) {
    const around = placed.filter(box => begins(text, box)).sort((a, b) => a.at.width - b.at.width);
    if (around.length > 0 && text.at.x + text.at.width > around[0].at.x + around[0].at.width + 1)
        wrong.push(`text leaves its box: ${text.words}`);
}

const range = box => box.title.split(' ')[0].split('-').map(end => BigInt('0x' + end));
for (let i = 0; i < placed.length; i++)
    for (let j = i + 1; j < placed.length; j++) {
        const a = placed[i].at, b = placed[j].at;
        if (!(a.x < b.x + b.width && b.x < a.x + a.width && a.y + 0.5 < b.y + b.height && b.y + 0.5 < a.y + a.height))
            continue;
        const [first, last] = range(placed[i]), [begin, end] = range(placed[j]);
        if (last < begin || end < first)
            wrong.push(`boxes overlap, addresses don't: ${placed[i].title} | ${placed[j].title}`);
    }
document.getElementById('said').textContent = 'LOOKED\n' + (wrong.length > 0 ? wrong.join('\n') : 'fine');
