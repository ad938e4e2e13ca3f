// Put at the end of a page of the rack by tests/rack, which reads what it says: it uses the page as a reader does, and
// says in plain lines what can be seen. It knows the page's text and places, and none of its rules.
const said = [];
const say = (what, value) => said.push(what + ': ' + value);
const all = (selector, within = document) => [...within.querySelectorAll(selector)];
const seen = node => node.getClientRects().length > 0 && getComputedStyle(node).visibility === 'visible';
const words = node => node.textContent.replace(/\s+/g, ' ').trim();
const lane = node => node.closest('td').dataset.lane;
const choose = value => all('input[type=radio]').find(one => one.value === value).click();
const box = value => all('input[type=checkbox]').find(one => one.value === value);
const heads = () =>
  all('thead th').filter(seen).map(head => words(head).replace(/ (job|no job|the same).*/, '')).join(', ');
const entries = () => all('.entry').filter(seen);
const per = () => {
  const count = {};
  for (const entry of entries()) count[lane(entry)] = (count[lane(entry)] ?? 0) + 1;
  return Object.keys(count).sort().map(key => key + '=' + count[key]).join(' ');
};
// the jobs whose stores are seen being queued
const queuing = () => {
  const jobs = entries().map(words).map(text => /job (\d) queues/.exec(text)?.[1]).filter(job => job);
  return [...new Set(jobs)].sort().join(',');
};

// what went wrong with other drives than this one, as far as it is listed
const elsewhere = drive => all('li').filter(seen).filter(one => !words(one).includes('drive ' + drive)).length;

const empty = () => all('tbody tr').filter(row => seen(row) && !all('.entry', row).some(seen)).length;

function filters() {
  all('details').forEach(one => { one.open = true; });
  say('at first', heads() + ' | ' + per());
  for (const drive of ['0', '1', '2', '3']) {
    choose(drive);
    say('drive ' + drive, heads() + ' | ' + per() + ' | jobs ' + queuing() + ' | elsewhere ' + elsewhere(drive)
      + ', empty rows ' + empty());
  }
  choose('');
  say('all again', heads() + ' | ' + per());
  box('link').click();
  say('links seen without the link', entries().filter(entry => /^\d+ ?link /.test(words(entry))).length);
  box('report').click();
  say('reports seen without reports', entries().filter(entry => /^\d+ ?report/.test(words(entry))).length);
  say('empty rows', empty());
  box('link').click();
  box('report').click();
  box('good').click();
  say('quiet turns seen without them', all('tbody tr').filter(row => seen(row)
    && all('.entry', row).every(entry => !/recovery|restart|refused|lost|code (?!00)/.test(words(entry)))).length);
  box('good').click();
  say('at last', heads() + ' | ' + per());
}

function focusing() {
  let without = 0, early = 0, silent = 0, outside = 0, kept = 0;
  const told = entries().filter(entry => /interrupt|order |report /.test(words(entry)));
  for (const entry of told) {
    const more = entry.querySelector('.more');
    if (!more || entry.tabIndex !== 0) { without += 1; continue; }
    early += seen(more);
    entry.focus();
    silent += !seen(more) || words(more) === '';
    const place = more.getBoundingClientRect();
    outside += place.left < -1 || place.right > innerWidth + 1 || place.height < 10;
    entry.blur();
    kept += seen(more);
  }
  say('entries with words', told.length > 20 ? 'many' : told.length);
  say('without words or focus', without);
  say('words seen before', early);
  say('no words at focus', silent);
  say('words outside the window', outside);
  say('words that stay', kept);
}

// text that is cut, or lies on other text
function layout() {
  let cut = 0, over = 0;
  for (const cell of all('tbody td').filter(seen)) {
    let end = -1;
    for (const entry of all('.entry', cell).filter(seen)) {
      const place = entry.getBoundingClientRect();
      const range = document.createRange();
      range.selectNodeContents(entry);
      const text = range.getBoundingClientRect();
      cut += entry.scrollWidth > entry.clientWidth + 1 || text.right > cell.getBoundingClientRect().right + 1;
      over += place.top < end - 1 || text.height > place.height + 3;
      end = place.bottom;
    }
  }
  say('cut entries', cut);
  say('entries over others', over);
  say('wider than the window', document.documentElement.scrollWidth > innerWidth + 1 ? 'yes' : 'no');
}

function address() {
  return new Promise(done => {
    addEventListener('hashchange', () => setTimeout(() => {
      say('by address', heads() + ' | links ' + entries().filter(entry => /^\d+ ?link /.test(words(entry))).length);
      done();
    }, 0), { once: true });
    location.hash = location.hash === '#drive=1&hide=link' ? '#drive=1' : '#drive=1&hide=link';
  });
}

filters();
layout();
// a window that is not the active one focuses nothing, which is the browser's doing: tests/rack tries again
if (!document.hasFocus()) say('the window', 'not active');
focusing();
say('loaded from elsewhere', performance.getEntriesByType('resource').length
  + all('[src], link, iframe, object, embed').length);
address().then(() => {
  const text = document.createElement('pre');
  text.id = 'probe';
  text.textContent = said.join('\n');
  document.body.replaceChildren(text);
});
