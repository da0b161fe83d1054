// Answers "which ends have this and not that": marks the ends that are so, and folds the ways to the others away.
(function () {
  var doc = document, out = doc.getElementById('said'), hits = doc.getElementById('hits');
  var ends = (doc.body.dataset.ends || '').split(','), names = (doc.body.dataset.names || '').split(',');
  var asked = {}, MOST_NAMED = 12, MOST_LISTED = 60, DIGITS = 16;
  doc.documentElement.className = 'js';
  if (!out) return;

  function holds(end, k) { return parseInt(end.charAt(DIGITS - 1 - (k >> 2)), 16) >> (k & 3) & 1; }
  function fits(end) {
    for (var k in asked) if (asked[k] && (asked[k] > 0) !== !!holds(end, k)) return false;
    return true;
  }
  function grouped(number) { return number.toLocaleString('en'); }
  function link(number) {
    return doc.getElementById('end' + number) ? '<a href="#end' + number + '">end ' + number + '</a>' : 'end ' + number;
  }
  function listed(end, number) {
    var held = names.filter(function (name, k) { return holds(end, k); });
    return '<p>' + link(number) + ': ' + (held.join(', ') || 'nothing') + '</p>';
  }
  function show() {
    var words = [], named = [], list = '', count = 0;
    for (var k in asked) if (asked[k]) words.push((asked[k] > 0 ? 'with ' : 'without ') + names[k]);
    ends.forEach(function (end, i) {
      var number = i + 1, so = fits(end), way = doc.getElementById('end' + number);
      if (so) {
        count++;
        if (named.length < MOST_NAMED) named.push(link(number));
        if (hits && count <= MOST_LISTED) list += listed(end, number);
      }
      if (!hits) doc.querySelectorAll('[data-e="' + number + '"]').forEach(function (x) { x.classList.toggle('out', !so); });
      if (way) way.hidden = !so;
    });
    if (hits) hits.innerHTML = list + (count > MOST_LISTED ? '<p>\u2026 and ' + grouped(count - MOST_LISTED) + ' more</p>' : '');
    out.classList.toggle('set', words.length > 0);
    out.innerHTML = words.length
      ? '<b>' + words.join(', ') + ':</b> ' + (count ? grouped(count) + ' of ' + grouped(ends.length) + ' ends: ' + named.join(', ')
        + (count > named.length ? ' \u2026' : '') : 'no end') + ' <button type="button" class="q" id="clear">show all</button>'
      : (hits ? 'The first ' + MOST_LISTED + ' of ' + grouped(ends.length) + ' ends are listed.' : 'All ends are shown.')
        + ' Press \u201cwith\u201d or \u201cwithout\u201d beside a name to ask for some.';
    var clear = doc.getElementById('clear');
    if (clear) clear.onclick = function () {
      asked = {};
      doc.querySelectorAll('.q').forEach(function (b) { b.setAttribute('aria-pressed', false); });
      show();
      doc.querySelector('.q').focus();
    };
  }
  doc.querySelectorAll('.q').forEach(function (button) {
    button.onclick = function () {
      var k = button.dataset.k, value = +button.dataset.v;
      asked[k] = asked[k] === value ? 0 : value;
      doc.querySelectorAll('.q[data-k="' + k + '"]').forEach(function (b) {
        b.setAttribute('aria-pressed', asked[k] === +b.dataset.v);
      });
      show();
    };
  });
  show();
})();
