// Filters: by answer, mark and text; a function is shown where one of its failures is, or its name where none is asked for.
// The address may bring them along: #verdict=failed&mark=JN&answer=..&text=..
(function () {
  var answer = document.getElementById('answer'), mark = document.getElementById('mark');
  var text = document.getElementById('text'), verdict = document.getElementById('verdict');
  var count = document.getElementById('count'), rows = document.querySelectorAll('tr.function');
  function filter() {
    var seen = 0, words = text.value.toLowerCase();
    rows.forEach(function (row) {
      var fits = !verdict.value || row.dataset.verdict === verdict.value, any = false;
      var named = row.dataset.name.toLowerCase().includes(words);
      row.querySelectorAll('.failure').forEach(function (f) {
        var it = (!answer.value || f.dataset.answer === answer.value) && (!mark.value || f.dataset.mark === mark.value);
        it = it && (named || f.textContent.toLowerCase().includes(words));
        f.hidden = !it;
        any = any || it;
      });
      var alone = !answer.value && !mark.value && (named || row.cells[2].textContent.toLowerCase().includes(words));
      row.hidden = !(fits && (any || alone));
      seen += row.hidden ? 0 : 1;
    });
    count.textContent = seen + ' of ' + rows.length + ' functions shown';
  }
  [answer, mark, text, verdict].forEach(function (e) { e.addEventListener('input', filter); });
  location.hash.slice(1).split('&').forEach(function (pair) {
    var at = pair.indexOf('='), field = at > 0 && document.getElementById(pair.slice(0, at));
    if (field && 'value' in field) { field.value = decodeURIComponent(pair.slice(at + 1)); }
  });
  document.querySelector('form').addEventListener('submit', function (e) { e.preventDefault(); });
  filter();
}());
