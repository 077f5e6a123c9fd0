(function () {
  'use strict';
  var all = function (select, inside) {
    return [].slice.call((inside || document).querySelectorAll(select));
  };
  var box = document.getElementById('slabs');
  var rows = box ? all('.row', box) : [];
  document.documentElement.classList.add('js');

  // Labels: the whole id where it has room, else the id without what all ids share.
  var cut = +document.body.dataset.cut;
  function label() {
    var pieces = all('.row .piece');
    var widths = pieces.map(function (piece) { return piece.getBoundingClientRect().width; });
    pieces.forEach(function (piece, i) {
      var id = piece.dataset.id;
      var fits = [id, id.slice(cut)].filter(function (text) {
        return widths[i] > 6.6 * text.length + 3;
      });
      piece.textContent = fits.length ? fits[0] : '';
    });
    ['em.high', 'em:not(.high)'].forEach(function (line) {
      var left = Infinity;
      all('.axis ' + line).forEach(function (tick) {
        var place = tick.getBoundingClientRect();
        tick.style.visibility = place.right + 3 > left ? 'hidden' : '';
        left = place.right + 3 > left ? left : place.left;
      });
    });
  }
  var waiting = 0;
  window.addEventListener('resize', function () {
    clearTimeout(waiting);
    waiting = setTimeout(label, 120);
  });
  label();

  // Sorting of slabs: the greatest first, numbers rising.
  var sorts = all('[data-sort]');
  sorts.forEach(function (button) {
    button.onclick = function () {
      var key = button.dataset.sort, turn = key === 'number' ? 1 : -1;
      sorts.forEach(function (other) { other.setAttribute('aria-pressed', other === button); });
      rows.sort(function (a, b) {
        return turn * (a.dataset[key] - b.dataset[key]) || a.dataset.number - b.dataset.number;
      });
      rows.forEach(function (row) { box.appendChild(row); });
    };
  });

  // A colour, or a search, leaves the slabs that have it.
  var keys = all('.legend button'), find = document.getElementById('find'), chosen = null;
  function leave(test) {
    box.classList.toggle('dim', !!test);
    rows.forEach(function (row) {
      var has = false;
      all('.piece', row).forEach(function (piece) {
        var on = !!test && test(piece);
        piece.classList.toggle('on', on);
        has = has || on;
      });
      row.classList.toggle('has', has);
    });
  }
  function press(colour) {
    chosen = colour;
    keys.forEach(function (key) {
      key.setAttribute('aria-pressed', key.dataset.colour === colour);
    });
  }
  keys.forEach(function (key) {
    key.onclick = function () {
      press(chosen === key.dataset.colour ? null : key.dataset.colour);
      if (find) { find.value = ''; search(''); }
      leave(chosen === null ? null : function (piece) { return piece.dataset.colour === chosen; });
    };
  });
  function search(text) {
    all('.orders tbody tr').forEach(function (row) {
      row.hidden = !!text && row.textContent.toLowerCase().indexOf(text) < 0;
    });
  }
  if (find) {
    find.oninput = function () {
      var text = find.value.trim().toLowerCase();
      press(null);
      search(text);
      leave(text ? function (piece) {
        return piece.dataset.id.toLowerCase().indexOf(text) >= 0;
      } : null);
    };
  }

  // Sorting of tables, by the header.
  all('table.sort').forEach(function (table) {
    all('th button', table).forEach(function (button, i) {
      button.onclick = function () {
        var head = button.parentNode, rising = head.getAttribute('aria-sort') !== 'ascending';
        all('th', table).forEach(function (other) { other.removeAttribute('aria-sort'); });
        head.setAttribute('aria-sort', rising ? 'ascending' : 'descending');
        var lines = all('tbody tr', table).map(function (line) {
          var cell = line.cells[i], value = cell.dataset.value;
          return [line, value === undefined ? cell.textContent : +value];
        });
        var words = new Intl.Collator(undefined, {numeric: true});
        lines.sort(function (a, b) {
          var less = typeof a[1] === 'number' ? a[1] - b[1] : words.compare(a[1], b[1]);
          return rising ? less : -less;
        });
        lines.forEach(function (line) { table.tBodies[0].appendChild(line[0]); });
      };
    });
  });
})();
