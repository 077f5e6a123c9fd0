(function () {
  'use strict';
  var all = function (select, inside) {
    return [].slice.call((inside || document).querySelectorAll(select));
  };
  document.documentElement.classList.add('js');
  var tree = document.getElementById('tree'), box = document.getElementById('say');
  var texts = all('#texts li').map(function (item) { return item.textContent; });
  var nodes = [];
  all('.node', tree).forEach(function (node) { nodes[+node.dataset.record] = node; });
  var now = -1;

  function fold(node, folded) {
    var kids = node.querySelector(':scope > .kids');
    var button = node.querySelector(':scope > .cell > .fold');
    if (!kids) { return; }
    kids.hidden = folded;
    button.setAttribute('aria-expanded', !folded);
  }
  function reveal(node) {
    for (var at = node.parentNode.closest('.node'); at; at = at.parentNode.closest('.node')) {
      fold(at, false);
    }
  }
  function arrows() {
    var svg = document.getElementById('arrows'), frame = tree.getBoundingClientRect();
    all('path.link', svg).forEach(function (path) { path.remove(); });
    all('.node[data-target]', tree).forEach(function (node) {
      var from = node.querySelector('.box').getBoundingClientRect();
      var other = nodes[+node.dataset.target];
      if (!other || !from.width) { return; }
      var to = other.querySelector('.box').getBoundingClientRect();
      if (!to.width) { return; }
      var up = to.top < from.top, x = from.right - frame.left, z = to.right - frame.left;
      var y = (up ? from.top + 12 : from.bottom - 12) - frame.top;
      var end = (up ? to.bottom - 14 : to.top + 14) - frame.top;
      var out = Math.max(x, z) + 46;
      var path = document.createElementNS('http://www.w3.org/2000/svg', 'path');
      path.setAttribute('class', 'link' + (node.classList.contains('later') ? ' later' : ''));
      path.setAttribute('d', 'M' + [x, y] + 'C' + [out, y, out, end, z, end].join(' '));
      path.setAttribute('marker-end', 'url(#tip)');
      svg.appendChild(path);
    });
  }
  function go(to) {
    now = Math.max(-1, Math.min(texts.length - 1, to));
    nodes.forEach(function (node, i) {
      node.classList.toggle('now', i === now);
      all(':scope > .cell, :scope > .joins', node).forEach(function (part) {
        part.classList.toggle('later', now >= 0 && i > now);
      });
      node.classList.toggle('ahead', now >= 0 && i > now);
    });
    box.textContent = now < 0 ? 'Step through the proof, or click a box.' :
      'Record ' + (now + 1) + ' of ' + texts.length + '. ' + texts[now];
    if (now >= 0 && nodes[now]) {
      reveal(nodes[now]);
      nodes[now].querySelector('.box').scrollIntoView({block: 'nearest', inline: 'nearest'});
    }
    arrows();
  }
  nodes.forEach(function (node, i) {
    var button = node.querySelector(':scope > .cell > .fold');
    node.querySelector(':scope > .cell > .box').onclick = function () { go(i); };
    if (button) {
      button.onclick = function () {
        fold(node, button.getAttribute('aria-expanded') === 'true');
        arrows();
      };
    }
  });
  document.getElementById('whole').onclick = function () { go(-1); };
  document.getElementById('back').onclick = function () { go(now - 1); };
  document.getElementById('next').onclick = function () { go(now + 1); };
  var open = document.getElementById('unfold');
  if (open) {
    open.onclick = function () {
      nodes.forEach(function (node) { fold(node, false); });
      arrows();
    };
  }
  document.addEventListener('keydown', function (event) {
    if (event.key === 'ArrowRight') { go(now + 1); event.preventDefault(); }
    if (event.key === 'ArrowLeft') { go(now - 1); event.preventDefault(); }
  });
  window.addEventListener('resize', arrows);
  var asked = /^#(\d+)$/.exec(location.hash);
  go(asked ? +asked[1] - 1 : -1);
})();
