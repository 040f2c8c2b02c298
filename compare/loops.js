"use strict";
var total = 0;
function work() {
  var i, j, o = {"a": 1, "b": 2, "c": 3}, list = [], s = 0;
  for (i = 0; i < 1000; i = i + 1) { list[i] = i; }
  for (i = 0; i < 400; i = i + 1) {
    for (j = 0; j < 1000; j = j + 1) {
      s = (s + list[j] * o.b + (i & j)) % 1000003;
      if (s > 500000) { o.a = o.a + 1; } else { o.c = o.c - 1; }
    }
  }
  total = (total + s) % 1000003;
  return s;
}
function closures() {
  var fs = [], i, t = 0;
  function make(k) { var n = k; return function () { n = n + k; return n; }; }
  for (i = 0; i < 1000; i = i + 1) { fs[i] = make(i); }
  for (i = 0; i < 200000; i = i + 1) { t = (t + fs[i % 1000]()) % 1000003; }
  total = (total + t) % 1000003;
  return t;
}
