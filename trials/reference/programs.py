"""Small programs that together show what a run by blocks may come to.

Each has an input, the kinds of its hosts, and for each top construct what its parts may write: for a fold its body, for a pair its producer and
its consumer, in the words of `spf explain`.
"""

import os
import re
from dataclasses import dataclass, field

from reference.runs import expectation
from reference.syntax import parse

EXAMPLES = os.path.join(os.path.dirname(os.path.abspath(__file__)), "..", "..", "examples")


@dataclass
class Example:
    name: str
    text: str
    writes: list
    input: bytes = b""
    hosts: list = field(default_factory=list)

    def expectation(self):
        writes = [[ranges_of(part) for part in parts] for parts in self.writes]
        return expectation(parse(self.text), self.input, self.hosts, writes)


def ranges_of(text):
    """Ranges in the words of `spf explain`, as (array, factor, from, to)."""
    ranges = [re.fullmatch(r"(\w+)\[(-?\d+)\*k\+(-?\d+)\.\.\2\*k\+(-?\d+)\]", word).groups() for word in text.split()]
    return [(array, int(factor), int(begin), int(end)) for array, factor, begin, end in ranges]


def file(name):
    with open(os.path.join(EXAMPLES, name)) as text:
        return text.read()


PROGRAMS = [
    Example("all wrong, no events", "main { specfold s = 1 for k in 0..5 predict k { next s * 2; } emit s; }", [[""]]),
    Example("all right", """array a[16];
main {
  specfold s = 1 for k in 0..16 predict 1 << k {
    a[k] = s;
    next a[k] * 2;
  }
  emit s >> 16;
}""", [["a[1*k+0..1*k+1]"]]),
    Example("half right", file("worked.spf"), [["a[1*k+0..1*k+1]"]]),
    Example("one block", """array a[1];
main {
  specfold s = 3 for k in 0..1 predict 0 {
    a[k] = s;
    for i in 0..1 { }
    next a[k];
  }
  emit s;
}""", [["a[1*k+0..1*k+1]"]]),
    Example("a guess that would loop for 2^62 iterations", """main {
  specfold s = 1 for k in 0..2 predict 1 << 62 {
    for i in 0..s { }
    next 1;
  }
  emit s;
}""", [[""]]),
    Example("attempts that store to different cells", """array out[6];
main {
  specfold s = 0 for k in 0..3 predict 1 {
    fill out[2*k..2*k + 2] = 0;
    out[2*k + (s & 1)] = 7;
    next s + 1;
  }
  for i in 0..6 { emit out[i]; }
}""", [["out[2*k+0..2*k+2]"]]),
    Example("iterations of while, in all attempts", """array seen[6];
array steps[6];
main {
  specfold s = 6 for k in 0..6 predict 5 - k {
    seen[k] = s & 7;
    steps[k] = 0;
    while seen[k] > 1 max 9 {
      if (seen[k] & 1) == 1 { seen[k] = seen[k] - 1; } else { seen[k] = seen[k] / 2; }
      steps[k] = steps[k] + 1;
    }
    next s * 2 + steps[k] - (s >> 1);
  }
}""", [["seen[1*k+0..1*k+1] steps[1*k+0..1*k+1]"]]),
    Example("a pair whose producer reads its cells", """array p[2];
array c[2];
main {
  p[1] = 4;
  spec (x, y) = {
    p[0] = 5;
    for i in 0..2 { p[1] = p[1] + p[0] + i; }
    give (p[0], p[1]);
  } predict (5, 10) {
    fill c[0..2] = x;
    for i in 0..y & 3 { c[i & 1] = y - i; }
  }
  emit c[0]; emit c[1];
}""", [["p[0*k+0..0*k+2]", "c[0*k+0..0*k+2]"]]),
    Example("rows of two words", """array f[5];
main {
  specfold (a, b) = (0, 1) for k in 0..5 predict (k & 2, 1) {
    f[k] = a;
    for i in 0..b { f[k] = f[k] + 1; }
    next (b, f[k]);
  }
  emit a; emit b;
}""", [["f[1*k+0..1*k+1]"]]),
    Example("rows of four words, and parts that trap", """array out[16];
main {
  specfold (a, b, c, d) = (1, 2, 3, 4) for k in 0..4 predict (1 / (k - 1), 3, 4, 1) {
    fill out[4*k..4*k + 4] = a;
    for i in 0..b { out[4*k + (i & 3)] = c + d; }
    next (b, c, d, a);
  }
  emit a; emit d;
}""", [["out[4*k+0..4*k+4]"]]),
    Example("version 2: a search that ends early", """version 2;
array found[4];
array at[12];
main {
  for i in 0..4 { at[i] = 3 * i; }
  specfold s = 0 for k in 0..4 predict k {
    found[k] = 9;
    for i in 0..12 {
      if i > s + 2 { break; }
      if input[i] == 97 + s {
        found[k] = i;
        while 1 == 1 max 9 { if found[k] > at[k] { break; } found[k] = found[k] + 1; }
        break;
      }
    }
    next found[k] & 3;
  }
  emit s;
}""", [["found[1*k+0..1*k+1]"]], b"aababcabcdab"),
    Example("a trap in a block, and blocks past it", """array out[6];
main {
  specfold s = 3 for k in 0..6 predict 2 {
    out[k] = s;
    for i in 0..s + 1 { out[k] = out[k] + 60 / s; }
    next s - 1;
  }
  specfold t = 0 for k in 0..2 predict 0 { next t; }
}""", [["out[1*k+0..1*k+1]"], [""]]),
    Example("a trap in a header", """array a[2];
main {
  specfold s = 2 for k in 0..2 predict 1 {
    for i in 0..2 { }
    a[k] = s;
    next s - 1;
  }
  specfold t = 10 / s for k in 0..2 predict 1 { next t; }
  specfold u = 1 for k in 0..2 predict 1 { next u; }
}""", [["a[1*k+0..1*k+1]"], [""], [""]]),
    Example("first attempts that trap", """array out[5];
main {
  specfold s = 60 for k in 0..5 predict (k & 1) << 9 {
    for i in 0..2 { }
    out[k] = 60 / s;
    let t = s;
    while t > 1 max 8 { t = t / 2; }
    next out[k] + 8;
  }
  emit s;
}""", [["out[1*k+0..1*k+1]"]]),
    Example("guesses that trap, and are right in a later construct", """array a[3];
fn halved(x) {
  let t = x;
  while t > 9 max 3 { t = t / 2; }
  return t;
}
main {
  specfold s = 1 for k in 0..3 predict 0 { for i in 0..s { } next s + 1; }
  specfold t = 5 for k in 3..3 predict 0 { next 1 / 0; }
  specfold u = 0 for k in 0..3 predict halved(1000) { for i in 0..2 { } a[k] = u; next a[k] * 5; }
  emit u;
}""", [[""], [""], ["a[1*k+0..1*k+1]"]]),
    Example("a host that guesses the last word, and a pair", """array a[4];
array b[1];
main {
  specfold s = 3 for k in 0..3 predict host 0 { a[k] = s; for i in 0..a[k] { } next s + k / 2; }
  spec x = { for i in 0..2 { a[3] = a[3] + s; } give a[3] / 2; } predict host 0 { b[0] = x; for i in 0..x { } }
  emit b[0];
}""", [["a[1*k+0..1*k+1]"], ["a[0*k+3..0*k+4]", "b[0*k+0..0*k+1]"]], b"", ["last"]),
    Example("hosts that keep what is told, in three passes", """array a[9];
array old[9];
main {
  specfold (s, t) = (1, 1) for k in 0..3 predict (host 0, host 1) { a[3*k] = s; for i in 0..t { } next (s + 1, t); }
  specfold (u, v) = (1, 1) for k in 0..3 predict (host 0, host 1) { a[3*k + 1] = u; for i in 0..v { } next (u + 1, v); }
  for i in 0..9 { old[i] = a[i]; }
  specfold (w, x) = (1, 1) for k in 0..3 predict (host 0, host 2) { a[3*k + 2] = old[3*k] + w; for i in 0..x { } next (w + 1, x + k); }
  emit w;
}""", [["a[3*k+0..3*k+1]"], ["a[3*k+1..3*k+2]"], ["a[3*k+2..3*k+3]"]], b"", ["table", "most", "vote"]),
    Example("functions with loops, a fold and a pair within a fold", """array a[3];
fn power(x, n) {
  let p = 1;
  for i in 0..n { p = p * x; }
  return p;
}
main {
  specfold s = 1 for k in 0..3 predict 2 * k {
    a[k] = power(s, 2);
    specfold t = s for j in 0..2 predict 0 { next t + power(2, j); }
    spec y = { let z = t; give z; } predict 0 { a[k] = a[k] + y; }
    next s + (a[k] & 3);
  }
  emit s;
}""", [["a[1*k+0..1*k+1]"]]),
    Example("cells that no block writes, and negative block numbers", """array old[4];
array out[8];
array rest[2];
main {
  fill old[0..4] = 2;
  old[3] = 9;
  specfold s = 1 for k in -2..2 predict 0 - k {
    fill out[2*k + 4..2*k + 6] = old[k + 2];
    for i in 0..old[k + 2] & 3 { out[2*k + 5] = out[2*k + 4] + s; }
    next out[2*k + 5] - old[0] - s + 1;
  }
  rest[0] = s;
}""", [["out[2*k+4..2*k+6]"]]),
    Example("the text in quotes", file("quotes.spf"), [["inside[16*k+0..16*k+16]"]], b'a "b\nc" d "e" "f\n'),
]
