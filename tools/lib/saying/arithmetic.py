"""Functions of our language for what it does not have: division, remainder, and the operations on bits."""

TOP = "9223372036854775807"
WORDS = {"unsigned": "unsigned long", "signed": "long"}

DIVIDE_UNSIGNED = """\
unsigned long {name}(unsigned long a, unsigned long b) {{
  bool z = b == 0;
  if (z) {{
    this->{end}();
  }}
  unsigned long q = 0;
  bool t = b <= a;
  while (t) {{
    unsigned long m = b;
    unsigned long c = 1;
    unsigned long r = a - m;
    bool d = m <= r;
    while (d) {{
      m = m + m;
      c = c + c;
      bool e = m <= a;
      d = false;
      if (e) {{
        r = a - m;
        d = m <= r;
      }}
    }}
    a = a - m;
    q = q + c;
    t = b <= a;
  }}
  return {result};
}}"""

DIVIDE_SIGNED = """\
{word} {name}({word} a, {word} b) {{
  bool m = b == -1;
  if (m) {{
    {word} o = {minus};
    return o;
  }}
  unsigned long p = a;
  unsigned long s = b;
  bool n = a < 0;
  if (n) {{
    p = 0 - p;
  }}
  bool k = b < 0;
  if (k) {{
    s = 0 - s;
  }}
  unsigned long u = this->{unsigned}(p, s);
  long q = u;
  bool x = {flip};
  if (x) {{
    q = 0 - q;
  }}
  {word} r = q;
  return r;
}}"""

BITS = """\
unsigned long {name}(unsigned long a, unsigned long b) {{
  unsigned long h = {top};
  h = h + 1;
  unsigned long r = 0;
  int i = 0;
  bool t = true;
  while (t) {{
    bool x = h <= a;
    bool y = h <= b;
    int n = x + y;
    bool s = {asked};
    r = r + r;
    r = r + s;
    a = a + a;
    b = b + b;
    i = i + 1;
    t = i < 64;
  }}
  return r;
}}"""

LEFT = """\
unsigned long {name}(unsigned long a, unsigned long b) {{
  bool t = 0 < b;
  while (t) {{
    a = a + a;
    b = b - 1;
    t = 0 < b;
  }}
  return a;
}}"""

RIGHT = """\
unsigned long {name}(unsigned long a, unsigned long b) {{
  unsigned long h = {top};
  h = h + 1;
  unsigned long r = 0;
  bool t = b < 64;
  while (t) {{
    bool x = h <= a;
    r = r + r;
    r = r + x;
    a = a + a;
    b = b + 1;
    t = b < 64;
  }}
  return r;
}}"""

RIGHT_SIGNED = """\
long {name}(long a, unsigned long b) {{
  bool n = a < 0;
  if (n) {{
    a = -1 - a;
  }}
  unsigned long u = this->{unsigned}(a, b);
  long r = u;
  if (n) {{
    r = -1 - r;
  }}
  return r;
}}"""


class Arithmetic:
    """The helpers that a program needs, by their names."""

    def __init__(self, program):
        self.program = program
        self.names, self.texts = {}, []

    def name(self, word, shape):
        """The function for an operation on numbers of a shape."""
        sort = "unsigned" if not shape.signed else "int" if shape.word == "int" else "signed"
        return self.made(word, sort)

    def made(self, word, sort):
        if word in ("and", "or", "exclusive", "left"):
            sort = "unsigned"
        if word == "right" and sort == "int":
            sort = "signed"
        if (word, sort) not in self.names:
            name = self.program.names.function_words.new(f"{word}_{sort}")
            self.names[word, sort] = name
            self.texts.append(self.text(word, sort, name))
        return self.names[word, sort]

    def text(self, word, sort, name):
        if word in ("divide", "remainder"):
            if sort == "unsigned":
                return DIVIDE_UNSIGNED.format(name=name, end=self.program.division_end(), result="q" if word == "divide" else "a")
            flip, minus = ("n != k", "0 - a") if word == "divide" else ("n == true", "0")
            return DIVIDE_SIGNED.format(name=name, word="int" if sort == "int" else "long", unsigned=self.made(word, "unsigned"), flip=flip, minus=minus)
        if word == "left":
            return LEFT.format(name=name)
        if word == "right":
            return (RIGHT if sort == "unsigned" else RIGHT_SIGNED).format(name=name, top=TOP, unsigned=self.made(word, "unsigned") if sort != "unsigned" else "")
        asked = {"and": "n == 2", "or": "0 < n", "exclusive": "n == 1"}[word]
        return BITS.format(name=name, top=TOP, asked=asked)
