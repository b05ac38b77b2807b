"""Files in the Minibex that IBEX takes, and what `python3 -m paver from-ibex` has to make of them.

TAKEN has a name, the file, and the profile's text by hand; REFUSED has a name, the file, and of each form that can't
be written its line and a word of the form.
"""

TAKEN = [
    ("square roots alone on one side", """variables
  x in [0, 4], y in [0, 4];
constraints
  sqrt(x + y) <= x - 1;
  sqrt(x*y) < 2;
  sqrt(x) >= y - 1;
  1 < sqrt(y);
  sqrt(x) = y;
end
""", """Variables x in [0,4], y in [0,4];
Constraints x + y <= (x - 1)^2; x + y >= 0; x - 1 >= 0; x*y < 4; x*y >= 0;
max(x - (y - 1)^2, 1 - y) >= 0; x >= 0; y > 1; x = y^2; y >= 0; end"""),
    ("square roots, one in a local assignment", """variables
  x in [0, 4], y in [0, 4];
function d(a, b)
  r = sqrt(a^2 + b^2);
  return r - 1;
end
constraints
  d(x, y) <= 0;
  sqrt(x) + sqrt(x) >= sqrt(9/4);
end
""", """Variables x in [0,4], y in [0,4], sqrt_1 in [0,oo], sqrt_2 in [0,oo];
Constraints sqrt_1 - 1 <= 0; sqrt_2 + sqrt_2 >= 1.5; sqrt_1^2 = x^2 + y^2; sqrt_2^2 = x; end"""),
    ("bounds beyond the numbers of the profile", """
variables
  x in [-1e50, 1e40], y in [1e40, 2e40];
constraints
  x <= 1;
  y >= x;
end
""", """Variables x in [-oo,oo], y in [9999999999999999999999999999999999999,oo];
Constraints x <= 1; y >= x; end"""),
    ("a vector and a loop", """
variables
  x[3] in [-10, 10];
constraints
  for i=1:2;
    x(i) <= x(i+1);
  end
  x(1)^2 + x(2)^2 = x(3);
end
""", """Variables x_1 in [-10,10], x_2 in [-10,10], x_3 in [-10,10];
Constraints x_1 <= x_2; x_2 <= x_3; x_1^2 + x_2^2 = x_3; end"""),
    ("indices from 0 and from 1", """
Variables
  p[2] in [0, 1]; A[2][2] in [-1, 1];
Constraints
  p[0] - p(2) >= 0;
  A[0][1] + A(2,1) = 1;
  A(1)(1) <= A[1][1];
end
""", """Variables p_1 in [0,1], p_2 in [0,1], A_1_1 in [-1,1], A_1_2 in [-1,1], A_2_1 in [-1,1], A_2_2 in [-1,1];
Constraints p_1 - p_2 >= 0; A_1_2 + A_2_1 = 1; A_1_1 <= A_2_2; end"""),
    ("a sum over an index", """
constants
  n = 4;
  w[4] = (1; 2; .5; -1);
variables
  x[n];
constraints
  sum(i=1:n, w(i)*x(i)^2) <= 10;
  sum(i=1:n-1, (x(i+1)-x(i))^2) >= 1;
end
""", """Variables x_1, x_2, x_3, x_4;
Constraints x_1^2 + 2*x_2^2 + 0.5*x_3^2 - x_4^2 <= 10;
(x_2 - x_1)^2 + (x_3 - x_2)^2 + (x_4 - x_3)^2 >= 1; end"""),
    ("local assignments and vector parameters", """
function dist(a[2], b[2])
  dx = a(1) - b(1);
  dy = a(2) - b(2);
  return dx^2 + dy^2;
end
variables
  u[2] in [0, 5]; v[2] in [0, 5];
constraints
  dist(u, v) >= 4;
  dist(u, (1; 2)) <= 9;
end
""", """Variables u_1 in [0,5], u_2 in [0,5], v_1 in [0,5], v_2 in [0,5];
Constraints (u_1 - v_1)^2 + (u_2 - v_2)^2 >= 4; (u_1 - 1)^2 + (u_2 - 2)^2 <= 9; end"""),
    ("a chain and a membership", """
variables
  x in [-1, 1], y in [-1, 1];
constraints
  -0.25 <= x*y <= .25;
  x + y in [0, 3/2];
  x - y in [-oo, 1];
end
""", """Variables x in [-1,1], y in [-1,1];
Constraints -0.25 <= x*y; x*y <= 0.25; x + y >= 0; x + y <= 1.5; x - y <= 1; end"""),
    ("interval constants", """
constants
  m in [1.5, 2.5];
  one = [1, 1];
variables
  x in [0, 4];
constraints
  x^2 = m;
  one*x >= 1;
end
""", """Variables x in [0,4]; Constraints x^2 >= 1.5; x^2 <= 2.5; 1*x >= 1; end"""),
    ("an interval in an expression", """
constants
  a in [.9, 1.1];
variables
  x in [0, 4], y in [0, 4];
constraints
  a*x + y = 2;
  x <= a;
end
""", """Variables x in [0,4], y in [0,4], a in [0.9,1.1];
Constraints a*x + y = 2; x <= a; end"""),
    ("powers above 32 and below 0", """
variables
  x in [0, 2], y in [1, 2];
constraints
  x^40 + x^33 <= 1;
  y^-2 >= .5;
  y^37 <= 7;
end
""", """Variables x in [0,2], y in [1,2];
Constraints (x^20)^2 + (x^11)^3 <= 1; 1/y^2 >= 0.5; y*(y^18)^2 <= 7; end"""),
    ("bounds and exponents of constants", """
constants
  r = 2.5; n = 3; h = 2*r;
variables
  x in [-2*r, h+1], y in [-r, r^2];
constraints
  x^(n-1) + y^n <= h;
  x >= -r/2;
end
""", """Variables x in [-5,6], y in [-2.5,6.25]; Constraints x^2 + y^3 <= 5; x >= -1.25; end"""),
    ("a matrix times a vector", """
constants
  A[2][2] = ((1, 2); (3, 4));
  b[2] = (1; -1);
variables
  x[2] in ([0,1]; [-1,2]);
constraints
  A*x <= b;
  x'*x >= 0.1;
end
""", """Variables x_1 in [0,1], x_2 in [-1,2];
Constraints 1*x_1 + 2*x_2 <= 1; 3*x_1 + 4*x_2 <= -1; x_1*x_1 + x_2*x_2 >= 0.1; end"""),
    ("nested loops and many arguments", """
variables
  q[2][2] in [0, 9];
constraints
  for i=1:2;
    for j=i:2;
      q(i,j) >= i + 2*j - 4;
    end;
  end;
  max(q(1,1), q(1,2), q(2,1)) <= 8;
end
""", """Variables q_1_1 in [0,9], q_1_2 in [0,9], q_2_1 in [0,9], q_2_2 in [0,9];
Constraints q_1_1 >= 1 + 2*1 - 4; q_1_2 >= 1 + 2*2 - 4; q_2_2 >= 2 + 2*2 - 4;
max(q_1_1, max(q_1_2, q_2_1)) <= 8; end"""),
    ("names that the profile keeps, and a kept function", """
Constants
  third = 1/3;
Variables
  x in [0, 1], x_1 in [0, 1], v[1] in [0, third];
Function half(a, min_)
  b = a/2;
  return b*min_;
end
Constraints
  half(x, x_1) <= third;
  half(v(1), 2) = 0;
  v(1) <= x;
end
""", """Variables x in [0,1], x_1 in [0,1], v_1 in [0,0.333333333333333333333333333334];
function half(a, b) return a/2*b; end
Constraints half(x, x_1) <= 1/3; half(v_1, 2) = 0; v_1 <= x; end"""),
    ("comments, capitals and a vector function", """
/* a rotation
   by three and four fifths */
Constants
  c = 0.6; s = 0.8; // both
Variables
  p[2] in [-1, 1];
function turn(a[2])
  return (c*a(1) - s*a(2); s*a(1) + c*a(2));
end
Constraints
  turn(p) >= (0; -.5);
  turn(turn(p)) <= (1; 1);
end
""", """Variables p_1 in [-1,1], p_2 in [-1,1];
Constraints 0.6*p_1 - 0.8*p_2 >= 0; 0.8*p_1 + 0.6*p_2 >= -0.5;
0.6*(0.6*p_1 - 0.8*p_2) - 0.8*(0.8*p_1 + 0.6*p_2) <= 1;
0.8*(0.6*p_1 - 0.8*p_2) + 0.6*(0.8*p_1 + 0.6*p_2) <= 1; end"""),
]

REFUSED = [
    ("sines and cosines", """variables
  t in [-3, 3], x in [-2, 2];
constraints
  x = cos(t);
  x >= sin(t)^2;
end
""", [(4, "cos"), (5, "sin")]),
    ("an exponential", """variables
  p in [0, 10], q in [0, 1];
constraints
  p*exp(-q*2) in [1, 2];
end
""", [(4, "exp")]),
    ("an objective", """variables
  x in [0, 4];
minimize
  x^2 - x;
constraints
  x >= 1;
end
""", [(3, "minimize")]),
    ("pi, and a tangent", """constants
  a = 2*pi;
variables
  x in [0, 1];
constraints
  tan(x) <= 1;
end
""", [(2, "pi"), (6, "tan")]),
    ("too many variables", """variables
  x[13] in [0, 1];
constraints
  x(1) <= x(13);
end
""", [(2, "13 variables")]),
    ("too many constraints", """variables
  x[9] in [0, 1];
constraints
  for i=1:9;
    for j=1:9;
      x(i) + x(j) <= 1.5;
    end
  end
end
""", [(6, "81 constraints")]),
    ("an exponent that is a variable, and a fractional one", """variables
  x in [0, 1], y in [0, 1];
constraints
  x^y <= 1;
  x^0.5 <= 1;
end
""", [(4, "exponent"), (5, "1/2")]),
    ("logarithms and inverse functions", """variables
  x in [1, 2], y in [1, 2];
constraints
  ln(x) + log(y) <= 1;
  atan2(y, x) >= 0.5;
  acos(x - 1) <= 1;
end
""", [(4, "ln"), (5, "atan2"), (6, "acos")]),
    ("a wrong index and an unknown name", """variables
  x[2] in [0, 1];
constraints
  x(3) <= 1;
  x[2] <= 1;
  z <= x(1);
end
""", [(4, "index"), (5, "index"), (6, "`z`")]),
    ("a sign, a floor and an unknown function", """variables
  x in [-1, 1];
constraints
  sign(x) = 1;
  floor(x) <= 0;
  heaviside(x) >= 0;
end
""", [(4, "sign"), (5, "floor"), (6, "heaviside")]),
    ("what is too large", f"""variables
  x in [0, 1], y[100000000] in [0, 1]; z in [0, 1e12345];
constraints
  x <= 1e400;
  x^1e350 <= 1;
  x >= 0.{'1' * 2000};
end
""", [(2, "number 1e12345"), (2, "entries"), (4, "over 1e308"), (5, "exponent over"), (6, "number 0.11")]),
    ("a vector in itself", """variables
  x[2] in [-1, 1];
constraints
  x in x;
end
""", [(4, "`x` as a set")]),
    ("a form that is no Minibex", """variables
  x in [-1, 1];
constraints
  x != 0;
  x <= 1;
end
""", [(4, "!=")]),
]
