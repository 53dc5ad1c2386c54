% Right triangles with whole sides.
var 1..40: a; var 1..40: b; var 1..60: c;
constraint a * a + b * b = c * c /\ a < b;
solve satisfy;
