"""A user's script over the public surface of the package: a test has its types checked, and never runs it."""
from concurrent.futures import ThreadPoolExecutor
from fractions import Fraction
import paver

answer: paver.Answer = paver.run("s.mbx", eps=0.1, depth=60, boxes=1e4, out="f")
text: paver.Answer = paver.run_text("Variables x; Constraints x<=1; end")
paving: paver.Paving = answer.paving()
counts: dict[str, int] = paving.counts()
print(answer.summary["open"], answer.complete, answer.known.names, answer.warnings(), counts)
for box in paving.inner():
    print(box.exact, box.floats, box.centre, box[0], box["x"], (1, 2) in box, box.width, box.volume, len(box), box == box)
print(paving.hull("inner"), paving.floats_of_hull(), paving.widest(), paving.greatest(3))
print(paving.where((1, 0)), paving.where({"x": 1}))
for cluster in paving.clusters(gap=0.5):
    print(cluster.hull, cluster.boxes)
print(paving.numpy("inner"), paving.frame(exactly=True), paving.volumes()["inner"])
found: paver.Path = paver.path(paving, (1, 0), {"x": 1, "y": Fraction(1, 3)})
print(found.points, found.boxes[0][0].exact, found.length, found.verdict is paver.Verdict.PATH, paving.path((1, 0), (0, 1)))
old = paver.Paving.read("old", system="s.mbx", eps=0.5, identity=None)
print(paver.check("s.mbx").identity(eps=0.5), old.identity, old.file_text())
print(paver.least("s.mbx", "x", boxes=3).lower, paver.audit("s.mbx", "f"), paver.audit_centered("s.mbx", "f"))
print(paver.resume("s.mbx", ["f"], boxes=3), paver.merge("s.mbx", "f"), paver.campaign("s.mbx", "k", rounds=2))
print(paver.draw("s.mbx", "f", "x", "y", at=[1.5, Fraction(1, 2)]), paver.sample(1, 2), paver.svg(paving, "x", 1, {"z": 1}))
paver.plot(paving, "x", "y")
print(paver.split("s.mbx", 3, "parts"), paver.gather("parts").counts())
print(paver.find_roots(paver.check("s.mbx"), paving)[0].middle)
print(paver.depth_that_suffices([(0, 1)], 0.5), paver.__version__, paver.warnings_of(answer, paving))
print(paver.find(), paver.run_centered("s.mbx").text, paver.plot_projection(paving), box, box.holds([1, 2]))
print(paver.least_by_levels("s.mbx", "x", within="0.01", tries=[{"x": Fraction(1)}]).lower)
print(paver.undecided(paving, paver.check("s.mbx")))
print(paver.robot("arm.txt", pose={"x": 1, "y": "0.5"}, rotation="half", charts="01", singular=Fraction(1, 8)))
print(paver.robust("s.mbx", ["p"], eps="0.5"), paver.vertices_text("s.mbx", ["p"]), paver.scaled_text("s.mbx"))
print(paver.widened("Variables x; Constraints x=1; end", Fraction(1, 8)), paver.widened_contract("hc4(0)", ["="]))
with paver.widened_file("s.mbx", Fraction(1, 8), {"eps": 1}) as (widened, options):
    print(widened.name, options)
swept: paver.Sweep = paver.sweep("s.mbx", "folder", eps=0.5, shares=8, engine=ThreadPoolExecutor(2), tell=print)
print(swept.counts["open"], swept.out.name, swept.hours, swept.greatest["seconds"], swept.idle, swept.paving().hull())
asked: paver.Control = paver.control("loop.txt", theorems=False)
print(asked.text, asked.for_all, asked.constraints[0].origin, paver.control_text("stable").polynomial)
page: paver.View = paver.view("s.mbx", ["f", paving], eps=0.5, form="plain", unchecked=True, strict=True)
page.save("page.html")
plane: paver.Projection = paver.project(paving, "x", 1)
print(plane.counts(), plane.areas()["some"], plane.where((1, 0)), plane.svg(), plane.page().html, plane.numpy("none"))
fitted: paver.Fit = paver.fit("model.txt", "data.csv", 1, yerr="0.1", together=2)
print(fitted.text, fitted.contract, fitted.groups[0][0].line, fitted.outliers)
decided: paver.Decisions = paver.decide(paving, {"x": 1}, tries=100)
if decided.tolerance is not None and decided.largest is not None:
    print(decided.tolerance.point, decided.tolerance.share, decided.tolerance.most, decided.largest.box, decided.scales)
ball = decided.ball
print(None if ball is None else (ball.point, ball.radius, ball.most, ball.reaches))
reported: str = paver.report("s.mbx", "f", scale={"x": Fraction(1)}, eps=0.5)
print(reported)
try:
    paver.check_text("bad")
except paver.SystemRefused as fault:
    print(fault.row, fault.column, fault.byte, fault.cause, fault.status, fault.line)
