#!/bin/sh
# Draws each example's picture into docs/pictures, with the program's path as its argument.
set -e
cd "$(dirname "$0")/.."
PAVER=$(realpath "${1:-./paver}") PYTHONPATH=python
export PAVER PYTHONPATH
draw() {
    name=$1
    shift
    python3 -m paver plot "examples/$name.mbx" --picture "docs/pictures/$name.svg" "$@" 2>/dev/null
}
robust() { # what holds for all values of some variables
    name=$1
    shift
    python3 -m paver robust "examples/$name.mbx" --picture "docs/pictures/$name.svg" "$@" >/dev/null
}
pairs() { # qinter over pairs of constraints: how many agree, and of how many pairs
    text="qinter($1"
    for k in $(seq 0 $(($2 - 1))); do text="$text,compose(hc4($((2 * k))),hc4($((2 * k + 1))))"; done
    echo "$text)"
}
draw ring --eps 0.125
draw two_discs --eps 0.125
draw pi_gains --eps 0.0625
draw gough_slice --eps 0.0625
draw bounded_error_fit --eps 0.03125
draw localisation --eps 0.0625 --contract "$(pairs 4 5)"
draw unbounded --depth 10
draw torus --eps 0.125 --boxes 100000 --at z=0.3
draw tolerance --eps 0.5 --at c=6
draw planar_arm --eps 0.0625 --boxes 1000000 --limit 1000000 --x hx --y hy --project
draw arm_configurations --eps 0.0078125
draw robust_pid --eps 0.25 --boxes 100000 --at kd=1
draw outlier_decay --eps 0.0078125 --contract "$(pairs 6 7)" --near --stretch
draw three_rpr --eps 0.015625 --boxes 200000 --limit 200000 --at t=0.1
draw damped_gains --eps 0.03125
draw platform_determinant --eps 0.03125
draw lyapunov_fall --eps 0.03125
draw puma_poses --eps 0.0625 --x c1 --y s1 --project
robust uncertain_pid --for-all a,g --eps 0.0625 --boxes 100000
robust joint_tolerances --for-all u,v --eps 0.03125 --boxes 100000
